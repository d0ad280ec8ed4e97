//! Document 01's delegate, with items 4 and 8 of document 02. The original hands no state to a
//! delegate, so the book, the cache and the fuel of the evaluation at hand are kept per thread.

use std::cell::{Cell, RefCell};
use std::fmt::Debug;
use std::panic::{AssertUnwindSafe, catch_unwind};
use std::rc::Rc;

use original::hooks::{self, Stop};
use original::search_graph::{
    CandidateHeadUsages, Cx, Delegate, GlobalCache, LowerAvailableDepth, PathKind, SearchGraph,
};

use crate::book::{Book, Part};

/// The context: it stands for what is lent to the evaluation at hand.
#[derive(Clone, Copy, Debug)]
pub(crate) struct Lent;

/// Reads the parts of the book at hand.
pub(crate) struct PartReader;

pub(crate) const NO: u8 = 0;
pub(crate) const YES: u8 = 1;
pub(crate) const UNDECIDED: u8 = 2;
pub(crate) const OVERFLOW: u8 = 3;

/// What the original keeps as a tracked result: with it, how often the goal's part was run for it
/// (document 02, item 8).
#[derive(Clone, Debug)]
pub(crate) struct Counted<T> {
    pub value: T,
    pub passes: usize,
}

/// How an evaluation ended.
pub(crate) enum End {
    Answer(u8),
    Stopped(Stop),
    Panicked,
}

thread_local! {
    static BOOK: RefCell<Option<Rc<Book>>> = const { RefCell::new(None) };
    static CACHE: RefCell<GlobalCache<Lent>> = const { RefCell::new(GlobalCache::new()) };
    static SETTINGS: Cell<(bool, usize, usize)> = const { Cell::new((false, 0, 1)) };
    static FUEL: Cell<u64> = const { Cell::new(0) };
}

/// Evaluates one goal from an empty stack. Gives how it ended, the cache left behind (of no use
/// unless there is an answer) and the fuel left.
pub(crate) fn evaluate(
    book: &Rc<Book>,
    cache: GlobalCache<Lent>,
    goal: usize,
    depth: usize,
    fuel: u64,
) -> (End, GlobalCache<Lent>, u64) {
    let header = &book.header;
    SETTINGS.set((header.provisional_cache, header.step_limit, header.divisor));
    FUEL.set(fuel);
    BOOK.set(Some(book.clone()));
    CACHE.set(cache);
    let run = || {
        let mut graph = SearchGraph::<PartReader>::new(depth);
        let (step, lower) = (PathKind::Inductive, LowerAvailableDepth::Yes);
        graph.evaluate_goal(Lent, goal, step, lower, &mut ())
    };
    let end = match catch_unwind(AssertUnwindSafe(run)) {
        Ok(answer) => End::Answer(answer),
        Err(payload) => match payload.downcast_ref::<Stop>() {
            Some(stop) => End::Stopped(*stop),
            None => End::Panicked,
        },
    };
    BOOK.set(None);
    (end, CACHE.replace(GlobalCache::new()), FUEL.get())
}

impl Cx for Lent {
    type Input = usize;
    type Result = u8;
    type AmbiguityKind = u8;
    /// The runs of a frame, which is what the original calls a task.
    type DepNodeIndex = usize;
    type Tracked<T: Debug + Clone> = Counted<T>;

    fn mk_tracked<T: Debug + Clone>(self, value: T, passes: usize) -> Counted<T> {
        Counted { value, passes }
    }
    fn get_tracked<T: Debug + Clone>(self, tracked: &Counted<T>) -> T {
        tracked.value.clone()
    }
    fn with_cached_task<T>(self, frame: impl FnOnce() -> T) -> (T, usize) {
        hooks::counting_runs(frame)
    }
    fn with_global_cache<R>(self, f: impl FnOnce(&mut GlobalCache<Self>) -> R) -> R {
        CACHE.with_borrow_mut(f)
    }
    fn assert_evaluation_is_concurrent(&self) {}
}

impl Delegate for PartReader {
    type Cx = Lent;
    type ValidationScope = ();
    type ProofTreeBuilder = ();
    const FIXPOINT_OVERFLOW_AMBIGUITY_KIND: u8 = OVERFLOW;

    fn enable_provisional_cache() -> bool {
        SETTINGS.get().0
    }
    fn fixpoint_step_limit() -> usize {
        SETTINGS.get().1
    }
    fn divide_available_depth_on_overflow() -> usize {
        SETTINGS.get().2
    }
    fn enter_validation_scope(_: Lent, _: usize) -> Option<()> {
        None
    }
    fn inspect_is_noop(_: &mut ()) -> bool {
        true
    }
    fn initial_provisional_result(_: Lent, kind: PathKind, _: usize) -> u8 {
        match kind {
            PathKind::Inductive => NO,
            PathKind::Coinductive => YES,
            PathKind::Unknown => UNDECIDED,
            PathKind::ForcedAmbiguity => OVERFLOW,
        }
    }
    fn is_initial_provisional_result(result: u8) -> Option<PathKind> {
        match result {
            NO => Some(PathKind::Inductive),
            YES => Some(PathKind::Coinductive),
            UNDECIDED => Some(PathKind::Unknown),
            OVERFLOW => Some(PathKind::ForcedAmbiguity),
            _ => None,
        }
    }
    fn stack_overflow_result(_: Lent, _: usize) -> u8 {
        OVERFLOW
    }
    fn fixpoint_overflow_result(_: Lent, _: usize) -> u8 {
        OVERFLOW
    }
    fn is_ambiguous_result(result: u8) -> Option<u8> {
        (result == UNDECIDED || result == OVERFLOW).then_some(result)
    }
    fn compute_goal(graph: &mut SearchGraph<Self>, _: Lent, goal: usize, _: &mut ()) -> u8 {
        match FUEL.get().checked_sub(1) {
            Some(left) => FUEL.set(left),
            None => hooks::stop(Stop::TooLong),
        }
        let book = BOOK.with_borrow(|book| book.clone()).expect("a book at hand");
        read_part(graph, &book.parts[goal])
    }
}

fn read_part(graph: &mut SearchGraph<PartReader>, part: &Part) -> u8 {
    match part {
        Part::Call { goal, kind, lower } => {
            let lower = if *lower { LowerAvailableDepth::Yes } else { LowerAvailableDepth::No };
            graph.evaluate_goal(Lent, *goal, path_kind(*kind), lower, &mut ())
        }
        Part::All(parts) => read_until(graph, parts, NO, YES),
        Part::Any(parts) => read_until(graph, parts, YES, NO),
        Part::Pick(candidates) => read_pick(graph, candidates),
        Part::Undecided => UNDECIDED,
    }
}

/// What all, any and pick make of two answers that do not decide them: 2 of 2 and 3 (document 02,
/// item 4), and otherwise the higher number.
fn combine(a: u8, b: u8) -> u8 {
    match (a, b) {
        (UNDECIDED, OVERFLOW) | (OVERFLOW, UNDECIDED) => UNDECIDED,
        _ => a.max(b),
    }
}

/// Left to right up to the deciding answer; else what was met, combined, from `empty` on.
fn read_until(graph: &mut SearchGraph<PartReader>, parts: &[Part], deciding: u8, empty: u8) -> u8 {
    let mut answer = empty;
    for part in parts {
        let next = read_part(graph, part);
        if next == deciding {
            return deciding;
        }
        answer = combine(answer, next);
    }
    answer
}

/// Every candidate is evaluated; combined as any; after a Yes the usages of all candidates but
/// the first Yes are merged and ignored.
fn read_pick(graph: &mut SearchGraph<PartReader>, candidates: &[Part]) -> u8 {
    let mut combined = NO;
    let mut yes_met = false;
    let mut others = CandidateHeadUsages::default();
    for candidate in candidates {
        graph.enter_single_candidate();
        let next = read_part(graph, candidate);
        let usages = graph.finish_single_candidate();
        if next == YES && !yes_met {
            yes_met = true;
        } else {
            others.merge_usages(usages);
            combined = combine(combined, next);
        }
    }
    if !yes_met {
        return combined;
    }
    graph.ignore_candidate_head_usages(others);
    YES
}

fn path_kind(kind: u8) -> PathKind {
    match kind {
        0 => PathKind::Inductive,
        1 => PathKind::Unknown,
        2 => PathKind::Coinductive,
        _ => PathKind::ForcedAmbiguity,
    }
}
