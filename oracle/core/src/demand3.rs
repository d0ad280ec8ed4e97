//! Demand 3 on the original, as item 12 has it: on a book that meets the condition every Yes is
//! in the set of every choice, and every No outside it. A book without coinductive steps, or
//! without inductive ones, is measured by the least or the greatest set of the whole book too.

mod counts;
mod measure;

use std::rc::Rc;
use std::time::{Duration, Instant};

use crate::book::Book;
use crate::cache::well_formed;
use crate::case::{Case, Query};
use crate::generate::{class_named, query};
use crate::groups::wrong::Reading;
use crate::random::Random;
use crate::reply::{Limits, Outcome, reply_to_read};
use crate::slot::{HELD, RESULT};
pub use counts::{Counts, Seen};
use measure::Measure;

/// When the run ends: after so many lists or so long, whichever comes first.
#[derive(Clone, Copy)]
pub struct Extent {
    pub lists: u64,
    pub time: Duration,
    pub seed: u64,
    /// How item 12 is read.
    pub reading: Reading,
}

/// What is wrong, and the list that shows it.
#[derive(Clone, Debug)]
pub struct Violation {
    pub what: String,
    pub case: Case,
}

const LIMITS: Limits = Limits { fuel: 20_000, cap_entries: true, check_frames: true };

/// Books of one sort of steps.
const ONE_SORT: [&str; 4] =
    ["no-coinductive", "no-inductive", "only-inductive", "only-coinductive"];

/// Books of several groups, most of which meet item 12's condition.
const GROUPS: [&str; 4] = ["mixed", "mixed", "mixed", "groups"];

/// Other books, and caches made by hand: few are measured, but panics and the state after frames
/// are checked.
const OTHERS: [&str; 8] = [
    "random",
    "rings",
    "tangled",
    "picks",
    "nested",
    "many-entries",
    "made-cache",
    "changed-cache",
];

/// Runs random lists until the extent is reached or something is wrong; then the list is made
/// as small as single steps can.
pub fn run(extent: Extent) -> (Counts, Option<Violation>) {
    let start = Instant::now();
    let mut counts = Counts::default();
    while counts.lists < extent.lists && start.elapsed() < extent.time {
        let case = list(extent.seed, counts.lists);
        if let Some(what) = check(&case, extent.reading, &mut counts) {
            let wrong = |case: &Case| check(case, extent.reading, &mut Counts::default());
            let case = crate::shrink::shrink(&case, &|case| wrong(case).is_some());
            let what = wrong(&case).unwrap_or(what);
            return (counts, Some(Violation { what, case }));
        }
    }
    (counts, None)
}

/// List `number` of a seed: mostly a book that is measured and a cache of zeros; one to ten
/// queries.
fn list(seed: u64, number: u64) -> Case {
    let mut r = Random::new(seed.wrapping_mul(0x9e37_79b9) ^ number.rotate_left(32));
    let name = match r.below(100) {
        0..40 => r.choose(&ONE_SORT),
        40..85 => r.choose(&GROUPS),
        _ => r.choose(&OTHERS),
    };
    let class = class_named(name).expect("a class");
    let mut case = class.case(seed, number);
    let book = Book::read(&case.book).expect("a good book");
    let count = r.between(1, 10);
    case.queries = (0..count).map(|_| query(&mut r, &book, 8)).collect();
    if r.chance(1) {
        case.cache = vec![0; r.below(2 * book.header.cache_len())];
    }
    case
}

/// A list that is being asked.
struct List {
    book: Rc<Book>,
    cache: Vec<u8>,
    /// Where it is measured, by what, and what was seen.
    measured: Option<(Measure, Seen)>,
}

/// Runs one list; says what is wrong, if something is.
pub fn check(case: &Case, reading: Reading, counts: &mut Counts) -> Option<String> {
    let book = Rc::new(Book::read(&case.book).ok()?);
    let from_zeros = case.cache.iter().all(|&b| b == 0);
    let measured = if from_zeros { Measure::of(&book, reading) } else { None };
    counts.lists += 1;
    counts.broken += u64::from(from_zeros && measured.is_none());
    let mut list = List { book, cache: case.cache.clone(), measured };
    let wrong = case.queries.iter().find_map(|query| list.ask(query, counts));
    if let Some((_, seen)) = list.measured {
        counts.measured.add(&seen);
        if list.book.is_mixed() {
            counts.mixed.add(&seen);
        }
    }
    wrong
}

impl List {
    fn ask(&mut self, query: &Query, counts: &mut Counts) -> Option<String> {
        let mut work = vec![0xaa; query.work_len];
        let Query { goal, depth, .. } = *query;
        let report = reply_to_read(LIMITS, &self.book, &mut self.cache, &mut work, goal, depth);
        counts.queries += 1;
        counts.goal_runs += report.goal_runs;
        counts.high_water = counts.high_water.max(report.high_water);
        if let Some((_, seen)) = &mut self.measured {
            seen.queries += 1;
        }
        match report.outcome {
            Outcome::Replied { answer, refusal: 0 } => {
                counts.accepted += 1;
                counts.answers[usize::from(answer)] += 1;
                counts.longest = counts.longest.max(report.goal_runs);
                if !well_formed(&self.book.header, &self.cache) {
                    return Some(format!("goal {goal} at depth {depth} leaves an ill-formed slot"));
                }
                return self.wrong_answer(goal, depth, answer);
            }
            Outcome::Replied { refusal, .. } => counts.refused[usize::from(refusal)] += 1,
            Outcome::TooLong => counts.too_long += 1,
            Outcome::Panicked => {
                counts.panics += 1;
                return Some(format!("panic at goal {goal}, depth {depth}"));
            }
            Outcome::FrameIsWrong(why) => {
                return Some(format!("after a frame of goal {goal}, depth {depth}: {why}"));
            }
        }
        None
    }

    fn wrong_answer(&mut self, goal: usize, depth: usize, answer: u8) -> Option<String> {
        let (measure, seen) = self.measured.as_mut()?;
        measure.tell(goal, answer, seen);
        if !measure.allows(goal, answer) {
            return Some(format!("goal {goal} at depth {depth} is answered {answer}"));
        }
        wrong_slot(&self.book, measure, &self.cache)
    }
}

/// The same claim for every slot left behind.
fn wrong_slot(book: &Book, measure: &Measure, cache: &[u8]) -> Option<String> {
    let header = &book.header;
    let mut slots = cache.chunks(header.slot_len()).enumerate();
    let goal = |i: usize| i / header.slots_per_goal();
    let (i, slot) =
        slots.find(|(i, slot)| slot[HELD] == 1 && !measure.allows(goal(*i), slot[RESULT]))?;
    Some(format!("a slot of goal {} holds {}", goal(i), slot[RESULT]))
}
