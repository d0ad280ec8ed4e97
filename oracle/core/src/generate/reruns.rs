//! Rings that take many passes (document 02, item 8). A result that is found from a cache of zeros
//! hardly changes a second time. Here a run that goes by the ring's Yes meets overflow, so that
//! what it calls next has less depth, and slots made by hand answer otherwise there.

use crate::book::{Book, COINDUCTIVE, Header, INDUCTIVE, Part};
use crate::case::{Case, Query};
use crate::random::Random;
use crate::slot::{DEPTH, FLAGS, HELD, PASSES, RESULT};
use crate::work_len;

/// The ring's head, a goal that calls it, and a goal in the ring.
pub const HEAD: usize = 0;
pub const CALLER: usize = 1;
const BACK: usize = 2;
/// Goals of which slots are made: all No; a Yes, and an undecided, where no overflow was met.
const MARK: usize = 3;
const YES_FIRST: usize = 4;
const MAYBE_FIRST: usize = 5;
const GOALS: usize = 6;

/// What ends the head's runs.
#[derive(Clone, Copy, Debug, PartialEq, Eq)]
pub enum Ring {
    /// Yes and No in turns up to the step limit.
    Limit,
    /// Yes, No, No.
    Fixpoint,
    /// Yes, undecided.
    Undecided,
    /// Yes, No, undecided.
    LateUndecided,
}

pub const RINGS: [Ring; 4] = [Ring::Limit, Ring::Fixpoint, Ring::Undecided, Ring::LateUndecided];

/// The head's part. A call into the ring keeps the depth, others lower it.
fn part(ring: Ring) -> Part {
    let back = |kind| Part::Call { goal: BACK, kind, lower: false };
    let made = |goal| Part::Call { goal, kind: INDUCTIVE, lower: true };
    let marked = Part::All(vec![back(INDUCTIVE), made(MARK)]);
    let once = Part::All(vec![back(COINDUCTIVE), made(YES_FIRST)]);
    match ring {
        Ring::Limit | Ring::Undecided => Part::Any(vec![marked, made(YES_FIRST)]),
        Ring::Fixpoint => Part::Any(vec![marked, once]),
        Ring::LateUndecided => Part::Any(vec![marked, once, made(MAYBE_FIRST)]),
    }
}

/// The case on a header of `GOALS` goals; the head is asked, or its caller, at the top depth.
pub fn case(ring: Ring, header: Header, asked: usize) -> Case {
    let call = |goal, lower| Part::Call { goal, kind: INDUCTIVE, lower };
    let no = || Part::Any(vec![]);
    let parts = vec![part(ring), call(HEAD, true), call(HEAD, false), no(), no(), no()];
    let book = Book { header, parts };
    let mut cache = vec![0; header.cache_len()];
    let first = depth(&header, asked) - 1;
    for at in 0..=header.top_depth {
        let later = if ring == Ring::Undecided { 2 } else { 0 };
        let by_depth = |result| if at == first { result } else { later };
        for (goal, result) in [(MARK, 0), (YES_FIRST, by_depth(1)), (MAYBE_FIRST, by_depth(2))] {
            fill(overflow_slot(&header, &mut cache, goal, at), result, at);
        }
    }
    let query = Query::new(asked, header.top_depth, work_len(GOALS));
    let queries = vec![query.clone(), query];
    Case { name: String::new(), book: book.to_bytes(), cache, queries }
}

/// Of the head's frame.
pub fn depth(header: &Header, asked: usize) -> usize {
    header.top_depth - usize::from(asked == CALLER)
}

fn fill(slot: &mut [u8], result: u8, depth: usize) {
    slot[HELD] = 1;
    slot[RESULT] = result;
    slot[DEPTH] = depth as u8;
    slot[PASSES] = 1;
}

fn overflow_slot<'a>(
    header: &Header,
    cache: &'a mut [u8],
    goal: usize,
    depth: usize,
) -> &'a mut [u8] {
    let start = (goal * header.slots_per_goal() + 1 + depth) * header.slot_len();
    &mut cache[start..start + header.slot_len()]
}

/// The same with a result held for the head, which does not apply below its caller.
pub fn held(ring: Ring, header: Header, result: u8, passes: u8) -> Case {
    let mut case = case(ring, header, CALLER);
    let at = depth(&header, CALLER);
    let slot = overflow_slot(&header, &mut case.cache, HEAD, at);
    fill(slot, result, at);
    slot[PASSES] = passes;
    slot[FLAGS + CALLER] = 2;
    case
}

pub fn header(top_depth: usize, step_limit: usize, divisor: usize) -> Header {
    Header { provisional_cache: true, goals: GOALS, top_depth, step_limit, divisor }
}

/// Any of these, now and then with other slots.
pub fn any(r: &mut Random) -> Case {
    let (ring, limit) = (r.choose(&RINGS), r.choose(&[0, 1, 2, 3, 3, 4, 5, 6, 8, 99]));
    let mut header = header(r.between(4, 7), limit, r.between(2, 4));
    header.provisional_cache = r.chance(80);
    let passes = r.between(1, header.most_passes()) as u8;
    let mut case = match r.below(3) {
        0 => case(ring, header, HEAD),
        1 => case(ring, header, CALLER),
        _ => held(ring, header, r.choose(&[0, 1, 2, 3, 3, 3]), passes),
    };
    for slot in case.cache.chunks_mut(header.slot_len()).filter(|slot| slot[HELD] == 1) {
        if r.chance(4) {
            slot[RESULT] = r.below(4) as u8;
        }
        if r.chance(4) {
            slot[PASSES] = r.between(1, header.most_passes()) as u8;
        }
    }
    case.queries.push(Query::new(r.below(GOALS), header.top_depth, work_len(GOALS)));
    case
}
