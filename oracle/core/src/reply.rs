//! One query, buffers included: refusals 1 to 9 in order, then the evaluation.

use std::rc::Rc;

use original::hooks::{self, Stop};

use crate::book::Book;
use crate::delegate::{self, End};
use crate::{cache, work_len};

#[derive(Clone, Copy, Debug, PartialEq, Eq)]
pub enum Outcome {
    /// Document 01's reply; refusal 0 is an accepted query.
    Replied { answer: u8, refusal: u8 },
    /// The fuel ran out. The buffers are untouched.
    TooLong,
    /// The original panicked, other than by refusals 10 and 11. The buffers are untouched.
    Panicked,
    /// Document 01's statement on stack and entries failed. The buffers are untouched.
    FrameIsWrong(&'static str),
}

#[derive(Clone, Copy, Debug, PartialEq, Eq)]
pub struct Report {
    pub outcome: Outcome,
    /// The most provisional entries that were live at once.
    pub high_water: usize,
    /// How often a goal's part was read.
    pub goal_runs: u64,
}

#[derive(Clone, Copy, Debug)]
pub struct Limits {
    /// The most goal runs.
    pub fuel: u64,
    /// Whether refusal 10 is given; without it the original's own answer is found.
    pub cap_entries: bool,
    /// Whether document 01's statement on stack and entries is checked after each frame.
    pub check_frames: bool,
}

impl Default for Limits {
    fn default() -> Limits {
        Limits { fuel: u64::MAX, cap_entries: true, check_frames: false }
    }
}

/// Document 01's query, ended after `fuel` goal runs.
pub fn reply(
    book: &[u8],
    cache: &mut [u8],
    work: &mut [u8],
    goal: usize,
    depth: usize,
    fuel: u64,
) -> Report {
    let limits = Limits { fuel, ..Limits::default() };
    reply_within(limits, book, cache, work, goal, depth)
}

pub fn reply_within(
    limits: Limits,
    book: &[u8],
    cache: &mut [u8],
    work: &mut [u8],
    goal: usize,
    depth: usize,
) -> Report {
    match Book::read(book) {
        Ok(book) => reply_to_read(limits, &Rc::new(book), cache, work, goal, depth),
        Err(refusal) => refused(refusal),
    }
}

/// The same from a book that was read before.
pub fn reply_to_read(
    limits: Limits,
    book: &Rc<Book>,
    cache: &mut [u8],
    work: &mut [u8],
    goal: usize,
    depth: usize,
) -> Report {
    if let Some(refusal) = refusal_before(book, cache, work, goal, depth) {
        return refused(refusal);
    }
    let entry_limit = if limits.cap_entries { 2 * book.header.goals } else { usize::MAX };
    hooks::start(entry_limit, limits.check_frames);
    let loaded = cache::load(&book.header, cache);
    let (end, left, fuel) = delegate::evaluate(book, loaded, goal, depth, limits.fuel);
    let outcome = match end {
        End::Answer(answer) => {
            cache::store(&book.header, &left, cache);
            work.fill(0);
            Outcome::Replied { answer, refusal: 0 }
        }
        End::Stopped(Stop::Refused(refusal)) => {
            cache.fill(0);
            work.fill(0);
            Outcome::Replied { answer: 0, refusal }
        }
        End::Stopped(Stop::TooLong) => Outcome::TooLong,
        End::Stopped(Stop::FrameIsWrong(why)) => Outcome::FrameIsWrong(why),
        End::Panicked => Outcome::Panicked,
    };
    Report { outcome, high_water: hooks::high_water(), goal_runs: limits.fuel - fuel }
}

/// Refusals 5 to 9, in order.
fn refusal_before(book: &Book, cache: &[u8], work: &[u8], goal: usize, depth: usize) -> Option<u8> {
    let header = &book.header;
    if goal >= header.goals {
        Some(5)
    } else if depth > header.top_depth {
        Some(6)
    } else if cache.len() != header.cache_len() {
        Some(7)
    } else if !cache::well_formed(header, cache) {
        Some(8)
    } else if work.len() != work_len(header.goals) {
        Some(9)
    } else {
        None
    }
}

fn refused(refusal: u8) -> Report {
    Report { outcome: Outcome::Replied { answer: 0, refusal }, high_water: 0, goal_runs: 0 }
}
