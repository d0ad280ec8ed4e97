//! What is timed, each on the same lists: the library, the original in two ways, and two floors.

use std::hint::black_box;
use std::time::Instant;

use oracle_core::case::Query;
use oracle_core::session::Session;
use oracle_core::{Outcome, reply};

use crate::lists::List;

pub struct Engine {
    pub name: &'static str,
    /// Nanoseconds of so many runs of a list's queries.
    pub run: fn(&List, usize) -> u64,
}

pub const LIBRARY: usize = 0;
pub const ORIGINAL: usize = 1;
pub const FROM_BYTES: usize = 2;
pub const FLOOR: usize = 3;
pub const BYTE_FLOOR: usize = 4;

pub const ENGINES: [Engine; 5] = [
    Engine { name: "library", run: library },
    Engine { name: "original", run: original },
    Engine { name: "original-from-bytes", run: original_from_bytes },
    Engine { name: "floor", run: floor },
    Engine { name: "byte-floor", run: byte_floor },
];

/// Whole queries, from bytes to bytes.
fn library(list: &List, times: usize) -> u64 {
    let mut lent = Lent::of(list);
    let ask = |lent: &mut Lent, q: &Query| {
        black_box(library::query(
            &list.case.book,
            &mut lent.cache,
            &mut lent.work,
            q.goal,
            q.depth,
        ));
    };
    let set_anew = |lent: &mut Lent| lent.cache.copy_from_slice(&list.case.cache);
    timed(list, times, list.is_cached(), &mut lent, set_anew, ask)
}

/// Evaluations only: the book was read before, and the cache is kept in the original's own form.
fn original(list: &List, times: usize) -> u64 {
    let mut session = Session::new(&list.case.book).expect("a good book");
    let ask = |session: &mut Session, q: &Query| {
        black_box(session.ask(q.goal, q.depth));
    };
    let set_anew = |session: &mut Session| session.load(&list.case.cache);
    timed(list, times, list.is_cached(), &mut session, set_anew, ask)
}

/// The original doing what the library does: the book and the cache read from bytes, the cache written to them.
fn original_from_bytes(list: &List, times: usize) -> u64 {
    let mut lent = Lent::of(list);
    let ask = |lent: &mut Lent, q: &Query| {
        let Lent { cache, work } = lent;
        black_box(reply(&list.case.book, cache, work, q.goal, q.depth, u64::MAX));
    };
    let set_anew = |lent: &mut Lent| lent.cache.copy_from_slice(&list.case.cache);
    timed(list, times, list.is_cached(), &mut lent, set_anew, ask)
}

/// The least that document 01 makes every query do: read the book and the cache, here many bytes at once, and clear the workspace.
fn floor(list: &List, times: usize) -> u64 {
    let sum = |bytes: &[u8]| bytes.iter().fold(0u8, |sum, &b| sum.wrapping_add(b));
    read_and_clear(list, times, |bytes| sum(bytes) == 0)
}

/// The same, each byte looked at by itself: the loop ends at a byte that stands in no book and no cache.
fn byte_floor(list: &List, times: usize) -> u64 {
    read_and_clear(list, times, |bytes| bytes.iter().any(|&b| b >= 100))
}

fn read_and_clear(list: &List, times: usize, read: impl Fn(&[u8]) -> bool) -> u64 {
    let read_all = |lent: &mut Lent, _: &Query| {
        black_box(read(black_box(&list.case.book)) | read(black_box(&lent.cache)));
        black_box(&mut lent.work).fill(0);
    };
    timed(list, times, true, &mut Lent::of(list), |_| (), read_all)
}

/// The two buffers of a query that are written.
struct Lent {
    cache: Vec<u8>,
    work: Vec<u8>,
}

impl Lent {
    fn of(list: &List) -> Lent {
        Lent { cache: list.case.cache.clone(), work: vec![0; list.case.queries[0].work_len] }
    }
}

/// Where the queries change the cache, it is set anew before each run, which is not timed; else the clock is read once for all.
pub fn timed<S>(
    list: &List,
    times: usize,
    cache_stays: bool,
    state: &mut S,
    set_anew: impl Fn(&mut S),
    ask: impl Fn(&mut S, &Query),
) -> u64 {
    let at_once = if cache_stays { times.max(1) } else { 1 };
    let mut spent = 0;
    for _ in 0..times / at_once {
        set_anew(state);
        let start = Instant::now();
        ask_all(&list.case.queries, at_once, state, &ask);
        spent += start.elapsed().as_nanos() as u64;
    }
    spent
}

/// The function below, as callgrind knows it.
pub const ASKING: &str = "bench::engines::ask_all*";

/// Instructions are counted in this function only.
#[inline(never)]
fn ask_all<S>(queries: &[Query], times: usize, state: &mut S, ask: &impl Fn(&mut S, &Query)) {
    for _ in 0..times {
        queries.iter().for_each(|query| ask(state, query));
    }
}

/// Whether library and original answer the list alike, in answers and cache.
pub fn agree(list: &List) -> bool {
    let (mut ours, mut theirs) = (Lent::of(list), Lent::of(list));
    list.case.queries.iter().all(|q| {
        let code =
            library::query(&list.case.book, &mut ours.cache, &mut ours.work, q.goal, q.depth);
        let Lent { cache, work } = &mut theirs;
        let report = reply(&list.case.book, cache, work, q.goal, q.depth, u64::MAX);
        let answer = u8::try_from(code).ok();
        answer.is_some_and(|answer| report.outcome == Outcome::Replied { answer, refusal: 0 })
            && ours.cache == theirs.cache
    })
}
