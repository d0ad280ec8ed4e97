//! Generators of cases. A class, a seed and a number always give the same case.

mod books;
mod caches;
pub mod change;
mod damage;
mod drafts;
pub mod examples;
mod mixed;
pub mod reruns;
mod shapes;

use crate::book::Book;
use crate::case::{Case, Query};
use crate::random::Random;
use crate::work_len;

pub struct Class {
    pub name: &'static str,
    pub what: &'static str,
    make: fn(&mut Random) -> Case,
}

const fn class(name: &'static str, what: &'static str, make: fn(&mut Random) -> Case) -> Class {
    Class { name, what, make }
}

pub const CLASSES: &[Class] = &[
    class("examples", "document 01's examples, at random", examples::any),
    class("tiny", "1 to 3 goals, small parts", |r| honest(r, books::tiny)),
    class("random", "up to 6 goals, all kinds and parts", |r| honest(r, books::random)),
    class("rings", "rings of goals, every mix of kinds", |r| honest(r, books::rings)),
    class("tangled", "cycles that cross each other", |r| honest(r, books::tangled)),
    class("picks", "picks of calls, empty parts and undecided lines", |r| honest(r, books::picks)),
    class("knots", "few goals, picks and cycles, few runs", |r| honest(r, books::knots)),
    class("nested", "parts nested up to 8 deep", |r| honest(r, books::nested)),
    class("overflow", "little depth, large divisors", |r| honest(r, books::overflow)),
    class("uncached", "provisional cache off", |r| honest(r, books::uncached)),
    class("many-entries", "many provisional entries at once", |r| honest(r, books::many_entries)),
    class("large", "17 to 64 goals", |r| honest(r, books::large)),
    class("deep", "up to 64 goals on the stack at once", |r| honest(r, books::deep)),
    class("closing", "rings that close with many entries", |r| honest(r, books::closing)),
    class("long", "up to 1,000 lines", |r| honest(r, books::long)),
    class("extremes", "header fields at their limits", |r| honest(r, books::extremes)),
    class("only-inductive", "calls of kind 0 only", |r| honest(r, books::only_inductive)),
    class("only-coinductive", "calls of kind 2 only", |r| honest(r, books::only_coinductive)),
    class("no-coinductive", "calls of kinds 0, 1, 3", |r| honest(r, books::no_coinductive)),
    class("no-inductive", "calls of kinds 1, 2, 3", |r| honest(r, books::no_inductive)),
    class("groups", "groups of either sort, calls downwards", |r| honest(r, books::groups)),
    class("mixed", "rings of either sort that call later ones", |r| honest(r, mixed::book)),
    class("drafts", "parts that nest more than they need to", drafts::any),
    class("bad-query", "goal, depth, cache or work length wrong", bad_query),
    class("damaged-book", "a book that is spoiled", damaged_book),
    class("made-cache", "a well-formed cache made by hand", made_cache),
    class("changed-cache", "a cache left behind, a few slots changed", changed_cache),
    class("reruns", "rings of many passes, by slots made by hand", reruns::any),
    class("refusals-race", "refusals 10 and 11 within reach of each other", refusals_race),
    class("damaged-cache", "a cache with ill-formed slots", damaged_cache),
];

pub fn class_named(name: &str) -> Option<&'static Class> {
    CLASSES.iter().find(|c| c.name == name)
}

impl Class {
    pub fn case(&self, seed: u64, number: u64) -> Case {
        let name = self.name.bytes().fold(0, |sum: u64, b| sum.rotate_left(5) ^ u64::from(b));
        let mut random = Random::new(name ^ seed.wrapping_mul(0x2545_f491_4f6c_dd1d));
        random = Random::new(random.number() ^ number.wrapping_mul(0x9e6c_63d0_676a_9a99));
        let case = (self.make)(&mut random);
        Case { name: format!("{}-{seed}-{number}", self.name), ..case }
    }
}

/// A good book, a cache of zeros and queries that are mostly good.
fn honest(r: &mut Random, make: fn(&mut Random) -> Book) -> Case {
    let book = make(r);
    let count = r.between(1, 6);
    let queries = (0..count).map(|_| query(r, &book, 4)).collect();
    on(&book, queries)
}

fn on(book: &Book, queries: Vec<Query>) -> Case {
    let cache = vec![0; book.header.cache_len()];
    Case { name: String::new(), book: book.to_bytes(), cache, queries }
}

/// A query; `bad` in a hundred are refused.
pub fn query(r: &mut Random, book: &Book, bad: usize) -> Query {
    let header = &book.header;
    let goal = if r.chance(30) { 0 } else { r.below(header.goals) };
    let depth = if r.chance(50) { header.top_depth } else { r.below(header.top_depth + 1) };
    let mut query = Query::new(goal, depth, work_len(header.goals));
    if r.chance(bad) {
        match r.below(4) {
            0 => query.goal = too_much(r, header.goals),
            1 => query.depth = too_much(r, header.top_depth + 1),
            2 => query.work_len = other_length(r, query.work_len),
            _ => {
                query.goal = too_much(r, header.goals);
                query.depth = too_much(r, header.top_depth + 1);
            }
        }
    }
    query
}

/// A number that is `least` or more, now and then one that is good when cut to fewer bits.
fn too_much(r: &mut Random, least: usize) -> usize {
    match r.below(6) {
        0 => 256 + r.below(least),
        1 => 65536 + r.below(least),
        2 => (1 << 32) + r.below(least),
        3 => usize::MAX,
        _ => least + r.below(3),
    }
}

fn other_length(r: &mut Random, length: usize) -> usize {
    match r.below(4) {
        0 => 0,
        1 => length + r.between(1, 64),
        2 => length - 1,
        _ => length - r.between(1, length),
    }
}

fn bad_query(r: &mut Random) -> Case {
    let book = books::any(r);
    let count = r.between(2, 6);
    let queries = (0..count).map(|_| query(r, &book, 60)).collect();
    let mut case = on(&book, queries);
    if r.chance(25) {
        let length = other_length(r, case.cache.len());
        case.cache = vec![0; length];
    }
    case
}

fn damaged_book(r: &mut Random) -> Case {
    let book = books::any(r);
    let queries = vec![query(r, &book, 10), query(r, &book, 0)];
    let mut case = on(&book, queries);
    case.book = damage::book(r, &book);
    case
}

fn made_cache(r: &mut Random) -> Case {
    let book = books::any_small(r);
    let count = r.between(1, 4);
    let queries = (0..count).map(|_| query(r, &book, 2)).collect();
    let mut case = on(&book, queries);
    case.cache = caches::made(r, &book.header);
    case
}

fn changed_cache(r: &mut Random) -> Case {
    let book = books::any_small(r);
    let count = r.between(1, 4);
    let queries = (0..count).map(|_| query(r, &book, 2)).collect();
    let mut case = on(&book, queries);
    case.cache = caches::changed(r, &book, &case);
    case
}

/// Many entries, and slots with other results that cannot be used.
fn refusals_race(r: &mut Random) -> Case {
    let book = books::many_entries(r);
    // Just below the depth that goal 0's slot requires; the root's own insert comes last.
    let depth = book.header.top_depth - 1;
    let first = Query::new(0, depth, work_len(book.header.goals));
    let mut case = on(&book, vec![first, query(r, &book, 0), query(r, &book, 0)]);
    case.cache = caches::unusable(r, &book.header);
    case
}

fn damaged_cache(r: &mut Random) -> Case {
    let mut case = if r.chance(50) { made_cache(r) } else { changed_cache(r) };
    let header = Book::read(&case.book).expect("a good book").header;
    caches::damage(r, &header, &mut case.cache);
    case
}
