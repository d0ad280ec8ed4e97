//! The lists that are timed: a book, a cache and queries in order, all of them accepted.

use oracle_core::book::Book;
use oracle_core::case::{Case, Query};
use oracle_core::generate::class_named;
use oracle_core::random::Random;
use oracle_core::{Outcome, Report, reply, work_len};

use crate::shapes;

/// The most goal runs of a list that is timed.
pub const FUEL: u64 = 20_000;
/// How many lists a class has.
pub const LISTS: usize = 20;
/// The most queries of a list in which all is cached.
const CACHED: usize = 8;

#[derive(Clone)]
pub struct List {
    pub case: Case,
    /// The goal runs of all queries together.
    pub runs: u64,
    /// The most provisional entries that were live at once.
    pub entries: usize,
}

/// How many queries the lists have together.
pub fn queries(lists: &[List]) -> usize {
    lists.iter().map(|list| list.case.queries.len()).sum()
}

impl List {
    /// None where a query is refused, or the list takes more than `fuel` goal runs.
    pub fn tried(case: Case, fuel: u64) -> Option<List> {
        let (mut cache, mut runs, mut entries) = (case.cache.clone(), 0, 0);
        for query in &case.queries {
            let report = accepted(&case.book, &mut cache, query, fuel - runs)?;
            runs += report.goal_runs;
            entries = entries.max(report.high_water);
        }
        Some(List { case, runs, entries })
    }

    /// The book's goal 0, asked at its top depth with a cache of zeros.
    pub fn of_book(book: &Book, fuel: u64) -> Option<List> {
        let queries = vec![query(book, 0)];
        List::tried(fresh(book, queries), fuel)
    }

    /// As oracle/README.md describes cases.
    pub fn text(&self) -> String {
        let mut text = String::new();
        self.case.write(&mut text);
        text
    }

    /// Nothing is evaluated, so the cache stays as it is.
    pub fn is_cached(&self) -> bool {
        self.runs == 0
    }

    /// The same book with the cache that asking every goal leaves, and the first goals that it answers.
    pub fn cached(&self) -> Option<List> {
        let book = Book::read(&self.case.book).expect("a good book");
        let mut case =
            fresh(&book, (0..book.header.goals).map(|goal| query(&book, goal)).collect());
        (case.queries, case.cache) = kept(&case, FUEL, |_| true);
        (case.queries, _) = kept(&case, 0, |_| true);
        case.queries.truncate(CACHED);
        List::tried(case, 0).filter(|list| !list.case.queries.is_empty())
    }
}

/// The queries that are accepted and take a number of goal runs that is wanted, at most `fuel`; and the cache that they leave.
fn kept(case: &Case, fuel: u64, wanted: fn(u64) -> bool) -> (Vec<Query>, Vec<u8>) {
    let (mut queries, mut left) = (Vec::new(), case.cache.clone());
    for query in &case.queries {
        let mut cache = left.clone();
        let report = accepted(&case.book, &mut cache, query, fuel);
        if report.is_some_and(|report| wanted(report.goal_runs)) {
            queries.push(query.clone());
            left = cache;
        }
    }
    (queries, left)
}

/// What a query takes; none where it is refused or takes more than `fuel` goal runs.
fn accepted(book: &[u8], cache: &mut [u8], query: &Query, fuel: u64) -> Option<Report> {
    let mut work = vec![0; query.work_len];
    let report = reply(book, cache, &mut work, query.goal, query.depth, fuel);
    matches!(report.outcome, Outcome::Replied { refusal: 0, .. }).then_some(report)
}

pub fn query(book: &Book, goal: usize) -> Query {
    Query::new(goal, book.header.top_depth, work_len(book.header.goals))
}

pub fn fresh(book: &Book, queries: Vec<Query>) -> Case {
    let cache = vec![0; book.header.cache_len()];
    Case { name: String::new(), book: book.to_bytes(), cache, queries }
}

pub struct Class {
    pub name: &'static str,
    pub what: &'static str,
    make: fn() -> Vec<List>,
}

impl Class {
    pub fn lists(&self) -> Vec<List> {
        (self.make)()
    }
}

pub fn class(name: &str) -> Option<&'static Class> {
    CLASSES.iter().find(|class| class.name == name)
}

const fn of(name: &'static str, what: &'static str, make: fn() -> Vec<List>) -> Class {
    Class { name, what, make }
}

pub const CLASSES: &[Class] = &[
    of("rings-4", "rings of 4 goals", || rings(4, true)),
    of("rings-16", "rings of 16 goals", || rings(16, true)),
    of("rings-64", "rings of 64 goals", || rings(64, true)),
    of("rings-4-off", "rings of 4 goals, provisional cache off", || rings(4, false)),
    of("rings-16-off", "rings of 16 goals, provisional cache off", || rings(16, false)),
    of("rings-64-off", "rings of 64 goals, provisional cache off", || rings(64, false)),
    of("deep-64", "64 goals on the stack, each with cycles to the lowest", || deep(64, true)),
    of("deep-64-off", "64 goals on the stack likewise, provisional cache off", || deep(64, false)),
    of("closing-16", "rings of 16 goals that close with 24 entries or more", || closing(16)),
    of("closing-64", "rings of 64 goals that close with 96 entries or more", || closing(64)),
    of("picks", "picks of calls, empty parts and undecided lines", || generated("picks", 30)),
    of("tangled", "cycles that cross each other", || generated("tangled", 50)),
    of("nested", "parts nested up to 8 deep", || generated("nested", 30)),
    of("large", "17 to 64 goals", || generated("large", 50)),
    of("long", "up to 1,000 lines", || generated("long", 30)),
    of("cached-4", "rings of 4 goals, every query in the cache", || cached(rings(4, true))),
    of("cached-16", "rings of 16 goals, every query in the cache", || cached(rings(16, true))),
    of("cached-64", "rings of 64 goals, every query in the cache", || cached(rings(64, true))),
    of("cached-long", "up to 1,000 lines, every query in the cache", || {
        cached(generated("long", 30))
    }),
];

/// Rings on which goal 0 takes at least 8 runs a goal.
fn rings(goals: usize, provisional_cache: bool) -> Vec<List> {
    let book = |r: &mut Random| shapes::ring(r, goals, provisional_cache);
    shaped(book, |list| list.runs >= 8 * goals as u64)
}

/// Books in which every goal comes to stand on the stack.
fn deep(goals: usize, provisional_cache: bool) -> Vec<List> {
    let book = |r: &mut Random| shapes::deep(r, goals, provisional_cache);
    shaped(book, |list| list.runs >= goals as u64)
}

/// Rings whose heads close while there are three quarters of the 2 G entries that there may be.
fn closing(goals: usize) -> Vec<List> {
    shaped(|r| shapes::closing(r, goals), |list| 2 * list.entries >= 3 * goals)
}

/// Books of a shape whose goal 0 is asked, as far as they are wanted.
fn shaped(book: impl Fn(&mut Random) -> Book, wanted: impl Fn(&List) -> bool) -> Vec<List> {
    let lists = (0..20_000).filter_map(|seed| List::of_book(&book(&mut Random::new(seed)), FUEL));
    lists.filter(wanted).take(LISTS).collect()
}

/// Cases of a generated class, with those queries that evaluate something, that take at least `least` goal runs.
fn generated(name: &str, least: u64) -> Vec<List> {
    let class = class_named(name).expect("a class");
    let list = |number| {
        let mut case = class.case(7, number);
        (case.queries, _) = kept(&case, FUEL, |runs| runs > 0);
        List::tried(case, FUEL)
    };
    (0..20_000).filter_map(list).filter(|list| list.runs >= least).take(LISTS).collect()
}

fn cached(lists: Vec<List>) -> Vec<List> {
    lists.iter().filter_map(List::cached).collect()
}
