//! The recorded vectors that are not hunted: document 01's examples, every refusal, caches made
//! by hand, and some cases of every class.

pub(crate) mod caches;
mod refusals;

use crate::book::{Book, Header, Part, write_line};
use crate::case::{Case, Query};
use crate::generate::{CLASSES, class_named, examples};
use crate::reply::Limits;
use crate::work_len;

/// The names of the files, and what they hold.
pub const FILES: [(&str, &str); 4] = [
    (
        "document",
        "document 01's examples, by line of its table, its refusals 10 and 11, and three rare frames",
    ),
    ("refusals", "every refusal, each in several ways, and what is just not refused"),
    ("caches", "well-formed caches made by hand"),
    ("random", "a few cases of every class of the generator"),
];

/// The cases of a file, with their replies; none if there is no such file.
pub fn cases(name: &str) -> Option<Vec<Case>> {
    let cases = match name {
        "document" => document(),
        "refusals" => refusals::all(),
        "caches" => caches::all(),
        "random" => return Some(random()),
        _ => return None,
    };
    let limits = Limits { fuel: 100_000, ..Limits::default() };
    Some(cases.iter().map(|case| case.answered(limits)).collect())
}

fn document() -> Vec<Case> {
    let mut cases: Vec<Case> = Vec::new();
    for (i, example) in examples::table().iter().enumerate() {
        cases.push(named(format!("example-{}", i + 1), example.case()));
    }
    cases.push(named("refusal-10", examples::one_entry_too_many()));
    cases.push(named("refusal-11", examples::another_result_held()));
    cases.push(named("ninety-nine-runs", examples::ninety_nine_runs()));
    cases.push(named("no-cycle-usages", examples::no_cycle_usages()));
    cases.push(named("three-runs", examples::three_runs()));
    cases
}

/// Seed, cases of a small class, and the most characters of a case.
const SEED: u64 = 2026;
const EACH: usize = 6;
const MOST_TEXT: usize = 9_000;
/// The same for the classes of large books.
const LARGE: [&str; 2] = ["large", "long"];
const EACH_LARGE: usize = 4;
const MOST_LARGE_TEXT: usize = 50_000;
/// Document 01's examples have their own file; the classes of document 02 are younger than this one.
const LEFT_OUT: [&str; 6] = ["examples", "mixed", "deep", "closing", "reruns", "drafts"];

/// The first cases of each class that are not too long.
fn random() -> Vec<Case> {
    let mut out = Vec::new();
    for class in CLASSES.iter().filter(|c| !LEFT_OUT.contains(&c.name)) {
        let large = LARGE.contains(&class.name);
        let (each, most, fuel) =
            if large { (EACH_LARGE, MOST_LARGE_TEXT, 20_000) } else { (EACH, MOST_TEXT, 300) };
        let limits = Limits { fuel, ..Limits::default() };
        let cases = (0..).map(|number| class.case(SEED, number).answered(limits));
        let fitting = cases.filter(|case| {
            let mut text = String::new();
            case.write(&mut text);
            text.len() <= most && !case.queries.is_empty()
        });
        out.extend(fitting.take(each));
    }
    out
}

fn named(name: impl Into<String>, case: Case) -> Case {
    Case { name: name.into(), ..case }
}

/// Cases of a class that are picked by their numbers.
fn of_class(name: &str, seed: u64, numbers: impl Iterator<Item = u64>) -> Vec<Case> {
    let class = class_named(name).expect("a class");
    numbers.map(|number| class.case(seed, number)).collect()
}

/// A book of one goal: T 5, L 1, V 1, cache on.
fn one_goal(part: Part) -> Book {
    book([1, 1, 5, 1, 1], vec![part])
}

fn book([cache, goals, top_depth, step_limit, divisor]: [usize; 5], parts: Vec<Part>) -> Book {
    let provisional_cache = cache == 1;
    Book { header: Header { provisional_cache, goals, top_depth, step_limit, divisor }, parts }
}

pub fn call(goal: usize, kind: u8, lower: bool) -> Part {
    Part::Call { goal, kind, lower }
}

pub fn yes() -> Part {
    Part::All(vec![])
}

pub fn no() -> Part {
    Part::Any(vec![])
}

/// A case on a cache of zeros; each query is a goal and a depth.
fn on(name: impl Into<String>, book: &Book, queries: &[(usize, usize)]) -> Case {
    let work = work_len(book.header.goals);
    let queries = queries.iter().map(|(goal, depth)| Query::new(*goal, *depth, work)).collect();
    let cache = vec![0; book.header.cache_len()];
    Case { name: name.into(), book: book.to_bytes(), cache, queries }
}

/// A book's bytes from its lines.
fn lines(all: &[[usize; 5]]) -> Vec<u8> {
    let mut out = Vec::new();
    all.iter().for_each(|fields| write_line(&mut out, *fields));
    out
}
