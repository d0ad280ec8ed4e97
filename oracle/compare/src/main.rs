//! The proved library and the original, side by side in one process, on generated cases: answers, refusals, every byte
//! of cache and workspace, and guard bytes around what is lent; whether the guarantee of mixed books applies; and tidy
//! books.

mod guarantee;
mod guarded;
mod judge;
mod passes;
mod tally;
mod tidy;

use std::process::ExitCode;
use std::time::Instant;

use guarded::Guarded;
use oracle_core::arguments::Arguments;
use oracle_core::book::{Book, Header};
use oracle_core::case::{Case, Query};
use oracle_core::generate::{CLASSES, Class, class_named};
use oracle_core::tidy::wrong::{self, RIGHT, Reading};
use oracle_core::{Limits, Outcome, reply_within, work_len};
use passes::{KINDS, shown};
use tally::Tally;

const USAGE: &str = "usage: compare [--seed S] [--cases N] [--seconds T] [--fuel F] [--class NAME] [--least M]
               [--reading NAME]
  N cases of each class (100,000), for T seconds at the most (60); a query of more than F goal runs (20,000) is not compared.
  Fails where the two differ, where the original panics or has a frame out of order, where more than 1 query in 100 is too
  long, and where a class gives fewer comparisons, answers or refusals than it should. The last is judged from 1,000 cases of
  each class on, and said where there are fewer; with --least M, fewer than M are a failure.
  --mutant N: the original with wrong reading N (feature wrong_readings), to see this program find it.
  --reading NAME: books tidied by a wrong reading of item 1 (`oracle readings`), to the same end.";

struct Options {
    seed: u64,
    cases: u64,
    seconds: u64,
    limits: Limits,
    classes: Vec<&'static Class>,
    /// Fewer cases of each class are a failure.
    least: u64,
    /// How item 1 is read.
    reading: Reading,
}

impl Options {
    fn read() -> Result<Options, String> {
        let mut words = Arguments::new();
        oracle_core::read_as_told(&mut words)?;
        let classes = match words.option_word("--class")? {
            Some(name) => vec![class_named(&name).ok_or(format!("no class {name:?}"))?],
            None => CLASSES.iter().collect(),
        };
        let reading = match words.option_word("--reading")? {
            Some(name) => wrong::named(&name).ok_or(format!("no reading {name:?} of item 1"))?,
            None => RIGHT,
        };
        let options = Options {
            seed: words.option("--seed")?.unwrap_or(1),
            cases: words.option("--cases")?.unwrap_or(100_000),
            seconds: words.option("--seconds")?.unwrap_or(60),
            limits: Limits {
                fuel: words.option("--fuel")?.unwrap_or(20_000),
                check_frames: true,
                ..Limits::default()
            },
            classes,
            least: words.option("--least")?.unwrap_or(0),
            reading,
        };
        words.end()?;
        Ok(options)
    }
}

/// What the workspace holds before a query, or the output before tidying: anything.
fn any_bytes(len: usize, salt: usize) -> Vec<u8> {
    (0..len).map(|i| (i.wrapping_mul(37) ^ salt.wrapping_mul(101)) as u8).collect()
}

/// A query, and how it is told.
struct Asked<'a> {
    case: &'a Case,
    /// Where the book is good.
    header: Option<Header>,
    number: usize,
    query: &'a Query,
    /// The tidy book, where it is not the draft.
    tidied: Option<&'a [u8]>,
}

impl Asked<'_> {
    fn any_work(&self) -> Vec<u8> {
        any_bytes(self.query.work_len, self.number)
    }
}

impl std::fmt::Display for Asked<'_> {
    fn fmt(&self, f: &mut std::fmt::Formatter) -> std::fmt::Result {
        let Query { goal, depth, .. } = self.query;
        write!(f, "{}, query {} (goal {goal}, depth {depth})", self.case.name, self.number)
    }
}

/// The original's answer and refusal; none where there is nothing to compare with.
fn original_says(
    asked: &Asked,
    cache: &mut [u8],
    work: &mut [u8],
    limits: Limits,
    tally: &mut Tally,
) -> Option<(u8, u8)> {
    let Query { goal, depth, .. } = *asked.query;
    let report = reply_within(limits, &asked.case.book, cache, work, goal, depth);
    tally.entries = tally.entries.max(report.high_water);
    match report.outcome {
        Outcome::Replied { answer, refusal } => return Some((answer, refusal)),
        Outcome::TooLong => tally.too_long += 1,
        Outcome::Panicked => {
            tally.panics += 1;
            println!("{asked}: the original panics");
        }
        Outcome::FrameIsWrong(why) => {
            tally.frames += 1;
            println!("{asked}: the original has a frame out of order: {why}");
        }
    }
    None
}

/// One query on both sides; the cache is carried on.
fn compare_query(asked: &Asked, cache: &mut [u8], limits: Limits, tally: &mut Tally) {
    let (case, query) = (asked.case, asked.query);
    let mut our_cache = Guarded::new(cache);
    let mut work = asked.any_work();
    let mut our_work = Guarded::new(&work);
    let before = cache.to_vec();
    let said = original_says(asked, cache, &mut work, limits, tally);
    let Some((answer, refusal)) = said else { return };
    let book = Guarded::new(&case.book);
    let (goal, depth) = (query.goal, query.depth);
    let code =
        library::query(book.inner(), our_cache.inner_mut(), our_work.inner_mut(), goal, depth);
    tally.compared += 1;
    match refusal {
        0 => tally.accept(answer, asked.header.map(|header| shown(&header, &before, cache))),
        n => tally.refusals[n as usize] += 1,
    }
    let expected = u32::from(answer) + 256 * u32::from(refusal);
    if let Some(tidied) = asked.tidied {
        tidy::compare_query(asked, tidied, &before, (expected, cache, &work), tally);
    }
    let whole = book.guards_hold() && our_cache.guards_hold() && our_work.guards_hold();
    let same = code == expected
        && book.inner() == case.book
        && our_cache.inner() == cache
        && our_work.inner() == work;
    if !(whole && same) {
        tally.differences += 1;
        println!(
            "{asked}: the original says {answer} {refusal}, the library {} {}; cache {}, workspace {}, guards {}",
            code % 256,
            code / 256,
            our_cache.inner() == cache,
            our_work.inner() == work,
            whole,
        );
    }
}

fn compare_case(case: &Case, tidied: Option<&[u8]>, limits: Limits, tally: &mut Tally) {
    let mut cache = case.cache.clone();
    let header = Book::read(&case.book).ok().map(|book| book.header);
    for (number, query) in case.queries.iter().enumerate() {
        let asked = Asked { case, header, number, query, tidied };
        compare_query(&asked, &mut cache, limits, tally);
    }
}

/// Lengths for every number of goals and top depth, out of range too.
fn compare_lengths() -> u64 {
    let numbers = || (0..=200).chain([255, 256, 65_537, usize::MAX / 2, usize::MAX]);
    let mut differences = 0;
    for goals in numbers() {
        let known = (1..=64).contains(&goals);
        differences +=
            u64::from(library::work_len(goals) != if known { work_len(goals) } else { 0 });
        for top in numbers() {
            let expected = if known && top <= 63 { goals * (top + 2) * (goals + 4) } else { 0 };
            differences += u64::from(library::cache_len(goals, top) != expected);
        }
    }
    differences
}

fn compare(options: &Options) -> (Vec<Tally>, u64) {
    let start = Instant::now();
    let mut tallies = vec![Tally::default(); options.classes.len()];
    for number in 0..options.cases {
        for (class, tally) in options.classes.iter().zip(&mut tallies) {
            if start.elapsed().as_secs() >= options.seconds {
                return (tallies, number);
            }
            let case = class.case(options.seed, number);
            guarantee::compare(&case.name, &case.book, number, tally);
            let tidied = tidy::compare(&case.name, &case.book, number, options.reading, tally);
            compare_case(&case, tidied.as_deref(), options.limits, tally);
        }
    }
    (tallies, options.cases)
}

fn print(options: &Options, tallies: &[Tally], cases: u64, all: &Tally) {
    for (class, tally) in options.classes.iter().zip(tallies) {
        println!(
            "{:17} {:9} queries, {} differences, answers {:?}, refusals 1 to 11 {:?}, too long {}, most entries {}",
            class.name,
            tally.compared,
            tally.differences,
            tally.answers,
            &tally.refusals[1..],
            tally.too_long,
            tally.entries,
        );
    }
    println!(
        "seed {}, {cases} cases of each class: {} queries compared, {} differences; not compared: {} too long, {} panics of the original, {} frames out of order",
        options.seed, all.compared, all.differences, all.too_long, all.panics, all.frames
    );
    let told = |kinds: &[&str], counts: &[u64]| {
        let each = kinds.iter().zip(counts).map(|(kind, count)| format!("{kind} {count}"));
        each.collect::<Vec<String>>().join(", ")
    };
    println!(
        "accepted queries by the passes of the slots that they wrote: {}",
        told(&KINDS, &all.passes)
    );
    println!(
        "tidied: {}, {} differences, {} replies that differ from the draft's",
        told(&tidy::KINDS, &all.tidied),
        all.wrong_tidied,
        all.wrong_on_tidied
    );
    let [given, broken, refused] = all.guarantees;
    println!(
        "guarantees: {given} given, {broken} broken, {refused} books refused, {} differences",
        all.wrong_guarantees
    );
}

/// All that is wrong with the run.
fn faults(options: &Options, tallies: &[Tally], cases: u64, all: &Tally) -> Vec<String> {
    let mut found = judge::never(all, compare_lengths());
    if cases >= judge::ENOUGH {
        let classes = options.classes.iter().zip(tallies);
        found.extend(
            classes.flat_map(|(class, tally)| judge::below_floors(class.name, cases, tally)),
        );
        if options.classes.len() == CLASSES.len() {
            found.extend(judge::too_few_guarantees(cases, all));
            found.extend(judge::too_few_passes(cases, all));
            found.extend(judge::too_few_tidied(cases, all));
            found.extend(judge::too_few_entries(all));
        }
    } else {
        println!("what a class gives is not judged: fewer than {} cases of each", judge::ENOUGH);
    }
    if cases < options.least {
        found.push(format!("{cases} cases of each class, fewer than {}", options.least));
    }
    found
}

fn main() -> ExitCode {
    if std::env::args().nth(1).as_deref() == Some("--help") {
        println!("{USAGE}");
        return ExitCode::SUCCESS;
    }
    let options = match Options::read() {
        Ok(options) => options,
        Err(wrong) => {
            eprintln!("{wrong}\n{USAGE}");
            return ExitCode::from(2);
        }
    };
    oracle_core::silence_panics();
    let (tallies, cases) = compare(&options);
    let mut all = Tally::default();
    tallies.iter().for_each(|tally| all.add(tally));
    print(&options, &tallies, cases, &all);
    let faults = faults(&options, &tallies, cases, &all);
    faults.iter().for_each(|fault| println!("FAILED: {fault}"));
    if faults.is_empty() { ExitCode::SUCCESS } else { ExitCode::FAILURE }
}
