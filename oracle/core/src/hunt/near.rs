//! For readings that random cases do not catch: cases in which a reading takes other goal runs or
//! other entries without showing are changed at random until it shows.

use std::time::Instant;

use super::{Extent, catches, one_reply};
use crate::book::Book;
use crate::case::{Case, Expected, Query};
use crate::generate::{change, class_named, examples};
use crate::random::Random;
use crate::{read_wrongly, recorded, shrink, work_len};

/// So many near misses are remembered, and changed cases tried in a round.
const REMEMBERED: usize = 300;
const ROUND: u64 = 600;

/// A reading that takes other goal runs where a frame finishes without cycle usages.
const SIGNAL: u32 = 265;

/// Where fresh cases come from.
const FRESH: [&str; 7] =
    ["knots", "tangled", "picks", "rings", "overflow", "no-coinductive", "made-cache"];

/// Cases that catch some of the readings, made small; and how many were tried.
pub fn hunt(extent: Extent, start: Instant, readings: &[u32], most: usize) -> (Vec<Case>, u64) {
    let mut r = Random::new(extent.seed ^ 0x6e65_6172);
    let mut wanted: Vec<(u32, usize)> = readings.iter().map(|n| (*n, most)).collect();
    let (mut near, mut found, mut tried) = (first(), Vec::new(), 0);
    while tried < extent.rounds * ROUND && !wanted.is_empty() && start.elapsed() < extent.time {
        tried += 1;
        let Some(case) = next(&mut r, extent.seed, tried, &near) else { continue };
        let right = run(&case, 0);
        if right.iter().any(|(reply, _)| !matches!(reply, Some(Expected::Reply { .. }))) {
            continue;
        }
        let mut is_near = run(&case, SIGNAL) != right;
        for (reading, count) in &mut wanted {
            let wrong = run(&case, *reading);
            is_near |= wrong != right;
            if wrong.iter().zip(&right).any(|(wrong, right)| wrong.0 != right.0) {
                let mut small = shrink::shrink(&case, &|c| catches(c, *reading).is_some());
                *count -= 1;
                small.name = format!("n{reading}-{count}");
                found.push(small);
            }
        }
        wanted.retain(|(_, count)| *count > 0);
        if is_near && near.len() < REMEMBERED {
            near.push(case);
        } else if is_near {
            let place = r.below(REMEMBERED);
            near[place] = case;
        }
    }
    (found, tried)
}

/// A frame whose result alternates between Yes and No until the step limit, and frames that
/// finish without cycle usages.
fn first() -> Vec<Case> {
    let mut case = examples::ninety_nine_runs();
    let mut book = Book::read(&case.book).expect("a good book");
    book.header.step_limit = 3;
    case.book = book.to_bytes();
    vec![
        case,
        examples::no_cycle_usages(),
        recorded::caches::no_cycle_usages(),
        recorded::caches::entry_without_cycle_usages(),
        recorded::caches::ambiguous_without_cycle_usages(),
    ]
}

/// A fresh case, or a remembered one with a small change and another query.
fn next(r: &mut Random, seed: u64, number: u64, near: &[Case]) -> Option<Case> {
    if near.is_empty() || r.chance(30) {
        let class = class_named(r.choose(&FRESH)).expect("a class");
        let case = class.case(seed ^ 0x6672, number);
        return (case.book.len() <= super::LONGEST_BOOK).then_some(case);
    }
    let case = &near[r.below(near.len())];
    let old = Book::read(&case.book).ok()?;
    let book = change::book(r, &old);
    let bytes = book.to_bytes();
    if Book::read(&bytes).is_err() || bytes.len() > super::LONGEST_BOOK {
        return None;
    }
    let (goal, depth) = if r.chance(70) {
        (case.queries[0].goal, case.queries[0].depth.min(book.header.top_depth))
    } else {
        (r.below(book.header.goals), r.between(0, book.header.top_depth))
    };
    let queries = vec![Query::new(goal, depth, work_len(book.header.goals))];
    let cache = if case.cache.len() == book.header.cache_len() {
        shrink::following(&old.header, &book.header, &case.cache, None)
    } else {
        vec![0; book.header.cache_len()]
    };
    Some(Case { name: String::new(), book: bytes, cache, queries })
}

type Run = (Option<Expected>, (u64, usize));

/// Each query's reply, its goal runs and its most entries.
fn run(case: &Case, reading: u32) -> Vec<Run> {
    read_wrongly(reading);
    let fuel = if reading == 0 { super::FUEL } else { super::WRONG_FUEL };
    let mut cache = case.cache.clone();
    let each = case.queries.iter().map(|query| {
        let (reply, runs, entries) = one_reply(case, query, &mut cache, fuel);
        (reply, (runs, entries))
    });
    let all = each.collect();
    read_wrongly(0);
    all
}
