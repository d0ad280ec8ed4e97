//! What a query costs against the number of goals, and against the number of lines.

use oracle_core::book::Book;

use crate::engines::{BYTE_FLOOR, FLOOR, LIBRARY, ORIGINAL};
use crate::lists::{FUEL, List, fresh, query};
use crate::rounds::{Rounds, measured};
use crate::shapes;

pub fn tables(rounds: usize) -> Result<(), String> {
    goals(rounds)?;
    println!();
    lines(rounds)
}

/// A fact in a book with more and more goals, and a ring of all the others.
fn goals(rounds: usize) -> Result<(), String> {
    println!(
        "Against the number of goals G, fresh cache, top depth 40; microseconds. A fact: one goal run, so nearly all is checking and clearing. A plain ring: G - 1 goal runs.\n"
    );
    println!(
        "| G | book and cache, bytes | workspace, bytes | fact: library | original | floor | library / floor | library / byte floor | ring: library | original | original / library |"
    );
    println!("|---|---|---|---|---|---|---|---|---|---|---|");
    for goals in [4, 8, 16, 32, 64] {
        let book = shapes::plain_ring(goals);
        let (_, fact) = asked(&book, goals - 1, 1, rounds)?;
        let (list, ring) = asked(&book, 0, goals as u64 - 1, rounds)?;
        println!(
            "| {goals} | {} | {} | {:.2} | {:.2} | {:.2} | {:.1} | {:.1} | {:.2} | {:.2} | {:.2} |",
            list.case.book.len() + list.case.cache.len(),
            list.case.queries[0].work_len,
            fact.micros(LIBRARY),
            fact.micros(ORIGINAL),
            fact.micros(FLOOR),
            fact.ratio(LIBRARY, FLOOR)[1],
            fact.ratio(LIBRARY, BYTE_FLOOR)[1],
            ring.micros(LIBRARY),
            ring.micros(ORIGINAL),
            ring.ratio(ORIGINAL, LIBRARY)[1],
        );
    }
    Ok(())
}

/// One goal, every line of the book read in its one run; then the same from the cache.
fn lines(rounds: usize) -> Result<(), String> {
    println!(
        "Against the number of lines, one goal; microseconds. Fresh: every line is read in one goal run. Cached: the answer stands in the cache.\n"
    );
    println!(
        "| lines | bytes | fresh: library | original | original / library | library, ns a line | cached: library | floor | library / floor | library / byte floor |"
    );
    println!("|---|---|---|---|---|---|---|---|---|---|");
    for lines in [3, 10, 30, 100, 300, 1000] {
        let book = shapes::one_goal(lines);
        let (list, fresh) = asked(&book, 0, 1, rounds)?;
        let cached = measured(list.cached().ok_or("nothing cached")?, rounds)?.1;
        println!(
            "| {lines} | {} | {:.2} | {:.2} | {:.2} | {:.0} | {:.2} | {:.2} | {:.1} | {:.1} |",
            lines * 16,
            fresh.micros(LIBRARY),
            fresh.micros(ORIGINAL),
            fresh.ratio(ORIGINAL, LIBRARY)[1],
            fresh.micros(LIBRARY) * 1000.0 / lines as f64,
            cached.micros(LIBRARY),
            cached.micros(FLOOR),
            cached.ratio(LIBRARY, FLOOR)[1],
            cached.ratio(LIBRARY, BYTE_FLOOR)[1],
        );
    }
    Ok(())
}

/// A fresh query that takes so many goal runs.
fn asked(book: &Book, goal: usize, runs: u64, rounds: usize) -> Result<(List, Rounds), String> {
    let list = List::tried(fresh(book, vec![query(book, goal)]), FUEL);
    let list = list.filter(|list| list.runs == runs);
    measured(list.ok_or(format!("a query that does not take {runs} goal runs"))?, rounds)
}
