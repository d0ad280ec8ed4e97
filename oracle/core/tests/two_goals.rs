//! Item 12 on all small books of two goals, one after the other.

use oracle_core::book::{Book, Header, Part};
use oracle_core::case::{Case, Query};
use oracle_core::demand3::{Counts, check};
use oracle_core::groups::wrong::RIGHT;
use oracle_core::work_len;

/// A line, or two lines under all, any or pick.
fn parts() -> Vec<Part> {
    let calls = (0..2).flat_map(|goal| (0..4).map(move |kind| (goal, kind)));
    let mut lines: Vec<Part> =
        calls.map(|(goal, kind)| Part::Call { goal, kind, lower: true }).collect();
    lines.extend([Part::All(vec![]), Part::Any(vec![]), Part::Undecided]);
    let mut all = lines.clone();
    for first in &lines {
        for second in &lines {
            let both = vec![first.clone(), second.clone()];
            all.extend([Part::All(both.clone()), Part::Any(both.clone()), Part::Pick(both)]);
        }
    }
    all
}

/// Each goal is asked, in either order, with the whole depth.
fn lists(book: &Book) -> [Case; 2] {
    let Header { goals, top_depth, .. } = book.header;
    let query = |goal| Query::new(goal, top_depth, work_len(goals));
    [[0, 1], [1, 0]].map(|order| Case {
        name: String::new(),
        book: book.to_bytes(),
        cache: vec![0; book.header.cache_len()],
        queries: order.map(query).to_vec(),
    })
}

fn headers() -> Vec<Header> {
    let mut all = Vec::new();
    for provisional_cache in [false, true] {
        for (step_limit, top_depth) in [(1, 5), (2, 2), (4, 5)] {
            let goals = 2;
            all.push(Header { provisional_cache, goals, top_depth, step_limit, divisor: 1 });
        }
    }
    all
}

#[test]
#[ignore = "takes a quarter of a minute"]
fn every_yes_and_no_is_right() {
    let (parts, headers) = (parts(), headers());
    let mut counts = Counts::default();
    for first in &parts {
        for second in &parts {
            for header in &headers {
                let book = Book { header: *header, parts: vec![first.clone(), second.clone()] };
                for case in lists(&book) {
                    assert_eq!(check(&case, RIGHT, &mut counts), None, "{book:?}");
                }
            }
        }
    }
    assert_eq!(counts.lists as usize, parts.len() * parts.len() * headers.len() * 2);
    let Counts { measured, mixed, broken, .. } = counts;
    println!("{} lists measured, {} of them mixed, {broken} not", measured.lists, mixed.lists);
    assert!(mixed.both_kinds > 0 && mixed.beyond_least > 0 && mixed.below_greatest > 0);
}
