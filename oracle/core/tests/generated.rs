//! The generators, the case format and a short run of demand 3.

use std::time::Duration;

use oracle_core::Limits;
use oracle_core::book::Book;
use oracle_core::case::{Case, Expected, read_cases};
use oracle_core::demand3::{Extent, run};
use oracle_core::generate::{CLASSES, class_named};
use oracle_core::groups::wrong::RIGHT;

fn cases(count: u64) -> Vec<Case> {
    CLASSES.iter().flat_map(|class| (0..count).map(|number| class.case(5, number))).collect()
}

#[test]
fn the_same_seed_gives_the_same_cases() {
    assert!(cases(5) == cases(5));
}

#[test]
fn books_are_good_but_for_the_damaged() {
    for case in cases(100).iter().filter(|c| !c.name.starts_with("damaged-book")) {
        assert!(Book::read(&case.book).is_ok(), "{}", case.name);
        assert_eq!(Book::read(&case.book).unwrap().to_bytes(), case.book, "{}", case.name);
    }
}

#[test]
fn cases_are_read_as_written() {
    let limits = Limits { fuel: 2000, ..Limits::default() };
    let written: Vec<Case> =
        cases(5).into_iter().flat_map(|case| [case.answered(limits), case]).collect();
    let mut text = "# a comment\n".to_string();
    written.iter().for_each(|case| case.write(&mut text));
    assert!(read_cases(&text).unwrap() == written);
}

#[test]
fn demand_3_holds_on_a_few_lists() {
    let time = Duration::from_secs(60);
    let extent = Extent { lists: 3000, time, seed: 9, reading: RIGHT };
    let (counts, violation) = run(extent);
    assert!(violation.is_none(), "{violation:?}");
    assert!(counts.accepted > 3000 && counts.panics == 0);
}

/// Queries where refusal 10 comes first, though 11 would come without it.
#[test]
fn refusal_10_can_come_before_11() {
    let class = class_named("refusals-race").unwrap();
    let refusals = |case: &Case, cap_entries| {
        let limits = Limits { fuel: 20_000, cap_entries, ..Limits::default() };
        let replies = case.replies(limits);
        replies.into_iter().map(|reply| match reply {
            Some(Expected::Reply { refusal, .. }) => refusal,
            _ => 0,
        })
    };
    let both = (0..2000).map(|number| class.case(1, number)).filter(|case| {
        // Later queries have different caches in the two runs, so just the first counts.
        refusals(case, true).next() == Some(10) && refusals(case, false).next() == Some(11)
    });
    assert!(both.count() > 10);
}
