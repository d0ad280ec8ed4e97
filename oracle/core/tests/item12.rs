//! Wrong readings of item 12, each found out by a small book: what the original answers is right
//! by item 12 and not by the reading.

use oracle_core::Limits;
use oracle_core::book::Book;
use oracle_core::case::{Case, Expected, read_cases};
use oracle_core::demand3::{Counts, check};
use oracle_core::groups::wrong::{
    self, RIGHT, Reading, TOO_LITTLE, TOO_MUCH, WITHOUT_CONDITION, named,
};
use oracle_core::groups::{Sets, breach, groups};

fn cases() -> Vec<Case> {
    read_cases(include_str!("item12.txt")).unwrap()
}

/// The case of a reading, its book, and what the original says to its last query.
fn found(name: &str) -> (Case, Book, u8) {
    let case = cases().into_iter().find(|case| case.name == name).expect("a case");
    let replies = case.replies(Limits::default());
    let recorded: Vec<_> = case.queries.iter().map(|query| query.expected.clone()).collect();
    assert!(replies == recorded, "{name}: the original says something else");
    let Some(Some(Expected::Reply { answer, refusal: 0, .. })) = replies.last() else {
        panic!("{name}: no answer");
    };
    let (book, answer) = (Book::read(&case.book).unwrap(), *answer);
    (case, book, answer)
}

/// Whether a Yes is outside some set, or a No inside some.
fn against(sets: &Sets, goal: usize, answer: u8) -> bool {
    match answer {
        0 => sets.all().any(|set| set[goal]),
        1 => sets.all().any(|set| !set[goal]),
        _ => false,
    }
}

fn wrong_by(case: &Case, reading: Reading) -> Option<String> {
    check(case, reading, &mut Counts::default())
}

#[test]
fn every_wrong_reading_has_its_book() {
    let books: Vec<String> = cases().into_iter().map(|case| case.name).collect();
    let mut readings: Vec<&str> = wrong::all().map(|reading| reading.name).collect();
    readings.insert(TOO_MUCH.len() + WITHOUT_CONDITION.len(), "broken-both");
    assert_eq!(books, readings);
    assert!(wrong::all().all(|reading| named(reading.name).is_some()));
}

#[test]
fn too_much_is_found_out() {
    for reading in TOO_MUCH {
        let (case, book, answer) = found(reading.name);
        let goal = case.queries.last().unwrap().goal;
        assert!(book.is_mixed() && breach(&groups(&book)).is_none(), "{}", reading.name);
        assert!(!against(&RIGHT.sets(&book), goal, answer), "{}", reading.name);
        assert!(against(&reading.sets(&book), goal, answer), "{}", reading.name);
        assert_eq!(wrong_by(&case, RIGHT), None);
        assert!(wrong_by(&case, *reading).is_some(), "{}", reading.name);
    }
}

/// A book is turned away, or measured by fewer sets; `lacking` sees that of a whole run.
#[test]
fn too_little_is_found_out() {
    for reading in TOO_LITTLE {
        let (case, book, answer) = found(reading.name);
        let (right, less) = (RIGHT.sets(&book), reading.sets(&book));
        assert!(book.is_mixed() && !right.is_empty(), "{}", reading.name);
        assert!(!against(&right, case.queries.last().unwrap().goal, answer), "{}", reading.name);
        assert!(right.all().any(|set| !less.all().any(|other| other == set)), "{}", reading.name);
        let turned_away = ["whole-book", "one-way", "leaving"].contains(&reading.name);
        assert_eq!(less.is_empty(), turned_away, "{}", reading.name);
        assert_eq!(wrong_by(&case, RIGHT), None);
    }
}

/// Where a group has both kinds of steps inside, neither set is right.
#[test]
fn the_condition_is_needed() {
    for reading in WITHOUT_CONDITION {
        let (case, book, answer) = found(reading.name);
        assert!(RIGHT.sets(&book).is_empty() && breach(&groups(&book)).is_some());
        assert!(against(&reading.sets(&book), case.queries[0].goal, answer), "{}", reading.name);
        assert!(wrong_by(&case, *reading).is_some() && wrong_by(&case, RIGHT).is_none());
    }
    // One group, in which goal 0 is a Yes outside the least set, goal 1 a No in the greatest.
    let (case, book, answer) = found("broken-both");
    assert_eq!((groups(&book).len(), case.queries[0].goal, case.queries[1].goal), (1, 0, 1));
    let [least, greatest] = ["broken-least", "broken-greatest"].map(|name| named(name).unwrap());
    assert!(answer == 0 && against(&greatest.sets(&book), 1, answer));
    let first = Case { queries: case.queries[..1].to_vec(), ..case.clone() };
    let Some(Expected::Reply { answer: 1, .. }) = &case.queries[0].expected else { panic!() };
    assert!(against(&least.sets(&book), 0, 1) && wrong_by(&first, least).is_some());
    assert!(wrong_by(&case, greatest).is_some());
}
