//! Document 01's examples, run on the original.

use oracle_core::case::{Case, Expected};
use oracle_core::generate::examples;
use oracle_core::{Limits, Outcome, reply_within};

/// The only reply of a case: answer, refusal and the cache afterwards.
fn reply(case: &Case) -> (u8, u8, Vec<u8>) {
    match case.replies(Limits::default()).remove(0) {
        Some(Expected::Reply { answer, refusal, cache }) => {
            (answer, refusal, cache.unwrap_or(case.cache.clone()))
        }
        other => panic!("{other:?}"),
    }
}

#[test]
fn twelve_examples() {
    let table = examples::table();
    assert_eq!(table.len(), 12);
    for (i, example) in table.iter().enumerate() {
        let (answer, refusal, _) = reply(&example.case());
        assert_eq!((answer, refusal), (example.answer, 0), "example {}", i + 1);
    }
}

#[test]
fn slots_left_behind() {
    let table = examples::table();
    assert_eq!(reply(&table[3].case()).2[..5], [1, 0, 1, 1, 3]);
    assert_eq!(reply(&table[6].case()).2[..5], [1, 3, 1, 1, 17]);
    assert_eq!(reply(&table[10].case()).2[..5], [1, 1, 1, 2, 3]);
}

#[test]
fn refusal_10() {
    let case = examples::one_entry_too_many();
    let (answer, refusal, cache) = reply(&case);
    assert_eq!((answer, refusal), (0, 10));
    assert!(cache.iter().all(|&b| b == 0));
    let query = &case.queries[0];
    let limits = Limits { cap_entries: false, ..Limits::default() };
    let (mut cache, mut work) = (case.cache.clone(), vec![1; query.work_len]);
    let report = reply_within(limits, &case.book, &mut cache, &mut work, query.goal, query.depth);
    assert!(matches!(report.outcome, Outcome::Replied { refusal: 0, .. }));
    assert_eq!(report.high_water, 8);
}

#[test]
fn refusal_11() {
    let case = examples::another_result_held();
    let (answer, refusal, cache) = reply(&case);
    assert_eq!((answer, refusal), (0, 11));
    assert!(cache.iter().all(|&b| b == 0));
}

#[test]
fn a_frame_uses_all_runs() {
    let case = examples::ninety_nine_runs();
    let query = &case.queries[0];
    let (mut cache, mut work) = (case.cache.clone(), vec![1; query.work_len]);
    let report =
        reply_within(Limits::default(), &case.book, &mut cache, &mut work, query.goal, query.depth);
    assert!(matches!(report.outcome, Outcome::Replied { refusal: 0, .. }));
    assert!(report.goal_runs >= 99, "{}", report.goal_runs);
}
