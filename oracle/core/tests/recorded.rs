//! The recorded files: what they hold, and that those of tests/vectors are the same.

use std::collections::BTreeSet;
use std::path::Path;

use oracle_core::case::{Case, Expected, read_cases};
use oracle_core::recorded::{FILES, cases};

fn refusals(cases: &[Case]) -> BTreeSet<u8> {
    let queries = cases.iter().flat_map(|case| &case.queries);
    let replies = queries.filter_map(|query| match query.expected {
        Some(Expected::Reply { refusal, .. }) => Some(refusal),
        _ => None,
    });
    replies.collect()
}

#[test]
fn every_refusal_is_recorded() {
    assert_eq!(refusals(&cases("refusals").unwrap()), (0..=11).collect());
}

#[test]
fn names_are_unique() {
    for (file, _) in FILES {
        let cases = cases(file).unwrap();
        let names: BTreeSet<&str> = cases.iter().map(|case| case.name.as_str()).collect();
        assert_eq!(names.len(), cases.len(), "{file}");
    }
}

#[test]
fn vectors_are_up_to_date() {
    let folder = Path::new(env!("CARGO_MANIFEST_DIR")).join("../../tests/vectors");
    for (file, _) in FILES {
        let text = std::fs::read_to_string(folder.join(file).with_extension("txt")).unwrap();
        assert!(read_cases(&text).unwrap() == cases(file).unwrap(), "make {file}.txt anew");
    }
}
