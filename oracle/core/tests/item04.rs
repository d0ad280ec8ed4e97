//! Item 4 of document 02 on the original with its delegate: which of undecided and overflow is
//! seen. Every list of up to three lines, and every list of two lists of up to two lines.

use oracle_core::Limits;
use oracle_core::book::Part;
use oracle_core::case::Expected;
use oracle_core::generate::examples::Example;

type List = fn(Vec<Part>) -> Part;
const LISTS: [List; 3] = [Part::All, Part::Any, Part::Pick];

/// No, Yes, undecided; at depth 0 a call overflows.
fn lines() -> Vec<Part> {
    let overflow = Part::Call { goal: 0, kind: 0, lower: true };
    vec![Part::Any(vec![]), Part::All(vec![]), Part::Undecided, overflow]
}

/// All choices of so many parts.
fn choices(parts: &[Part], count: usize) -> Vec<Vec<Part>> {
    match count {
        0 => vec![vec![]],
        _ => choices(parts, count - 1)
            .into_iter()
            .flat_map(|chosen| {
                parts.iter().map(move |part| [&chosen[..], &[part.clone()]].concat())
            })
            .collect(),
    }
}

/// The answer by document 02's words. What comes after a part that decides changes nothing here.
fn by_the_words(part: &Part) -> u8 {
    let (parts, deciding, empty) = match part {
        Part::Call { .. } => return 3,
        Part::Undecided => return 2,
        Part::All(parts) => (parts, 0, 1),
        Part::Any(parts) | Part::Pick(parts) => (parts, 1, 0),
    };
    let met: Vec<u8> = parts.iter().map(by_the_words).collect();
    [deciding, 2, 3].into_iter().find(|answer| met.contains(answer)).unwrap_or(empty)
}

fn by_the_original(example: &Example) -> u8 {
    match example.case().replies(Limits::default()).remove(0) {
        Some(Expected::Reply { answer, refusal: 0, .. }) => answer,
        other => panic!("{:?}: {other:?}", example.part),
    }
}

/// How many of the lists come to each answer, by the words and by the original alike.
fn compared(lists: impl Iterator<Item = Part>) -> [u32; 4] {
    let mut seen = [0; 4];
    for list in lists {
        let answer = by_the_words(&list);
        let example = Example { part: list, step_limit: 1, depth: 0, answer };
        assert_eq!(by_the_original(&example), answer, "{:?}", example.part);
        seen[usize::from(answer)] += 1;
    }
    seen
}

#[test]
fn lists_of_lines() {
    let lines = lines();
    let lists = (0..=3).flat_map(|count| choices(&lines, count));
    let seen = compared(lists.flat_map(|parts| LISTS.map(|list| list(parts.clone()))));
    assert_eq!(seen, [53, 94, 75, 33]);
}

#[test]
fn lists_of_lists() {
    let lines = lines();
    let short: Vec<Vec<Part>> = (1..=2).flat_map(|count| choices(&lines, count)).collect();
    let inside: Vec<Part> = short
        .iter()
        .flat_map(|parts| [Part::All, Part::Any].map(|list: List| list(parts.clone())))
        .collect();
    let seen = compared(
        choices(&inside, 2).into_iter().flat_map(|parts| LISTS.map(|list| list(parts.clone()))),
    );
    assert_eq!(seen.iter().sum::<u32>(), 3 * 40 * 40);
    assert!(seen.iter().all(|count| *count > 500), "{seen:?}");
}
