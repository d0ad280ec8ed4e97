//! Well-formed caches made by hand: what a slot answers, when it applies, and what is replaced.

use super::{call, no, of_class, on, yes};
use crate::book::{Book, Part};
use crate::case::Case;
use crate::generate::reruns::{self, HEAD, RINGS, Ring};

pub fn all() -> Vec<Case> {
    let mut out = Vec::new();
    out.extend(one_slot());
    out.extend(two_slots());
    out.extend(nested());
    out.extend(replaced());
    out.extend(passes());
    out.extend(replaced_passes());
    out.push(no_cycle_usages());
    out.push(entry_without_cycle_usages());
    out.push(ambiguous_without_cycle_usages());
    let classes = ["made-cache", "changed-cache", "refusals-race"];
    for class in classes {
        out.extend(of_class(class, 4, 0..40).into_iter().filter(small).take(16));
    }
    out
}

/// Small enough to be computed anywhere.
fn small(case: &Case) -> bool {
    case.book.len() <= 40 * 16 && case.cache.len() <= 400
}

/// Writes slots: goal, number (0 success, else overflow of depth number - 1), bytes.
fn with_slots(mut case: Case, book: &Book, slots: &[(usize, usize, &[u8])]) -> Case {
    let header = &book.header;
    for (goal, number, slot) in slots {
        let start = (goal * header.slots_per_goal() + number) * header.slot_len();
        case.cache[start..start + slot.len()].copy_from_slice(slot);
    }
    case
}

/// Goal 0 calls goal 1, for which a slot speaks against the book; every depth is asked.
fn one_slot() -> Vec<Case> {
    let book = super::book([1, 2, 3, 2, 2], vec![call(1, 0, true), no()]);
    let queries: Vec<(usize, usize)> = (0..4).rev().map(|depth| (0, depth)).collect();
    let slots: [(&str, usize, [u8; 6]); 8] = [
        ("success-at-0", 0, [1, 1, 0, 1, 0, 0]),
        ("success-at-2", 0, [1, 1, 2, 2, 0, 0]),
        ("success-undecided", 0, [1, 2, 1, 1, 0, 0]),
        ("success-overflow", 0, [1, 3, 1, 2, 0, 0]),
        ("success-of-31", 0, [1, 1, 1, 1, 0, 31]),
        ("overflow-at-0", 1, [1, 1, 0, 2, 0, 0]),
        ("overflow-at-2", 3, [1, 1, 2, 1, 0, 0]),
        ("overflow-of-31", 2, [1, 3, 1, 2, 0, 31]),
    ];
    let case = |(name, number, slot): &(&str, usize, [u8; 6])| {
        let case = on(format!("slot-{name}"), &book, &queries);
        with_slots(case, &book, &[(1, *number, slot)])
    };
    slots.iter().map(case).collect()
}

/// Success and overflow slots of one depth, with different results.
fn two_slots() -> Vec<Case> {
    let book = super::book([1, 2, 2, 2, 2], vec![call(1, 2, true), yes()]);
    let queries = [(0, 2), (1, 1), (1, 2)];
    let pairs: [(&str, [u8; 6], [u8; 6]); 4] = [
        ("both-apply", [1, 1, 1, 1, 0, 0], [1, 0, 1, 2, 0, 0]),
        ("success-too-deep", [1, 1, 2, 2, 0, 0], [1, 1, 1, 1, 0, 0]),
        ("success-blocked", [1, 1, 1, 1, 2, 0], [1, 0, 1, 2, 0, 0]),
        ("both-blocked", [1, 1, 1, 2, 2, 0], [1, 1, 1, 2, 8, 0]),
    ];
    let case = |(name, success, overflow): &(&str, [u8; 6], [u8; 6])| {
        let case = on(format!("slots-{name}"), &book, &queries);
        with_slots(case, &book, &[(1, 0, success), (1, 2, overflow)])
    };
    pairs.iter().map(case).collect()
}

/// A ring of three; goal 2's slot names nested goals by each flag.
fn nested() -> Vec<Case> {
    let mut out = Vec::new();
    for kind in 0..4 {
        let first = Part::Any(vec![call(1, kind, true), call(2, kind, false)]);
        let book = super::book([1, 3, 3, 2, 1], vec![first, call(0, 0, true), call(1, 0, true)]);
        for flags in [1, 2, 4, 8, 16, 30] {
            let case = on(format!("nested-{kind}-{flags}"), &book, &[(0, 3), (1, 3)]);
            out.push(with_slots(case, &book, &[(2, 0, &[1, 1, 1, 2, 0, flags, 0])]));
        }
    }
    // The slot of a goal on the stack is used before the cycle.
    let book = super::book([1, 2, 3, 2, 1], vec![call(1, 0, true), call(0, 0, true)]);
    let case = on("slot-before-cycle", &book, &[(0, 3), (1, 2), (0, 2)]);
    out.push(with_slots(case, &book, &[(0, 3, &[1, 1, 2, 2]), (0, 2, &[1, 1, 1, 1])]));
    out
}

/// A slot that does not apply is replaced by an equal result, or gives refusal 11.
fn replaced() -> Vec<Case> {
    let book = super::book([1, 2, 2, 2, 1], vec![call(1, 0, true), call(0, 0, true)]);
    let queries = [(0, 1), (0, 2), (1, 2)];
    let slots: [(&str, usize, usize, [u8; 6]); 6] = [
        ("success-equal", 0, 0, [1, 0, 2, 2, 31, 0]),
        ("success-differs", 0, 0, [1, 1, 2, 1, 31, 0]),
        ("overflow-equal", 0, 2, [1, 3, 1, 2, 16, 16]),
        ("overflow-differs", 0, 2, [1, 2, 1, 1, 16, 16]),
        ("nested-equal", 1, 0, [1, 0, 2, 1, 1, 0]),
        ("nested-differs", 1, 0, [1, 2, 2, 1, 1, 0]),
    ];
    let case = |(name, goal, number, slot): &(&str, usize, usize, [u8; 6])| {
        let case = on(format!("replaced-{name}"), &book, &queries);
        with_slots(case, &book, &[(*goal, *number, slot)])
    };
    slots.iter().map(case).collect()
}

/// Document 02, item 8: rings that take one pass up to L, then a hit; and a goal that is run in
/// two frames.
fn passes() -> Vec<Case> {
    let mut out = Vec::new();
    for ring in RINGS {
        for limit in [0, 1, 2, 3, 4, 99] {
            let case = reruns::case(ring, reruns::header(4, limit, 2), HEAD);
            let name = format!("passes-{ring:?}-{limit}").to_lowercase();
            out.push(Case { name, ..case });
        }
    }
    let parts = vec![Part::Any(vec![call(1, 0, true), call(2, 0, true)]), call(2, 0, true)];
    let book = super::book([1, 3, 4, 3, 1], [parts, vec![call(1, 0, true)]].concat());
    out.push(on("passes-of-one-frame", &book, &[(0, 4), (2, 4), (1, 4)]));
    out
}

/// An equal result replaces the passes too, by more or by fewer, in both kinds of slots; a hit
/// leaves them.
fn replaced_passes() -> Vec<Case> {
    let mut out = Vec::new();
    for passes in [1, 2, 3, 4, 5] {
        let case = reruns::held(Ring::Fixpoint, reruns::header(5, 5, 2), 0, passes);
        out.push(Case { name: format!("passes-of-overflow-{passes}"), ..case });
        let book = super::book([1, 1, 5, 5, 1], vec![Part::Any(vec![call(0, 0, true), yes()])]);
        let case = on(format!("passes-of-success-{passes}"), &book, &[(0, 5), (0, 3), (0, 5)]);
        out.push(with_slots(case, &book, &[(0, 0, &[1, 1, 5, passes, 31])]));
    }
    out
}

/// Goal 0 finishes in its second and last run without cycle usages
/// (`RebaseReason::NoCycleUsages`), with another result than before.
pub(crate) fn no_cycle_usages() -> Case {
    let first = Part::All(vec![call(0, 2, true), call(2, 0, false)]);
    let parts = vec![
        Part::Any(vec![call(3, 0, true), call(1, 0, true)]),
        Part::Pick(vec![first, call(2, 0, true)]),
        no(),
        no(),
    ];
    let book = super::book([1, 4, 4, 2, 1], parts);
    let slots: [(usize, usize, &[u8]); 3] =
        [(2, 4, &[1, 1, 3, 1]), (2, 5, &[1, 0, 4, 2]), (3, 4, &[1, 0, 3, 1])];
    with_slots(on("no-cycle-usages", &book, &[(0, 4)]), &book, &slots)
}

/// Goal 0 finishes without cycle usages below goal 1, and the entry that goal 3 left depends on
/// its old result.
pub(crate) fn entry_without_cycle_usages() -> Case {
    let parts = vec![
        Part::All(vec![call(1, 0, true), call(3, 0, true)]),
        Part::Any(vec![Part::All(vec![call(3, 3, false), no()]), call(0, 3, true)]),
        no(),
        Part::Pick(vec![Part::All(vec![call(0, 1, true), call(2, 0, false)]), call(2, 0, true)]),
    ];
    let book = super::book([1, 4, 4, 2, 1], parts);
    let slots: [(usize, usize, &[u8]); 2] = [(2, 4, &[1, 1, 3, 1]), (2, 5, &[1, 0, 4, 2])];
    with_slots(on("entry-without-cycle-usages", &book, &[(1, 4)]), &book, &slots)
}

/// Goal 0 finishes undecided and without cycle usages below goal 5, and the entry that goal 4
/// left is undecided and depends on its old result. Goal 4 would overflow with the new one.
pub(crate) fn ambiguous_without_cycle_usages() -> Case {
    let late_yes = Part::Any(vec![call(3, 0, true), call(1, 0, true)]);
    let parts = vec![
        Part::All(vec![late_yes, Part::Undecided, call(5, 1, true)]),
        Part::Pick(vec![
            Part::All(vec![call(4, 0, true), no()]),
            Part::All(vec![call(0, 2, true), call(2, 0, false)]),
            call(2, 0, true),
        ]),
        no(),
        no(),
        Part::Any(vec![Part::Undecided, Part::All(vec![call(0, 0, true), call(5, 3, true)])]),
        Part::All(vec![call(0, 0, true), call(4, 0, true)]),
    ];
    let book = super::book([1, 6, 5, 2, 1], parts);
    let slots: [(usize, usize, &[u8]); 3] =
        [(2, 4, &[1, 1, 3, 2]), (2, 5, &[1, 0, 4, 1]), (3, 4, &[1, 0, 3, 1])];
    with_slots(on("ambiguous-without-cycle-usages", &book, &[(5, 5)]), &book, &slots)
}
