//! Every refusal, each in several ways, and what is just not refused.

use super::{call, lines, named, no, of_class, on, one_goal, yes};
use crate::book::{Book, Part};
use crate::case::{Case, Query};
use crate::generate::examples;
use crate::work_len;

pub fn all() -> Vec<Case> {
    let topics: [fn() -> Vec<Case>; 13] = [
        lengths, fields, places, headers, grammar, goals, nesting, queries, caches, passes, works,
        late, order,
    ];
    topics.iter().flat_map(|topic| topic()).collect()
}

/// Any bytes as a book, with one query and the buffers of one goal and T 5.
fn raw(name: String, book: Vec<u8>) -> Case {
    Case { book, ..on(name, &one_goal(yes()), &[(0, 5)]) }
}

/// A header for one goal, its goal line, and a body.
fn body(name: String, all: &[[usize; 5]]) -> Case {
    let start = [[1, 1, 5, 1, 1], [1, 0, 0, 0, 0]];
    raw(name, lines(&[&start, all].concat()))
}

/// Refusal 1.
fn lengths() -> Vec<Case> {
    let good = one_goal(yes()).to_bytes();
    let mut out = Vec::new();
    for length in [0, 1, 15, 16, 32, 47, 48, 49, 63] {
        let bytes = good.iter().cycle().take(length).copied().collect();
        out.push(raw(format!("length-{length}"), bytes));
    }
    for count in [996, 997, 998] {
        let part = Part::All(vec![yes(); count]);
        let bytes = one_goal(part).to_bytes();
        out.push(raw(format!("length-{}", bytes.len()), bytes));
    }
    let mut bytes = one_goal(Part::All(vec![yes(); 997])).to_bytes();
    bytes.push(b'\n');
    out.push(raw(format!("length-{}", bytes.len()), bytes));
    out
}

/// Refusal 2: what a field may not be, in the last line's first and second field.
fn fields() -> Vec<Case> {
    let texts: [&[u8; 3]; 22] = [
        b"   ", b" 00", b"000", b" 01", b"001", b"010", b"01 ", b"1  ", b" 1 ", b"1 1", b"0 0",
        b" +1", b" -1", b"  a", b"1.0", b"\t 1", b"  /", b"  :", b"  \x00", b"  \xb1", b"\n 1",
        b" \xa01",
    ];
    let mut out = Vec::new();
    for (i, text) in texts.iter().enumerate() {
        for field in [0, 1] {
            let mut bytes = lines(&[[1, 1, 5, 1, 1], [1, 0, 0, 0, 0], [3, 0, 0, 0, 0]]);
            bytes[32 + 3 * field..35 + 3 * field].copy_from_slice(*text);
            out.push(raw(format!("field-{i}-in-{field}"), bytes));
        }
    }
    out
}

/// Refusal 2: a leading zero in each field of each line, and other bytes than the newline.
fn places() -> Vec<Case> {
    let good = one_goal(yes()).to_bytes();
    let mut out = Vec::new();
    for start in (0..48).filter(|at| at % 16 < 15 && at % 16 % 3 == 0) {
        let mut bytes = good.clone();
        bytes[start + 1] = b'0';
        out.push(raw(format!("leading-zero-at-{start}"), bytes));
    }
    for (line, byte) in [(0, b' '), (1, b'\r'), (2, 0), (2, 11), (2, b'0')] {
        let mut bytes = good.clone();
        bytes[16 * line + 15] = byte;
        out.push(raw(format!("line-{line}-ends-in-{byte}"), bytes));
    }
    out
}

/// Refusal 3, and the header's limits.
fn headers() -> Vec<Case> {
    let good = [1, 1, 5, 1, 1];
    let values: [&[usize]; 5] = [
        &[2, 3, 9, 256, 999],
        &[0, 65, 257, 999],
        &[64, 65, 319, 999],
        &[100, 101, 999],
        &[0, 100, 257, 999],
    ];
    let mut out = Vec::new();
    for (field, values) in values.iter().enumerate() {
        for value in *values {
            let mut header = good;
            header[field] = *value;
            let bytes = lines(&[header, [1, 0, 0, 0, 0], [3, 0, 0, 0, 0]]);
            out.push(raw(format!("header-{field}-is-{value}"), bytes));
        }
    }
    for header in [[0, 1, 0, 0, 1], [1, 1, 0, 99, 99], [0, 1, 63, 0, 1], [1, 1, 63, 99, 99]] {
        let parts = vec![Part::Any(vec![call(0, 0, true), call(0, 2, false)])];
        let book = super::book(header, parts);
        let name = format!("header-{header:?}").replace([' ', '[', ']'], "").replace(',', "-");
        out.push(on(name, &book, &[(0, header[2]), (0, 0)]));
    }
    let book =
        super::book([1, 64, 0, 2, 1], (0..64).map(|g| call((g + 1) % 64, 0, false)).collect());
    out.push(on("header-64-goals", &book, &[(63, 0), (64, 0)]));
    out
}

/// A goal's part, as lines; the good ones among them say so.
const BODIES: [(&str, &[[usize; 5]]); 38] = [
    ("code-0", &[[0, 0, 0, 0, 0]]),
    ("code-1", &[[1, 0, 0, 0, 0]]),
    ("code-7", &[[7, 0, 0, 0, 0]]),
    ("code-258", &[[258, 0, 0, 0, 0]]),
    ("code-999", &[[999, 0, 0, 0, 0]]),
    ("call-good", &[[2, 0, 3, 1, 0]]),
    ("call-goal-1", &[[2, 1, 0, 0, 0]]),
    ("call-goal-256", &[[2, 256, 0, 0, 0]]),
    ("call-goal-999", &[[2, 999, 0, 0, 0]]),
    ("call-kind-4", &[[2, 0, 4, 0, 0]]),
    ("call-kind-256", &[[2, 0, 256, 0, 0]]),
    ("call-kind-999", &[[2, 0, 999, 0, 0]]),
    ("call-lower-2", &[[2, 0, 0, 2, 0]]),
    ("call-lower-256", &[[2, 0, 0, 256, 0]]),
    ("call-unused-4", &[[2, 0, 0, 0, 1]]),
    ("all-unused-2", &[[3, 0, 1, 0, 0]]),
    ("all-unused-3", &[[3, 0, 0, 1, 0]]),
    ("all-unused-4", &[[3, 0, 0, 0, 999]]),
    ("any-unused-2", &[[4, 0, 256, 0, 0]]),
    ("any-unused-3", &[[4, 0, 0, 1, 0]]),
    ("any-unused-4", &[[4, 0, 0, 0, 1]]),
    ("pick-unused-2", &[[5, 0, 1, 0, 0]]),
    ("pick-unused-3", &[[5, 0, 0, 1, 0]]),
    ("pick-unused-4", &[[5, 0, 0, 0, 1]]),
    ("undecided-unused-1", &[[6, 1, 0, 0, 0]]),
    ("undecided-unused-4", &[[6, 0, 0, 0, 1]]),
    ("all-part-missing", &[[3, 1, 0, 0, 0]]),
    ("any-part-missing", &[[4, 2, 0, 0, 0], [6, 0, 0, 0, 0]]),
    ("pick-part-missing", &[[5, 999, 0, 0, 0], [6, 0, 0, 0, 0]]),
    ("all-part-too-many", &[[3, 0, 0, 0, 0], [6, 0, 0, 0, 0]]),
    ("any-part-too-many", &[[4, 1, 0, 0, 0], [6, 0, 0, 0, 0], [6, 0, 0, 0, 0]]),
    ("two-parts", &[[6, 0, 0, 0, 0], [6, 0, 0, 0, 0]]),
    ("inner-code-1", &[[3, 1, 0, 0, 0], [1, 0, 0, 0, 0]]),
    ("inner-bad-call", &[[4, 2, 0, 0, 0], [2, 0, 0, 0, 0], [2, 1, 0, 0, 0]]),
    ("inner-good", &[[4, 2, 0, 0, 0], [2, 0, 0, 0, 0], [3, 0, 0, 0, 0]]),
    ("picks-beside", &[[3, 2, 0, 0, 0], [5, 0, 0, 0, 0], [5, 0, 0, 0, 0]]),
    ("pick-in-pick", &[[5, 1, 0, 0, 0], [5, 0, 0, 0, 0]]),
    ("pick-in-all-in-pick", &[[5, 1, 0, 0, 0], [3, 1, 0, 0, 0], [5, 0, 0, 0, 0]]),
];

/// Refusal 4: codes, fields and counts.
fn grammar() -> Vec<Case> {
    BODIES.iter().map(|(name, all)| body(format!("body-{name}"), all)).collect()
}

/// Refusal 4: the goals' lines, on books of two goals.
fn goals() -> Vec<Case> {
    let (first, second, part) = ([1, 0, 0, 0, 0], [1, 1, 0, 0, 0], [6, 0, 0, 0, 0]);
    let orders: [(&str, &[[usize; 5]]); 13] = [
        ("good", &[first, part, second, part]),
        ("swapped", &[second, part, first, part]),
        ("twice-0", &[first, part, first, part]),
        ("twice-1", &[second, part, second, part]),
        ("one-too-few", &[first, part]),
        ("one-too-many", &[first, part, second, part, [1, 2, 0, 0, 0], part]),
        ("no-second-part", &[first, part, second]),
        ("no-first-part", &[first, second, part]),
        ("no-goal-line", &[part, second, part]),
        ("number-256", &[first, part, [1, 257, 0, 0, 0], part]),
        ("unused-2", &[first, part, [1, 1, 1, 0, 0], part]),
        ("unused-3", &[[1, 0, 0, 1, 0], part, second, part]),
        ("unused-4", &[first, part, [1, 1, 0, 0, 1], part]),
    ];
    let buffers = super::book([1, 2, 1, 1, 1], vec![no(), no()]);
    let case = |(name, all): &(&str, &[[usize; 5]])| {
        let book = lines(&[&[[1, 2, 1, 1, 1]], *all].concat());
        Case { book, ..on(format!("goals-{name}"), &buffers, &[(1, 1), (0, 0)]) }
    };
    orders.iter().map(case).collect()
}

/// Refusal 4: nesting 8 and 9 deep, and picks in picks at every depth.
fn nesting() -> Vec<Case> {
    let mut out = Vec::new();
    for (code, depth) in [(3, 8), (3, 9), (4, 8), (4, 9), (3, 10)] {
        let mut all = vec![[code, 1, 0, 0, 0]; depth - 1];
        all.push([2, 0, 0, 1, 0]);
        out.push(body(format!("nest-{depth}-of-{code}"), &all));
    }
    for depth in [8, 9] {
        let mut all = vec![[4, 2, 0, 0, 0]];
        all.extend([[6, 0, 0, 0, 0]]);
        all.extend(vec![[3, 1, 0, 0, 0]; depth - 2]);
        all.push([5, 0, 0, 0, 0]);
        out.push(body(format!("nest-{depth}-beside"), &all));
    }
    for between in [1, 2, 6, 7] {
        let mut all = vec![[5, 1, 0, 0, 0]];
        all.extend(vec![[4, 1, 0, 0, 0]; between - 1]);
        all.push([5, 0, 0, 0, 0]);
        out.push(body(format!("pick-{between}-below-pick"), &all));
        all[0] = [3, 1, 0, 0, 0];
        out.push(body(format!("pick-{between}-below-all"), &all));
    }
    out
}

/// Refusals 5 and 6, and that they leave the cache as it is.
fn queries() -> Vec<Case> {
    let book = super::book([1, 2, 5, 1, 1], vec![call(1, 0, true), call(0, 2, true)]);
    let large = [2, 3, 63, 64, 255, 256, 257, 65_536, 65_537, 1 << 32, (1 << 32) + 1, 1 << 63];
    let mut out = Vec::new();
    for goal in large.into_iter().chain([usize::MAX - 1, usize::MAX]) {
        out.push(on(format!("goal-{goal}"), &book, &[(1, 5), (goal, 5), (0, 5)]));
    }
    let large = [6, 7, 63, 64, 255, 256, 261, 65_536, 65_541, 1 << 32, (1 << 32) + 5, 1 << 63];
    for depth in large.into_iter().chain([usize::MAX - 1, usize::MAX]) {
        out.push(on(format!("depth-{depth}"), &book, &[(1, 5), (0, depth), (0, 5)]));
    }
    let both = [(2, 6), (usize::MAX, usize::MAX), (2, 5), (1, 6), (1, 5)];
    out.push(on("goal-and-depth", &book, &both));
    out
}

/// Slots of two goals, T 3 and L 1: name, number and bytes. Not all are ill-formed.
const SLOTS: [(&str, usize, [u8; 6]); 28] = [
    ("held-2", 0, [2, 0, 0, 1, 0, 0]),
    ("held-255", 9, [255, 0, 3, 1, 0, 0]),
    ("vacant-result", 0, [0, 1, 0, 0, 0, 0]),
    ("vacant-depth", 2, [0, 0, 1, 0, 0, 0]),
    ("vacant-passes", 0, [0, 0, 0, 1, 0, 0]),
    ("vacant-overflow-passes", 9, [0, 0, 0, 1, 0, 0]),
    ("vacant-flags", 9, [0, 0, 0, 0, 0, 1]),
    ("vacant-other-flags", 5, [0, 0, 0, 0, 2, 0]),
    ("result-3", 0, [1, 3, 3, 1, 0, 0]),
    ("result-4", 0, [1, 4, 3, 1, 0, 0]),
    ("result-255", 5, [1, 255, 3, 1, 0, 0]),
    ("overflow-result-3", 4, [1, 3, 3, 1, 0, 0]),
    ("overflow-result-4", 4, [1, 4, 3, 1, 0, 0]),
    ("depth-3", 5, [1, 1, 3, 1, 0, 0]),
    ("depth-4", 5, [1, 1, 4, 1, 0, 0]),
    ("depth-255", 0, [1, 1, 255, 1, 0, 0]),
    ("overflow-depth-0", 1, [1, 3, 0, 1, 0, 0]),
    ("overflow-depth-0-is-1", 1, [1, 3, 1, 1, 0, 0]),
    ("overflow-depth-1-is-0", 2, [1, 3, 0, 1, 0, 0]),
    ("overflow-depth-3-is-4", 4, [1, 3, 4, 1, 0, 0]),
    ("overflow-depth-3-is-2", 9, [1, 3, 2, 1, 0, 0]),
    ("overflow-depth-2", 8, [1, 3, 2, 1, 31, 0]),
    ("flags-31", 0, [1, 0, 3, 1, 31, 31]),
    ("flags-32", 0, [1, 0, 3, 1, 32, 0]),
    ("flags-64-of-last", 5, [1, 0, 3, 1, 0, 64]),
    ("flags-255", 5, [1, 0, 3, 1, 0, 255]),
    ("flags-128-in-overflow", 9, [1, 0, 3, 1, 128, 0]),
    ("all-255", 0, [255; 6]),
];

/// Refusals 7 and 8.
fn caches() -> Vec<Case> {
    let book = super::book([1, 2, 3, 1, 1], vec![call(1, 0, true), yes()]);
    let good = on("", &book, &[(0, 3), (1, 1)]);
    let (length, slot) = (good.cache.len(), book.header.slot_len());
    // Without passes, as in document 01.
    let old = length / slot * (slot - 1);
    let mut out = Vec::new();
    for other in [0, 1, slot, old, length - slot, length - 1, length + 1, length + slot, 2 * length]
    {
        let cache = vec![0; other];
        out.push(named(format!("cache-length-{other}"), Case { cache, ..good.clone() }));
    }
    for (name, number, slot) in SLOTS {
        out.push(with_slot(named(format!("slot-{name}"), good.clone()), number, &slot));
    }
    out
}

/// Writes the slot of this number, counted from the first goal's.
fn with_slot(mut case: Case, number: usize, slot: &[u8]) -> Case {
    let start = number * slot.len();
    case.cache[start..start + slot.len()].copy_from_slice(slot);
    case
}

/// Refusal 8 by passes: none, the fewest, the most that each L allows, and one more.
fn passes() -> Vec<Case> {
    let mut out = Vec::new();
    for (limit, all) in [
        (0, [0, 1, 2, 255].as_slice()),
        (1, &[0, 1, 2, 100]),
        (2, &[0, 1, 2, 3]),
        (5, &[0, 5, 6, 99]),
        (99, &[0, 1, 98, 99, 100, 255]),
    ] {
        let book = super::book([1, 1, 5, limit, 1], vec![yes()]);
        for passes in all {
            let case = |name: &str| on(format!("{name}-{limit}-{passes}"), &book, &[(0, 3)]);
            out.push(with_slot(case("passes"), 0, &[1, 1, 3, *passes, 0]));
            out.push(with_slot(case("passes-of-overflow"), 4, &[1, 1, 3, *passes, 0]));
        }
    }
    out
}

/// Refusal 9.
fn works() -> Vec<Case> {
    let book = super::book([1, 2, 2, 1, 1], vec![call(1, 0, true), yes()]);
    let right = work_len(2);
    let case = |length: usize| {
        let mut case = on(format!("work-{length}"), &book, &[(1, 1), (0, 2), (0, 2)]);
        case.queries[1].work_len = length;
        case
    };
    let lengths = [0, 1, right - 1, right + 1, right / 2, 2 * right, work_len(1), work_len(3)];
    lengths.into_iter().map(case).collect()
}

/// Refusals 10 and 11.
fn late() -> Vec<Case> {
    let mut out = Vec::new();
    for calls in [6, 7, 8] {
        let mut case = examples::one_entry_too_many();
        let mut book = Book::read(&case.book).expect("a good book");
        let Part::Pick(candidates) = &mut book.parts[0] else { continue };
        candidates.truncate(calls);
        case.book = book.to_bytes();
        case.queries = [(1, 0), (0, 2), (2, 1), (0, 2)]
            .iter()
            .map(|(goal, depth)| Query::new(*goal, *depth, work_len(3)))
            .collect();
        out.push(named(format!("entries-{calls}"), case));
    }
    let held: [(&str, usize, [u8; 5]); 5] = [
        ("success-differs", 0, [1, 1, 5, 1, 0]),
        ("success-undecided", 0, [1, 2, 4, 1, 0]),
        ("success-equal", 0, [1, 0, 5, 1, 31]),
        ("overflow-differs", 1, [1, 1, 0, 1, 1]),
        ("overflow-equal", 1, [1, 3, 0, 1, 31]),
    ];
    for (name, number, slot) in held {
        let part = if number == 0 { no() } else { call(0, 0, true) };
        let case = on(format!("held-{name}"), &one_goal(part), &[(0, 3), (0, 0), (0, 3)]);
        out.push(with_slot(case, number, &slot));
    }
    // Goal 1's slot names goal 0, which is on the stack, so that it does not apply.
    let parts = vec![call(1, 0, true), call(2, 0, true), yes()];
    let book = super::book([1, 3, 2, 1, 1], parts);
    for result in [1, 3] {
        let case = on(format!("held-overflow-nested-{result}"), &book, &[(0, 1), (1, 0)]);
        out.push(with_slot(case, 4 + 1, &[1, result, 0, 1, 2, 0, 0]));
    }
    out.extend(of_class("refusals-race", 1, 0..12));
    out
}

/// Of one goal and T 5.
const CACHE_LEN: usize = 7 * 5;

/// Everything is wrong at once; then one thing after the other is put right.
fn order() -> Vec<Case> {
    let mut bytes = one_goal(yes()).to_bytes();
    bytes[2] = b'7';
    bytes[18] = b'9';
    bytes[47] = b' ';
    bytes.push(0);
    let mut case = raw(String::new(), bytes);
    case.cache = vec![9; CACHE_LEN + 1];
    case.queries = vec![Query::new(1, 6, work_len(1) + 1)];
    let put_right: [fn(&mut Case); 9] = [
        |c| c.book.truncate(48),
        |c| c.book[47] = b'\n',
        |c| c.book[2] = b'1',
        |c| c.book[18] = b'1',
        |c| c.queries[0].goal = 0,
        |c| c.queries[0].depth = 5,
        |c| c.cache.truncate(CACHE_LEN),
        |c| c.cache.fill(0),
        |c| c.queries[0].work_len = work_len(1),
    ];
    let mut out = vec![named("order-from-1", case.clone())];
    for (i, put_right) in put_right.iter().enumerate() {
        put_right(&mut case);
        out.push(named(format!("order-from-{}", i + 2), case.clone()));
    }
    out
}
