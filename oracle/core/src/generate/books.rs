//! One function for each sort of good book.

use super::shapes::{Shape, empty, fitted, header, some_kinds};
use crate::book::{Book, COINDUCTIVE, FORCED_AMBIGUITY, Header, INDUCTIVE, Part, UNKNOWN};
use crate::random::Random;

fn of_shape(r: &mut Random, shape: &Shape, goals: usize, top_depth: usize) -> Book {
    let header = header(r, goals, top_depth);
    let parts = (0..goals).map(|goal| shape.part(r, goal, goals)).collect();
    fitted(Book { header, parts })
}

pub fn any(r: &mut Random) -> Book {
    let make = r.choose::<fn(&mut Random) -> Book>(&[
        tiny,
        random,
        rings,
        tangled,
        picks,
        nested,
        overflow,
        uncached,
        many_entries,
        large,
        groups,
    ]);
    make(r)
}

pub fn any_small(r: &mut Random) -> Book {
    let make = r.choose::<fn(&mut Random) -> Book>(&[
        tiny,
        random,
        rings,
        tangled,
        picks,
        nested,
        overflow,
        uncached,
        many_entries,
        groups,
    ]);
    make(r)
}

pub fn tiny(r: &mut Random) -> Book {
    let shape = Shape { nest: 2, ..Shape::new(some_kinds(r)) };
    let (goals, top) = (r.between(1, 3), r.between(0, 4));
    of_shape(r, &shape, goals, top)
}

pub fn random(r: &mut Random) -> Book {
    let shape = Shape::new(some_kinds(r));
    let (goals, top) = (r.between(1, 6), r.between(0, 8));
    of_shape(r, &shape, goals, top)
}

pub fn tangled(r: &mut Random) -> Book {
    let kinds = some_kinds(r);
    tangled_of(r, kinds)
}

/// Every goal calls several others and there is depth enough, so cycles cross each other.
fn tangled_of(r: &mut Random, kinds: Vec<u8>) -> Book {
    let goals = r.between(2, 9);
    let top = r.between(goals, 2 * goals + 4);
    let mut header = header(r, goals, top);
    header.step_limit = r.choose(&[1, 2, 3, 4, 5, 8, 20, 99]);
    let nest = r.between(2, 4);
    let empty = r.choose(&[0, 5, 15]);
    let lower = r.choose(&[60, 85, 97]);
    let shape = Shape { nest, width: 3, leaves: 10, picks: 20, undecided: 1, empty, lower, kinds };
    let parts = (0..goals).map(|goal| shape.part(r, goal, goals)).collect();
    fitted(Book { header, parts })
}

pub fn rings(r: &mut Random) -> Book {
    let kinds = some_kinds(r);
    rings_of(r, kinds)
}

/// Each goal calls the next one, and the last an earlier one; some have more to their part.
fn rings_of(r: &mut Random, kinds: Vec<u8>) -> Book {
    let shape = Shape { nest: 2, ..Shape::new(kinds) };
    let goals = r.between(1, 8);
    let top = r.between(goals.saturating_sub(2), goals + 4);
    let header = header(r, goals, top);
    let parts = (0..goals).map(|goal| ring_part(r, &shape, goal, goals)).collect();
    Book { header, parts }
}

fn ring_part(r: &mut Random, shape: &Shape, goal: usize, goals: usize) -> Part {
    let next = if goal + 1 < goals { goal + 1 } else { r.below(goals) };
    let mut parts = vec![shape.call(r, next)];
    for _ in 0..r.below(3) {
        let more = match r.below(4) {
            0 => empty(r),
            1 => {
                let back = r.below(goal + 1);
                shape.call(r, back)
            }
            _ => shape.part(r, goal, goals),
        };
        let place = r.below(parts.len() + 1);
        parts.insert(place, more);
    }
    let has_pick = parts.iter().any(|p| matches!(p, Part::Pick(_)));
    match r.below(3) {
        0 => Part::All(parts),
        1 if !has_pick => Part::Pick(parts),
        _ => Part::Any(parts),
    }
}

pub fn picks(r: &mut Random) -> Book {
    let kinds = some_kinds(r);
    picks_of(r, kinds)
}

fn picks_of(r: &mut Random, kinds: Vec<u8>) -> Book {
    let shape = Shape { picks: 80, width: 4, leaves: 35, empty: 15, ..Shape::new(kinds) };
    let (goals, top) = (r.between(1, 5), r.between(0, 7));
    of_shape(r, &shape, goals, top)
}

/// Few goals, each a pick, any or all of calls, and few runs allowed.
pub fn knots(r: &mut Random) -> Book {
    let kinds =
        if r.chance(70) { r.choose(&[[0, 0], [0, 2], [2, 2]]).to_vec() } else { some_kinds(r) };
    let (nest, width) = (r.between(2, 3), r.between(2, 4));
    let (undecided, empty) = (r.choose(&[0, 0, 4]), r.choose(&[4, 10]));
    let lower = r.choose(&[50, 85, 100]);
    let shape = Shape { kinds, nest, width, leaves: 25, picks: 45, undecided, empty, lower };
    let goals = r.between(2, 5);
    let top_depth = r.between(1, goals + 2);
    let step_limit = r.choose(&[1, 2, 2, 3, 3, 4]);
    let divisor = r.choose(&[1, 2, 3]);
    let header = Header { provisional_cache: true, goals, top_depth, step_limit, divisor };
    let parts = (0..goals).map(|goal| shape.part(r, goal, goals)).collect();
    fitted(Book { header, parts })
}

pub fn nested(r: &mut Random) -> Book {
    let kinds = some_kinds(r);
    let nest = r.between(4, 8);
    let shape = Shape { nest, width: 2, leaves: 12, ..Shape::new(kinds) };
    let (goals, top) = (r.between(1, 4), r.between(0, 6));
    of_shape(r, &shape, goals, top)
}

pub fn overflow(r: &mut Random) -> Book {
    let shape = Shape { lower: 95, width: 4, ..Shape::new(some_kinds(r)) };
    let (goals, top) = (r.between(2, 6), r.between(0, 3));
    let mut book = of_shape(r, &shape, goals, top);
    book.header.divisor = r.choose(&[1, 2, 2, 3, 4, 99]);
    book
}

pub fn uncached(r: &mut Random) -> Book {
    let make = r.choose::<fn(&mut Random) -> Book>(&[random, rings, tangled]);
    let mut book = make(r);
    book.header.provisional_cache = false;
    book
}

/// Goal 0 calls the others by most kinds in any order, and these call back, so that there are
/// about as many provisional entries as may be kept.
pub fn many_entries(r: &mut Random) -> Book {
    let (goals, top) = (r.between(2, 7), r.between(2, 6));
    let mut header = header(r, goals, top);
    header.provisional_cache = true;
    let shape = Shape { nest: 2, lower: 60, empty: 0, ..Shape::new(vec![0, 1, 2, 3]) };
    let share = r.between(40, 100);
    let mut calls = Vec::new();
    for goal in (1..goals).flat_map(|goal| [goal; 4]).collect::<Vec<_>>() {
        if r.chance(share) {
            let place = r.below(calls.len() + 1);
            calls.insert(place, goal);
        }
    }
    let calls = calls.into_iter().map(|goal| shape.call(r, goal)).collect();
    let wrap = r.choose::<fn(Vec<Part>) -> Part>(&[Part::Pick, Part::Pick, Part::Any, Part::All]);
    let mut parts = vec![wrap(calls)];
    for goal in 1..goals {
        let back = shape.call(r, 0);
        parts.push(match r.below(10) {
            0 => empty(r),
            1 | 2 => Part::All(vec![back, shape.part(r, goal, goals)]),
            3 | 4 => Part::Any(vec![shape.part(r, goal, goals), back]),
            _ => back,
        });
    }
    Book { header, parts }
}

pub fn large(r: &mut Random) -> Book {
    let shape = Shape { nest: 2, leaves: 60, ..Shape::new(some_kinds(r)) };
    let (goals, top) = (r.between(17, 64), r.between(0, 6));
    of_shape(r, &shape, goals, top)
}

/// Each goal calls the next, so that all of them come to stand on the stack at once, and some of a few goals further down:
/// cycles of many steps, of every mix of kinds.
pub fn deep(r: &mut Random) -> Book {
    let shape = Shape { lower: r.choose(&[0, 5, 60]), ..Shape::new(some_kinds(r)) };
    let (goals, top) = (r.between(9, 64), r.between(20, 50));
    let mut header = header(r, goals, top);
    header.step_limit = r.choose(&[1, 2, 3]);
    let heads = [r.below(4), r.below(goals), r.below(goals)];
    let part = |goal: usize| {
        let next = (goal + 1 < goals).then(|| shape.call(r, goal + 1));
        let mut parts: Vec<Part> = next.into_iter().collect();
        for head in heads.into_iter().filter(|head| *head <= goal) {
            let more = if r.chance(85) { shape.call(r, head) } else { empty(r) };
            let place = r.below(parts.len() + 1);
            if r.chance(40) {
                parts.insert(place, more);
            }
        }
        match r.below(5) {
            0 => Part::Pick(parts),
            1 | 2 => Part::All(parts),
            _ => Part::Any(parts),
        }
    };
    Book { header, parts: (0..goals).map(part).collect() }
}

/// A chain of heads, and above it a chain of the other goals, which the heads call a second time by a step of another kind,
/// so that many provisional entries are live at once. Every goal calls some heads, also such as are not on the stack yet:
/// as one head after the other is done, the entries above it are rebased to those below.
pub fn closing(r: &mut Random) -> Book {
    let shape = Shape { lower: r.choose(&[0, 0, 10]), ..Shape::new(some_kinds(r)) };
    let (goals, top) = (r.between(6, 64), r.between(20, 50));
    let mut header = header(r, goals, top);
    (header.provisional_cache, header.step_limit) = (true, r.choose(&[1, 2]));
    let (heads, calls) = (r.between(2, goals / 8 + 3), r.between(1, 3));
    let part = |goal: usize| {
        let next = (goal + 1 < goals).then(|| shape.call(r, goal + 1));
        let mut parts: Vec<Part> = next.into_iter().collect();
        if goal < heads {
            parts.push(shape.call(r, heads));
        }
        for _ in 0..calls {
            let head = r.below(heads.min(goal + 1));
            parts.push(if r.chance(97) { shape.call(r, head) } else { empty(r) });
        }
        match r.below(10) {
            0 => Part::Pick(parts),
            1 => Part::All(parts),
            _ => Part::Any(parts),
        }
    };
    Book { header, parts: (0..goals).map(part).collect() }
}

pub fn long(r: &mut Random) -> Book {
    let kinds = some_kinds(r);
    let (goals, top) = (r.between(1, 40), r.between(0, 4));
    let nest = r.between(3, 8);
    let width = if nest > 5 { 3 } else { r.between(4, 12) };
    let shape = Shape { nest, width, leaves: 15, empty: 20, ..Shape::new(kinds) };
    let mut book = of_shape(r, &shape, goals, top);
    // Now and then to the last line.
    let missing = crate::book::MAX_LINES - book.lines();
    if r.chance(40)
        && let Part::All(parts) | Part::Any(parts) | Part::Pick(parts) = &mut book.parts[0]
        && parts.len() + missing <= 999
    {
        parts.extend((0..missing).map(|_| empty(r)));
    }
    book
}

pub fn extremes(r: &mut Random) -> Book {
    let mut book = if r.chance(50) { random(r) } else { rings(r) };
    match r.below(6) {
        0 => book.header.top_depth = 63,
        1 => book.header.step_limit = 99,
        2 => book.header.divisor = 99,
        3 => book.header.step_limit = 0,
        4 => {
            let shape = Shape { nest: 1, ..Shape::new(some_kinds(r)) };
            let top = r.between(0, 3);
            book = of_shape(r, &shape, 64, top);
        }
        _ => book.header.top_depth = 0,
    }
    book
}

/// Any of the small shapes, with calls of the kinds only.
fn of_kinds(r: &mut Random, kinds: &[u8]) -> Book {
    let kinds = kinds.to_vec();
    match r.below(9) {
        0 => rings_of(r, kinds),
        1 => picks_of(r, kinds),
        2..=5 => tangled_of(r, kinds),
        6 => {
            let shape = Shape { nest: 2, leaves: 60, ..Shape::new(kinds) };
            let (goals, top) = (r.between(6, 12), r.between(2, 10));
            of_shape(r, &shape, goals, top)
        }
        7 => {
            let shape = Shape { lower: 95, undecided: 8, ..Shape::new(kinds) };
            let (goals, top) = (r.between(1, 6), r.between(0, 3));
            of_shape(r, &shape, goals, top)
        }
        _ => {
            let shape = Shape { undecided: r.choose(&[0, 3, 10]), ..Shape::new(kinds) };
            let (goals, top) = (r.between(1, 7), r.between(0, 9));
            of_shape(r, &shape, goals, top)
        }
    }
}

pub fn only_inductive(r: &mut Random) -> Book {
    of_kinds(r, &[INDUCTIVE])
}

pub fn only_coinductive(r: &mut Random) -> Book {
    of_kinds(r, &[COINDUCTIVE])
}

pub fn no_coinductive(r: &mut Random) -> Book {
    of_kinds(r, &[INDUCTIVE, INDUCTIVE, INDUCTIVE, INDUCTIVE, UNKNOWN, FORCED_AMBIGUITY])
}

pub fn no_inductive(r: &mut Random) -> Book {
    of_kinds(r, &[COINDUCTIVE, COINDUCTIVE, COINDUCTIVE, COINDUCTIVE, UNKNOWN, FORCED_AMBIGUITY])
}

/// Goals in runs: calls inside a run have no coinductive, or no inductive, kind; calls of a
/// later run have any kind, and no call goes to an earlier one.
pub fn groups(r: &mut Random) -> Book {
    let goals = r.between(2, 9);
    let mut group = vec![0; goals];
    for goal in 1..goals {
        group[goal] = group[goal - 1] + usize::from(r.chance(40));
    }
    let without_coinductive: Vec<bool> = (0..goals).map(|_| r.chance(50)).collect();
    let top = r.between(1, 10);
    let header = header(r, goals, top);
    let shape = Shape::new(vec![0, 1, 2, 3]);
    let parts = (0..goals).map(|goal| {
        let call = |r: &mut Random| {
            let first = group.iter().position(|g| *g == group[goal]).expect("its own group");
            let target = first + r.below(goals - first);
            let kinds: &[u8] =
                match (group[target] == group[goal], without_coinductive[group[goal]]) {
                    (false, _) => &[0, 1, 2, 3],
                    (true, true) => &[0, 0, 0, 1, 3],
                    (true, false) => &[2, 2, 2, 1, 3],
                };
            Part::Call { goal: target, kind: r.choose(kinds), lower: r.chance(85) }
        };
        shape.part_with(r, shape.nest, false, &call)
    });
    let parts = parts.collect();
    Book { header, parts }
}
