//! Books made for timing.

use oracle_core::book::{Book, COINDUCTIVE, Header, INDUCTIVE, MAX_LINES, Part, UNKNOWN};
use oracle_core::random::Random;

/// A ring: each goal leans on the next, and some of them, more or less many, on other goals or a fact too.
pub fn ring(r: &mut Random, goals: usize, provisional_cache: bool) -> Book {
    let (top_depth, step_limit) = (goals.clamp(8, 40), r.choose(&[2, 3, 4, 8]));
    let header = Header { provisional_cache, goals, top_depth, step_limit, divisor: 2 };
    let kinds = r.choose(&[[0, 0, 0], [2, 2, 2], [0, 0, 2], [0, 1, 2]]);
    let (knots, lower) = (r.between(2, 12), r.choose(&[0, 10, 60]));
    let call =
        |r: &mut Random, goal| Part::Call { goal, kind: r.choose(&kinds), lower: r.chance(lower) };
    let part = |goal: usize| {
        let next = call(r, (goal + 1) % goals);
        if r.below(goals) >= knots {
            return Part::All(vec![next]);
        }
        let other = r.below(goals);
        let back = r.below(goal + 1);
        let both = vec![call(r, other), call(r, back)];
        match r.below(4) {
            0 => Part::Any(vec![next, Part::All(both)]),
            1 => Part::All(vec![Part::Any(both), next]),
            2 => Part::Any(vec![Part::All(both), next, EMPTY]),
            _ => Part::All(vec![next, Part::Any(both)]),
        }
    };
    Book { header, parts: (0..goals).map(part).collect() }
}

/// A chain of all goals, so that each of them comes to stand on the stack; after the next goal each calls some of the
/// lowest ones, and every such call closes a cycle that is as long as the stack is high. None of the goals holds.
pub fn deep(r: &mut Random, goals: usize, provisional_cache: bool) -> Book {
    let header = Header { provisional_cache, goals, top_depth: 40, step_limit: 4, divisor: 2 };
    let kinds = r.choose(&[[0, 0], [0, 1], [1, 1]]);
    let calls = r.between(2, 8);
    let part = |goal: usize| {
        let call = |r: &mut Random, goal| Part::Call { goal, kind: r.choose(&kinds), lower: false };
        let next = (goal + 1 < goals).then(|| call(r, goal + 1));
        let low: Vec<_> = (0..calls).map(|_| r.below(goal.min(3) + 1)).collect();
        Part::Any(next.into_iter().chain(low.into_iter().map(|low| call(r, low))).collect())
    };
    Book { header, parts: (0..goals).map(part).collect() }
}

/// A chain of heads, and above it a chain of the other goals, which the last head calls twice, by steps of two kinds, so
/// that these goals come to have two provisional entries each. Every goal leans on some heads, by a step of unknown kind
/// at least. All of it is ambiguous: as one head after the other is done, the entries stay, and are rebased to the next.
pub fn closing(r: &mut Random, goals: usize) -> Book {
    let header =
        Header { provisional_cache: true, goals, top_depth: 40, step_limit: 8, divisor: 2 };
    let (heads, calls) = (r.between(goals / 8, goals / 4), r.between(1, 9));
    let part = |goal: usize| {
        let call = |goal, kind| Part::Call { goal, kind, lower: false };
        let up = if goal + 1 < heads { UNKNOWN } else { INDUCTIVE };
        let next = (goal + 1 < goals).then(|| call(goal + 1, up));
        let again = (goal + 1 == heads).then(|| call(heads, UNKNOWN));
        let mut back = |kind| call(r.below(heads.min(goal + 1)), kind);
        let mut low = vec![back(UNKNOWN)];
        low.extend((0..calls).map(|_| back(INDUCTIVE)));
        Part::Any(next.into_iter().chain(again).chain(low).collect())
    };
    Book { header, parts: (0..goals).map(part).collect() }
}

const EMPTY: Part = Part::All(vec![]);

/// A plain ring of all goals but the last, which is a fact: goal 0 takes a run of each, the last goal one.
pub fn plain_ring(goals: usize) -> Book {
    let header =
        Header { provisional_cache: true, goals, top_depth: 40, step_limit: 8, divisor: 2 };
    let ring = goals - 1;
    let next = |goal| Part::Call { goal: (goal + 1) % ring, kind: INDUCTIVE, lower: false };
    let parts = (0..ring).map(|goal| Part::Any(vec![next(goal)])).chain([EMPTY]);
    Book { header, parts: parts.collect() }
}

/// One goal and so many lines, all of them read in a run: calls of the goal itself, and facts, in turn.
pub fn one_goal(lines: usize) -> Book {
    let header =
        Header { provisional_cache: true, goals: 1, top_depth: 4, step_limit: 8, divisor: 2 };
    let call = || Part::Call { goal: 0, kind: COINDUCTIVE, lower: false };
    let parts = (0..lines - 3).map(|i| if i % 2 == 0 { call() } else { EMPTY });
    Book { header, parts: vec![Part::All(parts.collect())] }
}

/// Goals of the same part, and a last one of an any of calls that fills the book to 1,000 lines.
pub fn filled(part: Part) -> Book {
    let call = Part::Call { goal: 0, kind: INDUCTIVE, lower: true };
    let goals = ((MAX_LINES - 5) / (1 + part.lines())).min(63);
    let rest = MAX_LINES - 3 - goals * (1 + part.lines());
    let mut parts = vec![part; goals];
    parts.push(Part::Any(vec![call; rest]));
    let header = Header {
        provisional_cache: true,
        goals: goals + 1,
        top_depth: 4,
        step_limit: 8,
        divisor: 2,
    };
    Book { header, parts }
}
