//! Mixed books: rings of goals, each with one sort of steps inside, that call each other downwards.

use super::shapes::{Shape, empty, fitted, header};
use crate::book::{Book, COINDUCTIVE, FORCED_AMBIGUITY, INDUCTIVE, Part, UNKNOWN};
use crate::random::Random;

/// The kinds of calls inside a ring; none for a goal alone that does not call itself.
const INSIDE: [&[u8]; 6] = [
    &[INDUCTIVE, INDUCTIVE, INDUCTIVE, INDUCTIVE, UNKNOWN, FORCED_AMBIGUITY],
    &[INDUCTIVE],
    &[COINDUCTIVE, COINDUCTIVE, COINDUCTIVE, COINDUCTIVE, UNKNOWN, FORCED_AMBIGUITY],
    &[COINDUCTIVE],
    &[UNKNOWN, FORCED_AMBIGUITY],
    &[],
];

/// The kinds of calls from ring to ring.
const BRIDGES: [u8; 6] =
    [INDUCTIVE, INDUCTIVE, COINDUCTIVE, COINDUCTIVE, UNKNOWN, FORCED_AMBIGUITY];

const MOST_GOALS: usize = 12;

struct Ring {
    goals: Vec<usize>,
    kinds: &'static [u8],
}

pub fn book(r: &mut Random) -> Book {
    let rings = rings(r);
    let goals = rings.iter().map(|ring| ring.goals.len()).sum();
    let top = match r.below(100) {
        0..70 => r.between(goals, 2 * goals + 2),
        70..97 => r.between(0, 5),
        _ => r.between(30, 63),
    };
    let header = header(r, goals, top);
    let shape = Shape {
        nest: r.between(1, 3),
        undecided: r.choose(&[0, 4, 12]),
        empty: r.choose(&[5, 15, 30]),
        lower: r.choose(&[60, 85, 97]),
        ..Shape::new(BRIDGES.to_vec())
    };
    let mut parts = vec![Part::Undecided; goals];
    for (at, ring) in rings.iter().enumerate() {
        for place in 0..ring.goals.len() {
            parts[ring.goals[place]] = part(r, &shape, &rings[at..], place);
        }
    }
    if r.chance(20) {
        call_back(r, &shape, &rings, &mut parts);
    }
    fitted(Book { header, parts })
}

/// Two to five rings, small ones most often, or nine goals alone; in any order.
fn rings(r: &mut Random) -> Vec<Ring> {
    let mut left = MOST_GOALS;
    let mut sizes = Vec::new();
    let first = r.below(INSIDE.len());
    // The other kind than the first ring's stands two places on.
    let other = if first < 4 { (first + 2) % 4 } else { first };
    let count = r.choose(&[2, 2, 2, 2, 2, 2, 3, 3, 3, 3, 4, 4, 5, 9]);
    for ring in 0..count {
        let sort = match ring {
            0 => first,
            _ if r.chance(40) => other,
            _ => r.below(INSIDE.len()),
        };
        let kinds = INSIDE[sort];
        let alone = count == 9 || kinds.is_empty();
        let size = if alone { 1 } else { r.choose(&[1, 1, 2, 2, 2, 3, 3, 5]) };
        if size <= left {
            left -= size;
            sizes.push((size, kinds));
        }
    }
    let mut order = Vec::new();
    for goal in 0..MOST_GOALS - left {
        let place = r.below(order.len() + 1);
        order.insert(place, goal);
    }
    let take = |(size, kinds)| Ring { goals: order.drain(..size).collect(), kinds };
    sizes.into_iter().map(take).collect()
}

/// The part of the goal at a place of the first ring: a call of the next goal in the ring, and
/// more, with calls inside the ring and of later rings.
fn part(r: &mut Random, shape: &Shape, rings: &[Ring], place: usize) -> Part {
    let ring = &rings[0];
    let inside = |r: &mut Random, goal: usize| Part::Call {
        goal,
        kind: r.choose(ring.kinds),
        lower: r.chance(shape.lower),
    };
    let call = |r: &mut Random| match (ring.kinds.is_empty(), rings.len() > 1) {
        (true, false) => empty(r),
        (false, later) if !later || r.chance(35) => {
            let goal = r.choose(&ring.goals);
            inside(r, goal)
        }
        _ => {
            let other = 1 + r.below(rings.len() - 1);
            let goal = r.choose(&rings[other].goals);
            shape.call(r, goal)
        }
    };
    let wrap = r.choose::<fn(Vec<Part>) -> Part>(&[Part::All, Part::Any, Part::Any, Part::Pick]);
    let in_pick = matches!(wrap(vec![]), Part::Pick(_));
    let more = r.below(3) + usize::from(ring.kinds.is_empty());
    let mut parts: Vec<Part> =
        (0..more).map(|_| shape.part_with(r, shape.nest, in_pick, &call)).collect();
    if !ring.kinds.is_empty() {
        let next = ring.goals[(place + 1) % ring.goals.len()];
        let at = r.below(parts.len() + 1);
        parts.insert(at, inside(r, next));
    }
    wrap(parts)
}

/// A call from any ring of an earlier one, or of the same: rings become one group, or a group
/// gets a step that breaks item 12's condition.
fn call_back(r: &mut Random, shape: &Shape, rings: &[Ring], parts: &mut [Part]) {
    let from = r.below(rings.len());
    let to = r.below(from + 1);
    let (caller, called) = (r.choose(&rings[from].goals), r.choose(&rings[to].goals));
    let both = vec![parts[caller].clone(), shape.call(r, called)];
    parts[caller] = if r.chance(50) { Part::All(both) } else { Part::Any(both) };
}
