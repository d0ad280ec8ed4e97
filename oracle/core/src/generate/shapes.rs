//! Random parts of a given shape.

use crate::book::{Book, Header, MAX_LINES, Part};
use crate::random::Random;

/// What the parts of a book look like; the percentages are of a hundred.
#[derive(Clone, Debug)]
pub struct Shape {
    pub kinds: Vec<u8>,
    /// How deep parts nest, 1 to 8.
    pub nest: usize,
    /// The most parts of an all, any or pick.
    pub width: usize,
    /// Percentage of leaves above the deepest level.
    pub leaves: usize,
    pub picks: usize,
    pub undecided: usize,
    pub empty: usize,
    /// Percentage of calls that lower the depth.
    pub lower: usize,
}

impl Shape {
    pub fn new(kinds: Vec<u8>) -> Shape {
        Shape { kinds, nest: 3, width: 3, leaves: 45, picks: 25, undecided: 3, empty: 6, lower: 85 }
    }

    /// A part of goal `goal` out of `goals`.
    pub fn part(&self, r: &mut Random, goal: usize, goals: usize) -> Part {
        let call = |r: &mut Random| {
            let target = target(r, goal, goals);
            self.call(r, target)
        };
        self.part_with(r, self.nest, false, &call)
    }

    pub fn call(&self, r: &mut Random, goal: usize) -> Part {
        Part::Call { goal, kind: r.choose(&self.kinds), lower: r.chance(self.lower) }
    }

    /// A part whose calls `call` makes.
    pub fn part_with(
        &self,
        r: &mut Random,
        nest: usize,
        in_pick: bool,
        call: &dyn Fn(&mut Random) -> Part,
    ) -> Part {
        if nest == 1 || r.chance(self.leaves) {
            return self.leaf(r, call);
        }
        let pick = !in_pick && r.chance(self.picks);
        let count = if r.chance(4) { 0 } else { r.between(1, self.width) };
        let inside = in_pick || pick;
        let parts = (0..count).map(|_| self.part_with(r, nest - 1, inside, call)).collect();
        match (pick, r.chance(50)) {
            (true, _) => Part::Pick(parts),
            (false, true) => Part::All(parts),
            (false, false) => Part::Any(parts),
        }
    }

    fn leaf(&self, r: &mut Random, call: &dyn Fn(&mut Random) -> Part) -> Part {
        if r.chance(self.undecided) {
            Part::Undecided
        } else if r.chance(self.empty) {
            empty(r)
        } else {
            call(r)
        }
    }
}

/// An all or any of nothing.
pub fn empty(r: &mut Random) -> Part {
    if r.chance(50) { Part::All(vec![]) } else { Part::Any(vec![]) }
}

/// Which goal a call names: often the next one, itself, or the first.
fn target(r: &mut Random, goal: usize, goals: usize) -> usize {
    match r.below(10) {
        0 => 0,
        1 => goal,
        2 | 3 => (goal + 1) % goals,
        4 => r.below(goal + 1),
        _ => r.below(goals),
    }
}

/// A nonempty set of kinds.
pub fn some_kinds(r: &mut Random) -> Vec<u8> {
    let mask = r.between(1, 15);
    (0..4).filter(|k| mask >> k & 1 == 1).collect()
}

pub fn header(r: &mut Random, goals: usize, top_depth: usize) -> Header {
    Header {
        provisional_cache: r.chance(80),
        goals,
        top_depth,
        step_limit: r.choose(&[0, 1, 1, 2, 2, 3, 3, 4, 5, 8, 99]),
        divisor: r.choose(&[1, 1, 2, 2, 3, 4, 99]),
    }
}

/// The book, cut to 1,000 lines by making its longest parts an empty any.
pub fn fitted(mut book: Book) -> Book {
    while book.lines() > MAX_LINES {
        let longest = book.parts.iter_mut().max_by_key(|p| p.lines()).expect("a goal");
        *longest = Part::Any(vec![]);
    }
    book
}
