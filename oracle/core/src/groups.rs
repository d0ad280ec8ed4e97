//! Item 12 of document 02, from its text alone: groups of goals that reach each other by calls,
//! the condition on the steps inside a group, and the sets built group by group.

pub mod wrong;

use crate::book::{Book, COINDUCTIVE, INDUCTIVE, Part};
use crate::random::Random;
use crate::sets::{Goals, rounds};

/// A call line of any kind; the header is line 0.
#[derive(Clone, Copy, Debug, PartialEq, Eq)]
pub struct Step {
    pub line: usize,
    pub caller: usize,
    pub called: usize,
    pub kind: u8,
}

/// Goals that are linked with each other, and the steps inside.
#[derive(Clone, Debug, PartialEq, Eq)]
pub struct Group {
    pub goals: Vec<usize>,
    pub inside: Vec<Step>,
}

/// The first inductive line inside a group that has a coinductive one too, and its first such.
#[derive(Clone, Debug, PartialEq, Eq)]
pub struct Breach {
    pub goals: Vec<usize>,
    pub inductive: usize,
    pub coinductive: usize,
}

/// The set of every choice, undecided lines read as false and as true; none where the book
/// breaks the condition.
#[derive(Clone, Debug, Default, PartialEq, Eq)]
pub struct Sets {
    pub with_false: Vec<Goals>,
    pub with_true: Vec<Goals>,
}

/// All call lines, by rising line number.
pub fn steps(book: &Book) -> Vec<Step> {
    let mut found = Vec::new();
    let mut line = 1;
    for (caller, part) in book.parts.iter().enumerate() {
        line += 1; // the goal's own line
        for part in part.in_order() {
            if let Part::Call { goal: called, kind, .. } = *part {
                found.push(Step { line, caller, called, kind });
            }
            line += 1;
        }
    }
    found
}

/// Bit h of number g says whether goal g reaches goal h by the steps; each goal reaches itself.
fn reached(goals: usize, steps: &[Step]) -> Vec<u64> {
    let mut reach: Vec<u64> = (0..goals).map(|goal| 1 << goal).collect();
    steps.iter().for_each(|step| reach[step.caller] |= 1 << step.called);
    for through in 0..goals {
        for goal in 0..goals {
            if reach[goal] >> through & 1 == 1 {
                reach[goal] |= reach[through];
            }
        }
    }
    reach
}

/// The groups of a book, those that a group calls before it.
pub fn groups(book: &Book) -> Vec<Group> {
    let steps = steps(book);
    grouped(&steps, &reached(book.parts.len(), &steps))
}

/// A caller of another group reaches more goals than that group does, so it comes later.
fn grouped(steps: &[Step], reach: &[u64]) -> Vec<Group> {
    let linked = |a: usize, b: usize| reach[a] >> b & 1 == 1 && reach[b] >> a & 1 == 1;
    let is_first = |goal: &usize| (0..*goal).all(|other| !linked(other, *goal));
    let mut firsts: Vec<usize> = (0..reach.len()).filter(is_first).collect();
    firsts.sort_by_key(|goal| reach[*goal].count_ones());
    let group = |first: usize| {
        let goals = (0..reach.len()).filter(|goal| linked(first, *goal)).collect();
        let inside = |step: &&Step| linked(first, step.caller) && linked(first, step.called);
        Group { goals, inside: steps.iter().filter(inside).copied().collect() }
    };
    firsts.into_iter().map(group).collect()
}

impl Group {
    /// The line of the first step inside that has the kind.
    pub fn first(&self, kind: u8) -> Option<usize> {
        self.inside.iter().find(|step| step.kind == kind).map(|step| step.line)
    }

    pub fn is_left_by(&self, step: &Step) -> bool {
        self.goals.contains(&step.caller) && !self.goals.contains(&step.called)
    }

    pub fn may_be_least(&self) -> bool {
        self.first(COINDUCTIVE).is_none()
    }

    pub fn may_be_greatest(&self) -> bool {
        self.first(INDUCTIVE).is_none()
    }

    /// Both fit, and may differ: without a step inside one round gives the same from any start.
    pub fn is_free(&self) -> bool {
        self.may_be_least() && self.may_be_greatest() && !self.inside.is_empty()
    }
}

/// Where the condition is broken; none where it is met.
pub fn breach(groups: &[Group]) -> Option<Breach> {
    let broken = groups.iter().filter_map(|group| {
        let (inductive, coinductive) = (group.first(INDUCTIVE)?, group.first(COINDUCTIVE)?);
        Some(Breach { goals: group.goals.clone(), inductive, coinductive })
    });
    broken.min_by_key(|breach| breach.inductive)
}

/// More choices than these are not all tried.
pub const MOST_CHOICES: usize = 64;

/// How many choices there are; groups without a step inside have one.
pub fn count_choices(groups: &[Group]) -> u128 {
    1 << groups.iter().filter(|group| group.is_free()).count()
}

/// The choices, each with `true` for a group that is to be greatest: all of them, or the first
/// and the last and others at random; none where the condition is broken.
pub fn choices(groups: &[Group]) -> Vec<Vec<bool>> {
    let count = count_choices(groups);
    let numbers: Vec<u128> = if breach(groups).is_some() {
        vec![]
    } else if count <= MOST_CHOICES as u128 {
        (0..count).collect()
    } else {
        let mut r = Random::new(groups.iter().fold(0, |sum, group| {
            (sum ^ group.goals.len() as u64).rotate_left(7) ^ group.inside.len() as u64
        }));
        let some = (2..MOST_CHOICES).map(|_| u128::from(r.number()) % count);
        [0].into_iter().chain(some).chain([count - 1]).collect()
    };
    numbers.into_iter().map(|number| choice(groups, number)).collect()
}

/// Bit i of the number is for the i-th group that is free.
fn choice(groups: &[Group], number: u128) -> Vec<bool> {
    let mut left = number;
    let greatest = groups.iter().map(|group| {
        if !group.is_free() {
            return !group.may_be_least();
        }
        let bit = left & 1 == 1;
        left >>= 1;
        bit
    });
    greatest.collect()
}

/// The set of a choice: group by group in the order given, the goals of all others held.
pub fn build(book: &Book, groups: &[Group], choice: &[bool], undecided: bool) -> Goals {
    let mut set = vec![false; book.parts.len()];
    for (group, greatest) in groups.iter().zip(choice) {
        rounds(book, &group.goals, *greatest, undecided, &mut set);
    }
    set
}

/// The sets that every Yes and No is measured by.
pub fn sets(book: &Book) -> Sets {
    sets_of(book, &groups(book))
}

fn sets_of(book: &Book, groups: &[Group]) -> Sets {
    Sets::of(groups, |choice, undecided| build(book, groups, choice, undecided))
}

impl Sets {
    fn of(groups: &[Group], build: impl Fn(&[bool], bool) -> Goals) -> Sets {
        let choices = choices(groups);
        let each = |undecided| choices.iter().map(|choice| build(choice, undecided)).collect();
        Sets { with_false: each(false), with_true: each(true) }
    }

    pub fn all(&self) -> impl Iterator<Item = &Goals> {
        self.with_false.iter().chain(&self.with_true)
    }

    pub fn is_empty(&self) -> bool {
        self.with_false.is_empty()
    }

    /// Whether two choices give different sets.
    pub fn choices_differ(&self) -> bool {
        let differ = |sets: &[Goals]| sets.iter().any(|set| *set != sets[0]);
        differ(&self.with_false) || differ(&self.with_true)
    }
}
