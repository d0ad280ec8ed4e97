//! What the Yes and No of a list are measured by.

use super::counts::Seen;
use crate::book::{Book, COINDUCTIVE, INDUCTIVE};
use crate::delegate::{NO, YES};
use crate::groups::wrong::Reading;
use crate::groups::{Group, MOST_CHOICES, Sets, count_choices, groups, steps};
use crate::sets::{Goals, greatest, least};

pub struct Measure {
    /// In every set, and in some set.
    in_all: Goals,
    in_some: Goals,
    /// Of the whole book, undecided lines read as false.
    least: Goals,
    /// Of the whole book, undecided lines read as true.
    greatest: Goals,
}

/// The sets of demand 3 itself, which speaks of books of one sort of steps.
fn of_one_sort(book: &Book) -> Vec<Goals> {
    let mut sets = Vec::new();
    if !book.has_kind(COINDUCTIVE) {
        sets.extend([least(book, false), least(book, true)]);
    }
    if !book.has_kind(INDUCTIVE) {
        sets.extend([greatest(book, false), greatest(book, true)]);
    }
    sets
}

impl Measure {
    /// With what matters in the book; none where it breaks the condition.
    pub fn of(book: &Book, reading: Reading) -> Option<(Measure, Seen)> {
        let (sets, old) = (reading.sets(book), of_one_sort(book));
        if sets.is_empty() {
            return None;
        }
        let by_goal = |is_in: &dyn Fn(usize) -> bool| (0..book.parts.len()).map(is_in).collect();
        let measure = Measure {
            in_all: by_goal(&|goal| sets.all().chain(&old).all(|set| set[goal])),
            in_some: by_goal(&|goal| sets.all().chain(&old).any(|set| set[goal])),
            least: least(book, false),
            greatest: greatest(book, true),
        };
        Some((measure, features(book, &sets)))
    }

    pub fn allows(&self, goal: usize, answer: u8) -> bool {
        match answer {
            YES => self.in_all[goal],
            NO => !self.in_some[goal],
            _ => true,
        }
    }

    /// Counts an answer.
    pub fn tell(&self, goal: usize, answer: u8, seen: &mut Seen) {
        seen.answers[usize::from(answer)] += 1;
        seen.beyond_least += u64::from(answer == YES && !self.least[goal]);
        seen.below_greatest += u64::from(answer == NO && self.greatest[goal]);
    }
}

/// What matters in a book, as of a list without queries.
fn features(book: &Book, sets: &Sets) -> Seen {
    let (groups, steps) = (groups(book), steps(book));
    let must_be_least = groups.iter().any(|group| !group.may_be_greatest());
    let must_be_greatest = groups.iter().any(|group| !group.may_be_least());
    let bridged = |group: &Group| {
        let mut out = steps.iter().filter(|step| group.is_left_by(step));
        out.any(|step| match step.kind {
            INDUCTIVE => !group.may_be_least(),
            COINDUCTIVE => !group.may_be_greatest(),
            _ => false,
        })
    };
    Seen {
        lists: 1,
        both_kinds: u64::from(must_be_least && must_be_greatest),
        bridged: u64::from(groups.iter().any(bridged)),
        choices_differ: u64::from(sets.choices_differ()),
        undecided_differ: u64::from(sets.with_false != sets.with_true),
        cache_off: u64::from(!book.header.provisional_cache),
        sampled: u64::from(count_choices(&groups) > MOST_CHOICES as u128),
        ..Seen::default()
    }
}
