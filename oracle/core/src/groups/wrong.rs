//! Wrong readings of item 12, to see that a run finds them out.

use super::{Group, Sets, Step, breach, build, grouped, groups, reached, sets, sets_of, steps};
use crate::book::{Book, COINDUCTIVE, INDUCTIVE, UNKNOWN};
use crate::sets::{Goals, greatest, least, rounds};

/// How item 12 is read.
#[derive(Clone, Copy)]
pub struct Reading {
    pub name: &'static str,
    pub what: &'static str,
    sets: fn(&Book) -> Sets,
}

const fn reading(name: &'static str, what: &'static str, sets: fn(&Book) -> Sets) -> Reading {
    Reading { name, what, sets }
}

impl Reading {
    /// The sets that a book's Yes and No are measured by. Books of one sort of steps are read
    /// rightly, so that it takes a mixed one to find a wrong reading out.
    pub fn sets(&self, book: &Book) -> Sets {
        if book.is_mixed() { (self.sets)(book) } else { sets(book) }
    }
}

pub const RIGHT: Reading = reading("right", "as item 12 says", sets);

/// Those that claim too much: some Yes or No of the original is against them.
pub const TOO_MUCH: &[Reading] = &[
    reading("swapped", "least and greatest are swapped", swapped),
    reading("unseen", "no step counts as inside", unseen),
    reading("self-calls", "a goal's call of itself does not count as inside", self_calls),
    reading("leaving-least", "least where an inductive step leaves the group", leaving_least),
    reading("leaving-greatest", "greatest where a coinductive step does", leaving_greatest),
    reading("direct", "goals are linked only where they call each other directly", direct),
    reading(
        "one-way-least",
        "linked one way, and least where both kinds are inside",
        one_way_least,
    ),
    reading("called-least", "called groups are as in the book's least set", called_least),
    reading("called-greatest", "called groups are as in its greatest set", called_greatest),
    reading("callers-first", "callers are built before what they call", callers_first),
    reading("least", "a mixed book has the least set of the whole book", whole_least),
    reading("greatest", "a mixed book has the greatest set of the whole book", whole_greatest),
];

/// Those that speak of books that break the condition: it is needed.
pub const WITHOUT_CONDITION: &[Reading] = &[
    reading("broken-least", "a group with both kinds of steps is least", broken_least),
    reading("broken-greatest", "a group with both kinds of steps is greatest", broken_greatest),
];

/// Those that claim too little: they turn books away, or leave out sets, that item 12 speaks of.
pub const TOO_LITTLE: &[Reading] = &[
    reading("whole-book", "every line of the book counts as inside", whole_book),
    reading("one-way", "goals are linked where one reaches the other", one_way),
    reading("leaving", "steps that leave the group count as inside", leaving),
    reading("one-choice", "where both fit, the set is the least", one_choice),
    reading("one-reading", "undecided lines are read as false", one_reading),
];

/// All wrong ones.
pub fn all() -> impl Iterator<Item = Reading> {
    TOO_MUCH.iter().chain(WITHOUT_CONDITION).chain(TOO_LITTLE).copied()
}

pub fn named(name: &str) -> Option<Reading> {
    all().find(|reading| reading.name == name)
}

/// The groups, each changed.
fn changed(book: &Book, change: impl Fn(&mut Group)) -> Vec<Group> {
    let mut groups = groups(book);
    groups.iter_mut().for_each(change);
    groups
}

/// The sets of groups made wrongly, where the right ones meet the condition.
fn where_met(book: &Book, wrong: &[Group]) -> Sets {
    let met = breach(&groups(book)).is_none();
    if met { sets_of(book, wrong) } else { Sets::default() }
}

/// Some steps inside lose their kind: they are in the way of neither choice.
fn without_kind(group: &mut Group, lose: impl Fn(&Step) -> bool) {
    group.inside.iter_mut().filter(|step| lose(step)).for_each(|step| step.kind = UNKNOWN);
}

/// Where both kinds are inside, one does not count.
fn if_broken(group: &mut Group, uncounted: u8) {
    if !group.may_be_least() && !group.may_be_greatest() {
        without_kind(group, |step| step.kind == uncounted);
    }
}

fn swapped(book: &Book) -> Sets {
    let groups = groups(book);
    Sets::of(&groups, |choice, undecided| {
        let other: Vec<bool> = choice.iter().map(|greatest| !greatest).collect();
        build(book, &groups, &other, undecided)
    })
}

fn unseen(book: &Book) -> Sets {
    where_met(book, &changed(book, |group| without_kind(group, |_| true)))
}

fn self_calls(book: &Book) -> Sets {
    let itself = |step: &Step| step.caller == step.called;
    where_met(book, &changed(book, |group| without_kind(group, itself)))
}

/// With the steps that leave a group among those inside.
fn left(book: &Book) -> Vec<Group> {
    let steps = steps(book);
    changed(book, |group| {
        let leaving = steps.iter().filter(|step| group.is_left_by(step));
        let leaving: Vec<Step> = leaving.copied().collect();
        group.inside.extend(leaving);
    })
}

fn leaving(book: &Book) -> Sets {
    sets_of(book, &left(book))
}

fn leaving_least(book: &Book) -> Sets {
    let mut groups = left(book);
    groups.iter_mut().for_each(|group| if_broken(group, COINDUCTIVE));
    where_met(book, &groups)
}

fn leaving_greatest(book: &Book) -> Sets {
    let mut groups = left(book);
    groups.iter_mut().for_each(|group| if_broken(group, INDUCTIVE));
    where_met(book, &groups)
}

fn direct(book: &Book) -> Sets {
    let steps = steps(book);
    let mut calls: Vec<u64> = (0..book.parts.len()).map(|goal| 1 << goal).collect();
    steps.iter().for_each(|step| calls[step.caller] |= 1 << step.called);
    let mut groups = grouped(&steps, &calls);
    let reach = reached(book.parts.len(), &steps);
    groups.sort_by_key(|group| reach[group.goals[0]].count_ones());
    where_met(book, &groups)
}

/// With goals linked where one reaches the other.
fn joined(book: &Book) -> Vec<Group> {
    let steps = steps(book);
    let mut both_ways = steps.clone();
    let back = |step: &Step| Step { caller: step.called, called: step.caller, ..*step };
    both_ways.extend(steps.iter().map(back));
    grouped(&steps, &reached(book.parts.len(), &both_ways))
}

fn one_way(book: &Book) -> Sets {
    sets_of(book, &joined(book))
}

fn one_way_least(book: &Book) -> Sets {
    let mut groups = joined(book);
    groups.iter_mut().for_each(|group| if_broken(group, COINDUCTIVE));
    where_met(book, &groups)
}

/// Each group beside a set of the whole book in place of what was built.
fn beside(book: &Book, whole: fn(&Book, bool) -> Goals) -> Sets {
    let groups = groups(book);
    Sets::of(&groups, |choice, undecided| {
        let held = whole(book, undecided);
        let mut built = held.clone();
        for (group, greatest) in groups.iter().zip(choice) {
            let mut set = held.clone();
            rounds(book, &group.goals, *greatest, undecided, &mut set);
            group.goals.iter().for_each(|goal| built[*goal] = set[*goal]);
        }
        built
    })
}

fn called_least(book: &Book) -> Sets {
    beside(book, least)
}

fn called_greatest(book: &Book) -> Sets {
    beside(book, greatest)
}

fn callers_first(book: &Book) -> Sets {
    let mut groups = groups(book);
    groups.reverse();
    sets_of(book, &groups)
}

/// A set of the whole book, where it meets the condition.
fn whole(book: &Book, set: fn(&Book, bool) -> Goals) -> Sets {
    match sets(book) {
        none if none.is_empty() => none,
        _ => Sets { with_false: vec![set(book, false)], with_true: vec![set(book, true)] },
    }
}

fn whole_least(book: &Book) -> Sets {
    whole(book, least)
}

fn whole_greatest(book: &Book) -> Sets {
    whole(book, greatest)
}

fn broken_least(book: &Book) -> Sets {
    sets_of(book, &changed(book, |group| if_broken(group, COINDUCTIVE)))
}

fn broken_greatest(book: &Book) -> Sets {
    sets_of(book, &changed(book, |group| if_broken(group, INDUCTIVE)))
}

fn whole_book(book: &Book) -> Sets {
    sets_of(book, &changed(book, |group| group.inside = steps(book)))
}

fn one_choice(book: &Book) -> Sets {
    let groups = changed(book, |group| {
        if group.is_free() {
            group.inside.iter_mut().for_each(|step| step.kind = INDUCTIVE);
        }
    });
    sets_of(book, &groups)
}

fn one_reading(book: &Book) -> Sets {
    let with_false = sets(book).with_false;
    Sets { with_true: with_false.clone(), with_false }
}
