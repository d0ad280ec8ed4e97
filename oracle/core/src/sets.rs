//! The two sets of demand 3, from the book's lines alone.

use crate::book::{Book, Part};

/// A set of goals: `set[g]` says whether goal g is in it.
pub type Goals = Vec<bool>;

/// Whether a part holds, given a set and one reading for every undecided line.
fn holds(part: &Part, set: &Goals, undecided: bool) -> bool {
    match part {
        Part::Call { goal, .. } => set[*goal],
        Part::All(parts) => parts.iter().all(|p| holds(p, set, undecided)),
        Part::Any(parts) | Part::Pick(parts) => parts.iter().any(|p| holds(p, set, undecided)),
        Part::Undecided => undecided,
    }
}

/// As many rounds of `goals` as there are of them, from all of them (`start`) or none; every
/// other goal is held as it stands in the set.
pub fn rounds(book: &Book, goals: &[usize], start: bool, undecided: bool, set: &mut Goals) {
    goals.iter().for_each(|goal| set[*goal] = start);
    for _ in goals {
        let part_holds = |goal: &usize| holds(&book.parts[*goal], set, undecided);
        let round: Vec<bool> = goals.iter().map(part_holds).collect();
        goals.iter().zip(round).for_each(|(goal, holds)| set[*goal] = holds);
    }
}

fn of_all_goals(book: &Book, start: bool, undecided: bool) -> Goals {
    let goals: Vec<usize> = (0..book.parts.len()).collect();
    let mut set = vec![start; goals.len()];
    rounds(book, &goals, start, undecided, &mut set);
    set
}

/// What G rounds make of no goals.
pub fn least(book: &Book, undecided: bool) -> Goals {
    of_all_goals(book, false, undecided)
}

/// What G rounds make of all goals.
pub fn greatest(book: &Book, undecided: bool) -> Goals {
    of_all_goals(book, true, undecided)
}
