//! What a run has seen, and what it lacks.

use crate::delegate::{NO, YES};
use crate::judge;

#[derive(Clone, Debug, Default)]
pub struct Counts {
    pub lists: u64,
    /// Lists from zeros on a book that meets item 12's condition, which demand 3 speaks of.
    pub measured: Seen,
    /// Those of them on books with both inductive and coinductive steps.
    pub mixed: Seen,
    /// Lists from zeros on a book that breaks the condition: not measured.
    pub broken: u64,
    pub queries: u64,
    pub accepted: u64,
    /// By the refusal's number.
    pub refused: [u64; 12],
    /// By the answer.
    pub answers: [u64; 4],
    pub too_long: u64,
    pub panics: u64,
    pub goal_runs: u64,
    /// The most provisional entries live at once.
    pub high_water: usize,
    /// The most goals runs of an accepted query.
    pub longest: u64,
}

/// What was seen of some lists that are measured.
#[derive(Clone, Debug, Default)]
pub struct Seen {
    pub lists: u64,
    pub queries: u64,
    /// By the answer.
    pub answers: [u64; 4],
    /// Yes outside the whole book's least set, and No in its greatest.
    pub beyond_least: u64,
    pub below_greatest: u64,
    /// Lists with a group that must be least and one that must be greatest.
    pub both_kinds: u64,
    /// Lists with a step out of a group that would break the condition inside of it.
    pub bridged: u64,
    /// Lists in which two choices give different sets.
    pub choices_differ: u64,
    /// Lists in which the two readings of undecided lines do.
    pub undecided_differ: u64,
    pub cache_off: u64,
    /// Lists with too many choices to try all.
    pub sampled: u64,
}

impl Seen {
    pub fn add(&mut self, other: &Seen) {
        self.lists += other.lists;
        self.queries += other.queries;
        (0..4).for_each(|i| self.answers[i] += other.answers[i]);
        self.beyond_least += other.beyond_least;
        self.below_greatest += other.below_greatest;
        self.both_kinds += other.both_kinds;
        self.bridged += other.bridged;
        self.choices_differ += other.choices_differ;
        self.undecided_differ += other.undecided_differ;
        self.cache_off += other.cache_off;
        self.sampled += other.sampled;
    }
}

impl Counts {
    /// What a run of at least so many lists lacks, in words: it finds nothing wrong where it saw
    /// too little.
    pub fn lacking(&self, least: u64) -> Vec<String> {
        let mut found = Vec::new();
        if self.lists < least {
            found.push(format!("{} lists, fewer than {least}", self.lists));
        }
        let answered = |seen: &Seen, answer: u8| seen.answers[usize::from(answer)];
        let (measured, mixed) = (&self.measured, &self.mixed);
        let needed = [
            (answered(measured, NO), "no No that demand 3 speaks of"),
            (answered(measured, YES), "no Yes that demand 3 speaks of"),
            (answered(mixed, NO), "no No on a mixed book"),
            (answered(mixed, YES), "no Yes on a mixed book"),
            (mixed.below_greatest, "no No in the greatest set of a mixed book"),
            (mixed.beyond_least, "no Yes outside the least set of a mixed book"),
            (mixed.both_kinds, "no mixed book with groups of both kinds"),
            (mixed.bridged, "no mixed book with a step of the other kind out of a group"),
            (mixed.choices_differ, "no mixed book in which two choices differ"),
            (mixed.undecided_differ, "no mixed book in which undecided lines matter"),
        ];
        let missing = needed.into_iter().filter(|(count, _)| *count == 0);
        found.extend(missing.map(|(_, what)| what.to_string()));
        let (broken, met) = (self.broken, mixed.lists);
        if broken > met {
            found.push(format!(
                "{broken} books break item 12's condition, {met} mixed ones meet it"
            ));
        }
        found.extend(judge::too_long(self.too_long, self.queries));
        found
    }
}

#[cfg(test)]
mod tests {
    use super::{Counts, Seen};

    fn enough() -> Counts {
        let mixed = Seen {
            lists: 1,
            answers: [1, 1, 0, 0],
            beyond_least: 1,
            below_greatest: 1,
            both_kinds: 1,
            bridged: 1,
            choices_differ: 1,
            undecided_differ: 1,
            ..Seen::default()
        };
        let measured = mixed.clone();
        Counts {
            lists: 2,
            queries: 200,
            too_long: 2,
            measured,
            mixed,
            broken: 1,
            ..Counts::default()
        }
    }

    #[test]
    fn a_run_must_have_seen_each_of_these() {
        assert!(enough().lacking(2).is_empty());
        let without = |change: &dyn Fn(&mut Counts)| {
            let mut counts = enough();
            change(&mut counts);
            counts.lacking(2).join("; ")
        };
        let no_answer = |answer| without(&|counts| counts.measured.answers[answer] = 0);
        assert_eq!(no_answer(0), "no No that demand 3 speaks of");
        assert_eq!(no_answer(1), "no Yes that demand 3 speaks of");
        let no_mixed = |answer| without(&|counts| counts.mixed.answers[answer] = 0);
        assert_eq!(no_mixed(0), "no No on a mixed book");
        assert_eq!(no_mixed(1), "no Yes on a mixed book");
        let beyond = without(&|counts| counts.mixed.beyond_least = 0);
        assert_eq!(beyond, "no Yes outside the least set of a mixed book");
        let below = without(&|counts| counts.mixed.below_greatest = 0);
        assert_eq!(below, "no No in the greatest set of a mixed book");
        let kinds = without(&|counts| counts.mixed.both_kinds = 0);
        assert_eq!(kinds, "no mixed book with groups of both kinds");
        let bridged = without(&|counts| counts.mixed.bridged = 0);
        assert_eq!(bridged, "no mixed book with a step of the other kind out of a group");
        let choices = without(&|counts| counts.mixed.choices_differ = 0);
        assert_eq!(choices, "no mixed book in which two choices differ");
        let undecided = without(&|counts| counts.mixed.undecided_differ = 0);
        assert_eq!(undecided, "no mixed book in which undecided lines matter");
        let broken = without(&|counts| counts.broken = counts.mixed.lists + 1);
        assert_eq!(broken, "2 books break item 12's condition, 1 mixed ones meet it");
    }

    #[test]
    fn a_run_must_have_asked() {
        assert_eq!(enough().lacking(3), ["2 lists, fewer than 3"]);
        assert_eq!(Counts { too_long: 3, ..enough() }.lacking(2).len(), 1);
        assert_eq!(Counts::default().lacking(1).len(), 11);
    }
}
