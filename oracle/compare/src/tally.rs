//! What a run has seen of a class.

use crate::passes::KINDS;
use crate::tidy;

#[derive(Clone, Default)]
pub struct Tally {
    pub compared: u64,
    pub differences: u64,
    /// By the answer, of the queries compared and accepted.
    pub answers: [u64; 4],
    /// By the refusal's number, of the queries compared.
    pub refusals: [u64; 12],
    /// The most provisional entries that were live at once in a query.
    pub entries: usize,
    /// Accepted queries by what the slots that they wrote say of passes, in the order of `KINDS`.
    pub passes: [u64; KINDS.len()],
    pub too_long: u64,
    /// Of the original, as are frames out of order.
    pub panics: u64,
    pub frames: u64,
    /// Of the books: given, broken, refused.
    pub guarantees: [u64; 3],
    pub wrong_guarantees: u64,
    /// Of tidying, in the order of `tidy::KINDS`.
    pub tidied: [u64; tidy::KINDS.len()],
    pub wrong_tidied: u64,
    pub wrong_on_tidied: u64,
}

impl Tally {
    pub fn add(&mut self, other: &Tally) {
        self.compared += other.compared;
        self.differences += other.differences;
        self.entries = self.entries.max(other.entries);
        self.too_long += other.too_long;
        self.panics += other.panics;
        self.frames += other.frames;
        (0..4).for_each(|i| self.answers[i] += other.answers[i]);
        (0..KINDS.len()).for_each(|i| self.passes[i] += other.passes[i]);
        self.wrong_guarantees += other.wrong_guarantees;
        (0..3).for_each(|i| self.guarantees[i] += other.guarantees[i]);
        (0..12).for_each(|i| self.refusals[i] += other.refusals[i]);
        self.wrong_tidied += other.wrong_tidied;
        self.wrong_on_tidied += other.wrong_on_tidied;
        (0..tidy::KINDS.len()).for_each(|i| self.tidied[i] += other.tidied[i]);
    }

    pub fn accept(&mut self, answer: u8, passes: Option<[bool; KINDS.len()]>) {
        self.answers[usize::from(answer)] += 1;
        let shown = passes.into_iter().flatten().enumerate();
        shown.for_each(|(kind, shown)| self.passes[kind] += u64::from(shown));
    }

    pub fn asked(&self) -> u64 {
        self.compared + self.too_long + self.panics + self.frames
    }
}
