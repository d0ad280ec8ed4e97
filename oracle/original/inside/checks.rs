//! Stands inside the original's module, to count its provisional entries and to check them.

use super::*;
use crate::hooks;

impl<D: Delegate<Cx = X>, X: Cx> SearchGraph<D> {
    pub(super) fn live_provisional_entries(&self) -> usize {
        self.provisional_cache.values().map(Vec::len).sum()
    }

    /// The goals on the stack, lowest first, when frames are to be checked.
    pub(super) fn goals_if_checking(&self) -> Option<Vec<X::Input>> {
        hooks::checking_frames().then(|| self.stack.iter().map(|e| e.input).collect())
    }

    /// Document 01: after every finished frame the stack holds the goals it held before, each
    /// provisional entry has a nonempty set of heads, every one on the stack, and an empty stack
    /// has no entry.
    pub(super) fn check_finished_frame(&self, goals_before: Option<Vec<X::Input>>) {
        let Some(goals_before) = goals_before else { return };
        if !self.stack.iter().map(|e| e.input).eq(goals_before) {
            hooks::frame_is_wrong("the stack's goals changed");
        }
        for entry in self.provisional_cache.values().flatten() {
            if entry.heads.is_empty() {
                hooks::frame_is_wrong("an entry without heads");
            }
            if entry.heads.iter().any(|(index, _)| index.index() >= self.stack.len()) {
                hooks::frame_is_wrong("an entry with a head that is not on the stack");
            }
        }
        if self.stack.is_empty() && self.live_provisional_entries() != 0 {
            hooks::frame_is_wrong("an entry with an empty stack");
        }
    }
}
