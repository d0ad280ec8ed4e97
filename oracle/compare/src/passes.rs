//! What the slots that a query writes say of passes (document 02, item 8).

use oracle_core::book::Header;
use oracle_core::slot::{HELD, PASSES, RESULT};

/// A slot says more than one pass, more than two, overflow and as many as L (2 at least); an entry
/// that was replaced says more than before, or fewer.
pub const KINDS: [&str; 5] = ["above 1", "above 2", "at the step limit", "raised", "lowered"];

const OVERFLOW: u8 = 3;

/// Which of these an accepted query shows.
pub fn shown(header: &Header, before: &[u8], after: &[u8]) -> [bool; 5] {
    let slots = |cache| <[u8]>::chunks(cache, header.slot_len());
    let written = slots(before).zip(slots(after)).filter(|(before, after)| before != after);
    written.fold([false; 5], |mut shown, (before, after)| {
        let (was, is) = (before[PASSES], after[PASSES]);
        let all_runs = is > 1 && usize::from(is) == header.most_passes();
        let at_limit = all_runs && after[RESULT] == OVERFLOW;
        let replaced = before[HELD] == 1;
        let here = [is > 1, is > 2, at_limit, replaced && is > was, replaced && is < was];
        shown.iter_mut().zip(here).for_each(|(shown, here)| *shown |= here);
        shown
    })
}

#[cfg(test)]
mod tests {
    use super::*;

    const HEADER: Header =
        Header { provisional_cache: true, goals: 1, top_depth: 0, step_limit: 3, divisor: 1 };

    /// Of a query that writes the second of two slots.
    fn seen(was: u8, is: u8, result: u8) -> [bool; 5] {
        let cache =
            |passes| [[1, 1, 0, 2, 0], [u8::from(passes > 0), result, 0, passes, 0]].concat();
        shown(&HEADER, &cache(was), &cache(is))
    }

    #[test]
    fn what_written_slots_say() {
        assert_eq!(seen(2, 2, 0), [false; 5]);
        assert_eq!(seen(0, 1, 3), [false; 5]);
        assert_eq!(seen(0, 2, 3), [true, false, false, false, false]);
        assert_eq!(seen(0, 3, 0), [true, true, false, false, false]);
        assert_eq!(seen(0, 3, 3), [true, true, true, false, false]);
        assert_eq!(seen(1, 2, 0), [true, false, false, true, false]);
        assert_eq!(seen(3, 1, 0), [false, false, false, false, true]);
        assert_eq!(shown(&Header { step_limit: 0, ..HEADER }, &[0; 10], &[1; 10]), [false; 5]);
    }
}
