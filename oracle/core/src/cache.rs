//! The global cache in byte form (document 01's notebook, with item 8 of document 02): form,
//! loading, storing.

use original::Held;
use original::search_graph::GlobalCache;

use crate::book::Header;
use crate::delegate::{Counted, Lent};
use crate::slot::{DEPTH, FLAGS, HELD, PASSES, RESULT};

/// Whether every slot is well-formed; the length is right.
pub fn well_formed(header: &Header, bytes: &[u8]) -> bool {
    let slots = bytes.chunks(header.slot_len()).enumerate();
    slots.into_iter().all(|(i, slot)| slot_ok(header, i % header.slots_per_goal(), slot))
}

/// `number` 0 is the success slot, else the overflow slot of required depth `number - 1`.
fn slot_ok(header: &Header, number: usize, slot: &[u8]) -> bool {
    let (depth, passes) = (usize::from(slot[DEPTH]), usize::from(slot[PASSES]));
    match slot[HELD] {
        0 => slot.iter().all(|&b| b == 0),
        1 => {
            let depth_ok =
                if number == 0 { depth <= header.top_depth } else { depth == number - 1 };
            let passes_ok = (1..=header.most_passes()).contains(&passes);
            let flags_ok = slot[FLAGS..].iter().all(|&f| f <= 31);
            slot[RESULT] <= 3 && depth_ok && passes_ok && flags_ok
        }
        _ => false,
    }
}

/// The original's cache with the entries of a well-formed one.
pub(crate) fn load(header: &Header, bytes: &[u8]) -> GlobalCache<Lent> {
    let mut cache = GlobalCache::new();
    for (i, slot) in bytes.chunks(header.slot_len()).enumerate() {
        if slot[HELD] == 1 {
            let flags = slot[FLAGS..].iter().enumerate();
            cache.load(Held {
                input: i / header.slots_per_goal(),
                overflow: i % header.slots_per_goal() != 0,
                required_depth: slot[DEPTH].into(),
                result: Counted { value: slot[RESULT], passes: slot[PASSES].into() },
                nested: flags.filter(|(_, f)| **f != 0).map(|(goal, &f)| (goal, f)).collect(),
            });
        }
    }
    cache
}

/// Writes all entries of the original's cache; what is vacant becomes zeros.
pub(crate) fn store(header: &Header, cache: &GlobalCache<Lent>, bytes: &mut [u8]) {
    bytes.fill(0);
    cache.for_each_held(|held| {
        let number = if held.overflow { held.required_depth + 1 } else { 0 };
        let start = (held.input * header.slots_per_goal() + number) * header.slot_len();
        let slot = &mut bytes[start..start + header.slot_len()];
        slot[HELD] = 1;
        slot[RESULT] = held.result.value;
        slot[DEPTH] = u8::try_from(held.required_depth).expect("required depth fits in a byte");
        slot[PASSES] = u8::try_from(held.result.passes).expect("passes fit in a byte");
        for (goal, flags) in held.nested {
            slot[FLAGS + goal] = flags;
        }
    });
}

#[cfg(test)]
mod tests {
    use super::*;
    use crate::book::Book;
    use crate::generate::class_named;

    /// What is loaded is stored again, and caches made by hand are well-formed.
    #[test]
    fn stored_as_loaded() {
        for class in ["made-cache", "changed-cache"].map(|name| class_named(name).unwrap()) {
            for case in (0..300).map(|number| class.case(3, number)) {
                let header = Book::read(&case.book).unwrap().header;
                assert!(well_formed(&header, &case.cache), "{}", case.name);
                let mut stored = vec![7; case.cache.len()];
                store(&header, &load(&header, &case.cache), &mut stored);
                assert!(stored == case.cache, "{}", case.name);
            }
        }
    }
}
