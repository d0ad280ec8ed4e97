//! Wrong readings of item 8 of document 02, how many passes, numbers 300 to 319. Those of a frame's
//! last run stand in ../../original/wrong_readings/reruns.rs.

use crate::Edit;
use crate::apply::edit;

pub const READINGS: &[(u32, &str)] = &[
    (300, "passes stand last, after the flags"),
    (301, "an overflow slot says no passes"),
    (302, "an overflow slot always says one pass"),
    (303, "passes are counted from 0"),
    (304, "the goal's runs in all frames of the query are added"),
    (305, "the runs of the goals called are added"),
    (306, "every rerun starts the count anew"),
    (307, "an equal result keeps the old passes"),
    (308, "an equal result keeps the higher passes"),
    (309, "an equal result keeps the lower passes"),
    (310, "an equal result adds its passes to the old ones"),
    (311, "a hit counts as one pass more"),
    (312, "an equal result with other passes is refusal 11"),
    (313, "a held slot may say no passes"),
    (314, "a held slot may say one pass more than L"),
    (315, "with L = 0 a held slot says no passes"),
    (316, "a held slot may say up to 99 passes, whatever L is"),
    (317, "a vacant slot may say passes"),
    (318, "a slot has no byte for passes: the length is document 01's"),
    (319, "a held slot says at most L passes, with L = 0 too"),
];

pub const EDITS: &[Edit] = &[
    // book.rs
    edit(
        "book.rs",
        "wrong reading 318",
        "        FLAGS + self.goals\n",
        "        FLAGS + self.goals - usize::from(original::mutant(318))\n",
    ),
    // delegate.rs
    edit(
        "delegate.rs",
        "wrong readings 307 to 311: passes change where they stand",
        "    pub passes: usize,\n",
        "    pub passes: Cell<usize>,\n",
    ),
    edit(
        "delegate.rs",
        "wrong readings 304, 306 to 310, 312",
        "        Counted { value, passes }
    }
",
        "        Counted { value, passes: Cell::new(passes.min(255)) }
    }
    fn counted_wrongly(self, goal: usize, passes: usize) -> usize {
        match () {
            _ if mutant(304) => RUNS_OF.get()[goal],
            _ if mutant(306) => 1,
            _ => passes,
        }
    }
    fn replaced_wrongly<T: Debug + Clone>(self, old: &Counted<T>, new: &Counted<T>) {
        let (before, now) = (old.passes.get(), new.passes.get());
        if mutant(312) && before != now {
            hooks::stop(Stop::Refused(11));
        }
        new.passes.set(match () {
            _ if mutant(307) => before,
            _ if mutant(308) => before.max(now),
            _ if mutant(309) => before.min(now),
            _ if mutant(310) => (before + now).min(255),
            _ => now,
        });
    }
",
    ),
    edit(
        "delegate.rs",
        "wrong reading 311",
        "        tracked.value.clone()\n",
        "        if mutant(311) {
            tracked.passes.set(tracked.passes.get() + 1);
        }
        tracked.value.clone()
",
    ),
    edit(
        "delegate.rs",
        "wrong reading 305",
        "        hooks::counting_runs(frame)\n",
        "        let fuel = FUEL.get();
        let (result, passes) = hooks::counting_runs(frame);
        (result, if mutant(305) { (fuel - FUEL.get()) as usize } else { passes })
",
    ),
    edit(
        "delegate.rs",
        "wrong reading 304: the runs of each goal",
        "    static FUEL: Cell<u64> = const { Cell::new(0) };\n",
        "    static FUEL: Cell<u64> = const { Cell::new(0) };
    static RUNS_OF: Cell<[usize; 64]> = const { Cell::new([0; 64]) };
",
    ),
    edit(
        "delegate.rs",
        "wrong reading 304: no run yet",
        "    SEEN.set(Seen::default());\n",
        "    SEEN.set(Seen::default());\n    RUNS_OF.set([0; 64]);\n",
    ),
    edit(
        "delegate.rs",
        "wrong reading 304: one more run",
        "        let book = BOOK.with_borrow(|book| book.clone()).expect(\"a book at hand\");\n",
        "        let mut runs = RUNS_OF.get();
        runs[goal] += 1;
        RUNS_OF.set(runs);
        let book = BOOK.with_borrow(|book| book.clone()).expect(\"a book at hand\");
",
    ),
    // cache.rs
    edit(
        "cache.rs",
        "wrong reading 300: where passes stand",
        "/// `number` 0 is the success slot, else the overflow slot of required depth `number - 1`.
fn slot_ok(header: &Header, number: usize, slot: &[u8]) -> bool {
",
        "/// A slot whose passes stand last, in the right order.
fn in_order(slot: &[u8]) -> Vec<u8> {
    let mut slot = slot.to_vec();
    if mutant(300) {
        slot[PASSES..].rotate_right(1);
    }
    slot
}

/// `number` 0 is the success slot, else the overflow slot of required depth `number - 1`.
fn slot_ok(header: &Header, number: usize, slot: &[u8]) -> bool {
    let slot = in_order(slot);
",
    ),
    edit(
        "cache.rs",
        "wrong reading 317",
        "        0 => slot.iter().all(|&b| b == 0) || mutant(164),\n",
        "        0 => {
            let may_be = |(i, b): (usize, &u8)| *b == 0 || i == PASSES && mutant(317);
            slot.iter().enumerate().all(may_be) || mutant(164)
        }
",
    ),
    edit(
        "cache.rs",
        "wrong readings 301, 303, 313 to 316, 319: form",
        "            let passes_ok = (1..=header.most_passes()).contains(&passes);\n",
        "            let most = header.most_passes();
            let passes_ok = match () {
                _ if mutant(301) && number > 0 => passes == 0,
                _ if mutant(303) => passes < most,
                _ if mutant(313) => passes <= most,
                _ if mutant(314) => (1..=most + 1).contains(&passes),
                _ if mutant(315) && header.step_limit == 0 => passes == 0,
                _ if mutant(316) => (1..=99).contains(&passes),
                _ if mutant(319) => (1..=header.step_limit).contains(&passes),
                _ => (1..=most).contains(&passes),
            };
",
    ),
    edit(
        "cache.rs",
        "wrong reading 300: loading",
        "        if slot[HELD] == 1 {\n",
        "        let slot = in_order(slot);\n        if slot[HELD] == 1 {\n",
    ),
    edit(
        "cache.rs",
        "wrong reading 303: loading",
        "passes: slot[PASSES].into() },\n",
        "passes: (usize::from(slot[PASSES]) + usize::from(mutant(303))).into() },\n",
    ),
    edit(
        "cache.rs",
        "wrong readings 301 to 303, 315: storing",
        "        slot[PASSES] = u8::try_from(held.result.passes).expect(\"passes fit in a byte\");\n",
        "        let passes = u8::try_from(held.result.passes.get()).expect(\"passes fit in a byte\");
        slot[PASSES] = match () {
            _ if mutant(301) && held.overflow => 0,
            _ if mutant(302) && held.overflow => 1,
            _ if mutant(303) => passes - 1,
            _ if mutant(315) && header.step_limit == 0 => 0,
            _ => passes,
        };
",
    ),
    edit(
        "cache.rs",
        "wrong reading 300: storing",
        "            slot[FLAGS + goal] = flags;
        }
",
        "            slot[FLAGS + goal] = flags;
        }
        if mutant(300) {
            slot[PASSES..].rotate_left(1);
        }
",
    ),
];
