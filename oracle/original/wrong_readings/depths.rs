//! The allowed depth, and the depth that an entry of the global cache requires.

use super::edit;
use crate::Edit;

pub const READINGS: &[(u32, &str)] = &[
    (30, "lower 0 lowers the depth too"),
    (31, "lower 1 keeps the depth"),
    (32, "lower 0 at depth 0 overflows"),
    (33, "lower 1 at depth 1 overflows"),
    (34, "after an overflow the depth is not divided"),
    (35, "the depth is divided without an overflow"),
    (36, "the division rounds up"),
    (37, "after an overflow the depth is divided and lowered"),
    (38, "after an overflow lower 0 divides too"),
    (39, "after an overflow the depth is lowered at least by 1"),
    (40, "root depth 0 overflows"),
    (41, "the root's depth is lowered"),
    (42, "a cycle is looked for before the overflow at depth 0"),
    (43, "the caches are looked up before the overflow at depth 0"),
    (44, "a success slot applies only above its required depth"),
    (45, "a success slot applies only at its required depth"),
    (46, "a success slot applies at any depth"),
];

pub const EDITS: &[Edit] = &[
    edit(
        "mod.rs",
        "wrong readings 30 to 41",
        "        if let Some(last) = stack.last() {
            match lower_available_depth {
",
        "        if let Some(wrong) =
            AvailableDepth::allowed_wrongly::<D>(root_depth, stack, lower_available_depth)
        {
            return wrong;
        }
        if let Some(last) = stack.last() {
            match lower_available_depth {
",
    ),
    edit(
        "mod.rs",
        "wrong readings 42, 43",
        "            return self.handle_overflow(cx, input);\n",
        "            if let Some(result) = self.overflowed_wrongly(cx, input, step_kind_from_parent) {
                return result;
            }
            return self.handle_overflow(cx, input);
",
    ),
    edit(
        "mod.rs",
        "wrong readings 44 to 46",
        "        self.0 >= required_depth.0\n",
        "        match () {
            _ if crate::mutant(44) => self.0 > required_depth.0,
            _ if crate::mutant(45) => self.0 == required_depth.0,
            _ if crate::mutant(46) => true,
            _ => self.0 >= required_depth.0,
        }
",
    ),
];
