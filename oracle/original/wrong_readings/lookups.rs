//! The provisional cache, the global cache and the cycle on the stack, as looked up.

use super::edit;
use crate::Edit;

pub const READINGS: &[(u32, &str)] = &[
    (70, "a provisional hit inserts its goal into the nested goals"),
    (72, "a global hit hands up its own depth, the required depth not subtracted"),
    (232, "a provisional hit does not compare the path"),
    (233, "an entry that met overflow is always used"),
    (234, "an entry that met overflow is never used"),
    (235, "an entry that met overflow is not used where the lowest head is its highest"),
    (236, "an entry that met overflow is measured by the frame's highest head"),
    (237, "a provisional hit does not hand on the overflow mark"),
    (238, "a provisional hit does not hand on the heads"),
    (239, "a provisional hit hands on the heads without usages"),
    (240, "a global entry applies with its nested goals on the stack"),
    (241, "no provisional entry blocks a global one"),
    (242, "any provisional entry of a nested goal blocks a global one"),
    (243, "provisional entries that met overflow block a global one too"),
    (244, "a global entry's paths are not extended by the path on the stack"),
    (245, "a global entry is blocked only if all its paths match"),
    (246, "a global entry's paths leave out the step to it"),
    (247, "a global hit does not hand on the overflow mark"),
    (248, "a global hit does not hand on the nested goals"),
    (249, "a global entry with nested goals applies only at the root"),
    (250, "in a rerun a cycle gives the initial result again"),
    (251, "a cycle counts as a usage of the closing step's kind"),
    (252, "a cycle's path to the head is the whole cycle's kind"),
];

pub const EDITS: &[Edit] = &[
    edit(
        "mod.rs",
        "wrong readings 93 to 95",
        "if !D::enable_provisional_cache() {",
        "if !D::enable_provisional_cache() && !crate::mutant(93) {",
    ),
    edit(
        "mod.rs",
        "wrong readings 233 to 236",
        "                if last.heads.opt_lowest_cycle_head_index().is_none_or(|lowest| lowest > head_index)
                {
",
        "                let lowest = if crate::mutant(236) {
                    last.heads.opt_highest_cycle_head_index()
                } else {
                    last.heads.opt_lowest_cycle_head_index()
                };
                if !crate::mutant(233)
                    && (crate::mutant(234)
                        || lowest.is_none_or(|lowest| {
                            lowest > head_index || crate::mutant(235) && lowest == head_index
                        }))
                {
",
    ),
    edit(
        "mod.rs",
        "wrong reading 232",
        "            if path_from_head
                == Self::cycle_path_kind(&self.stack, step_kind_from_parent, head_index)
            {
",
        "            if crate::mutant(232)
                || path_from_head
                    == Self::cycle_path_kind(&self.stack, step_kind_from_parent, head_index)
            {
",
    ),
    edit(
        "mod.rs",
        "wrong readings 237 to 239",
        "                    heads.iter(),
                    encountered_overflow,
                    UpdateParentGoalCtxt::ProvisionalCacheHit,
",
        "                    heads.handed_wrongly(),
                    encountered_overflow && !crate::mutant(237),
                    UpdateParentGoalCtxt::ProvisionalCacheHit,
",
    ),
    edit(
        "mod.rs",
        "wrong reading 70",
        "                debug!(?head_index, ?path_from_head, \"provisional cache hit\");\n",
        "                if crate::mutant(70)
                    && let Some(last) = self.stack.last_mut()
                {
                    last.nested_goals.insert(input, step_kind_from_parent.into());
                }
",
    ),
    edit(
        "mod.rs",
        "wrong reading 249",
        "        // If a nested goal of the global cache entry is on the stack, we would\n",
        "        if crate::mutant(249) && !self.stack.is_empty() {
            return false;
        }
        // If a nested goal of the global cache entry is on the stack, we would
",
    ),
    edit(
        "mod.rs",
        "wrong reading 240",
        "if self.stack.iter().any(|e| nested_goals.contains(e.input)) {",
        "if !crate::mutant(240) && self.stack.iter().any(|e| nested_goals.contains(e.input)) {",
    ),
    edit(
        "mod.rs",
        "wrong readings 241 to 243",
        "                if encountered_overflow {
                    continue;
                }
",
        "                if encountered_overflow && !crate::mutant(243) || crate::mutant(241) {
                    continue;
                }
                if crate::mutant(242) {
                    return false;
                }
",
    ),
    edit(
        "mod.rs",
        "wrong reading 246",
        "                let head_to_curr =
                    Self::cycle_path_kind(&self.stack, step_kind_from_parent, head_index);
",
        "                let step = if crate::mutant(246) {
                    PathKind::Inductive
                } else {
                    step_kind_from_parent
                };
                let head_to_curr = Self::cycle_path_kind(&self.stack, step, head_index);
",
    ),
    edit(
        "mod.rs",
        "wrong reading 244",
        "let full_paths = path_from_global_entry.extend_with(head_to_curr);",
        "let full_paths = if crate::mutant(244) {
                    path_from_global_entry
                } else {
                    path_from_global_entry.extend_with(head_to_curr)
                };",
    ),
    edit(
        "mod.rs",
        "wrong reading 245",
        "if full_paths.contains(head_to_provisional.into()) {",
        "if full_paths.contains(head_to_provisional.into())
                    && (!crate::mutant(245) || full_paths == head_to_provisional.into())
                {",
    ),
    edit(
        "mod.rs",
        "wrong reading 248",
        "            let heads = iter::empty();\n",
        "            let heads = iter::empty();\n            let none = NestedGoals::default();\n",
    ),
    edit(
        "mod.rs",
        "wrong readings 52, 72, 247, 248",
        "                encountered_overflow,
                UpdateParentGoalCtxt::Ordinary { nested_goals },
                available_depth - required_depth,
",
        "                encountered_overflow && !crate::mutant(247),
                UpdateParentGoalCtxt::Ordinary {
                    nested_goals: if crate::mutant(248) { &none } else { nested_goals },
                },
                match () {
                    _ if crate::mutant(52) => AvailableDepth(usize::MAX),
                    _ if crate::mutant(72) => available_depth,
                    _ => available_depth - required_depth,
                },
",
    ),
    edit(
        "mod.rs",
        "wrong reading 251",
        "        usages.add_usage(path_kind);\n",
        "        usages.add_usage(if crate::mutant(251) { step_kind_from_parent } else { path_kind });\n",
    ),
    edit(
        "mod.rs",
        "wrong reading 252",
        "        let head = CycleHead { paths_to_head: step_kind_from_parent.into(), usages };\n",
        "        let paths_to_head =
            if crate::mutant(252) { path_kind.into() } else { step_kind_from_parent.into() };
        let head = CycleHead { paths_to_head, usages };
",
    ),
    edit(
        "mod.rs",
        "wrong reading 250",
        "        if let Some(result) = self.stack[head_index].provisional_result {\n",
        "        if let Some(result) = self.stack[head_index].provisional_result
            && !crate::mutant(250)
        {
",
    ),
];
