//! `evaluate_goal`: the order of lookups, and what is kept in which cache.

use super::edit;
use crate::Edit;

pub const READINGS: &[(u32, &str)] = &[
    (71, "a finished goal hands up its own depth, the required depth not subtracted"),
    (80, "the global cache is looked up before the provisional one"),
    (81, "a cycle is looked for before both caches"),
    (82, "a cycle is looked for before the global cache"),
    (84, "a goal whose heads are all unused goes to the global cache"),
    (85, "every finished goal goes to the global cache"),
    (86, "the global cache is never written"),
    (87, "an entry's path starts at its lowest head"),
    (88, "an entry's path leaves out the goal's own step"),
    (89, "a new entry replaces the goal's older ones"),
    (90, "the last matching entry wins"),
    (91, "no entry is kept of a goal that met overflow"),
    (92, "no entry is kept of an ambiguous result"),
    (93, "the provisional cache is always on"),
    (94, "the provisional cache is always off"),
    (95, "switched off, the provisional cache is still filled"),
    (298, "dropped entries count on for refusal 10"),
];

pub const EDITS: &[Edit] = &[
    edit(
        "mod.rs",
        "wrong readings 80, 81, 298",
        "        // We check the provisional cache before checking the global cache. This simplifies\n",
        "        if let Some(result) =
            self.looked_up_wrongly(cx, input, step_kind_from_parent, available_depth)
        {
            return result;
        }
        // We check the provisional cache before checking the global cache. This simplifies
",
    ),
    edit(
        "mod.rs",
        "wrong reading 82",
        "        // Lookup the global cache unless we're building proof trees or are currently\n",
        "        if crate::mutant(82)
            && let Some(result) =
                self.check_cycle_on_stack(cx, input, step_kind_from_parent, available_depth)
        {
            return result;
        }
        // Lookup the global cache unless we're building proof trees or are currently
",
    ),
    edit(
        "mod.rs",
        "wrong readings 51, 71",
        "            available_depth - evaluation_result.required_depth,\n",
        "            match () {
                _ if crate::mutant(51) => AvailableDepth(usize::MAX),
                _ if crate::mutant(71) => available_depth,
                _ => available_depth - evaluation_result.required_depth,
            },
",
    ),
    edit(
        "mod.rs",
        "wrong readings 84, 85",
        "        if evaluation_result.heads.is_empty() {\n",
        "        if evaluation_result.heads.is_empty()
            || crate::mutant(84) && evaluation_result.heads.iter().all(|(_, h)| h.usages.is_empty())
            || crate::mutant(85)
        {
",
    ),
    edit(
        "mod.rs",
        "wrong reading 86",
        "                self.insert_global_cache(cx, input, evaluation_result, dep_node)\n",
        "                if !crate::mutant(86) {
                    self.insert_global_cache(cx, input, evaluation_result, dep_node)
                }
",
    ),
    edit(
        "mod.rs",
        "wrong readings 93 to 95",
        "} else if D::enable_provisional_cache() {",
        "} else if (D::enable_provisional_cache() || crate::mutant(93) || crate::mutant(95))
            && !crate::mutant(94)
        {",
    ),
    edit(
        "mod.rs",
        "wrong readings 87, 88",
        "                step_kind_from_parent,
                heads.highest_cycle_head_index(),
",
        "                if crate::mutant(88) { PathKind::Inductive } else { step_kind_from_parent },
                if crate::mutant(87) {
                    heads.opt_lowest_cycle_head_index().unwrap()
                } else {
                    heads.highest_cycle_head_index()
                },
",
    ),
    edit(
        "mod.rs",
        "wrong readings 89 to 92",
        "            entry.push(provisional_cache_entry);\n",
        "            if crate::mutant(91) && encountered_overflow
                || crate::mutant(92) && D::is_ambiguous_result(result).is_some()
            {
                return result;
            }
            if crate::mutant(89) {
                entry.clear();
            }
            let place = if crate::mutant(90) { 0 } else { entry.len() };
            entry.insert(place, provisional_cache_entry);
",
    ),
    edit(
        "mod.rs",
        "wrong reading 298",
        "            crate::hooks::entry_kept(self.live_provisional_entries());\n",
        "            let counted = self.counted_wrongly();
            crate::hooks::entry_kept(counted.unwrap_or(self.live_provisional_entries()));
",
    ),
];
