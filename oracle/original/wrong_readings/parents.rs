//! What a finished goal or a hit does to its parent; candidates; cycle paths; overflow.

use super::edit;
use crate::Edit;

pub const READINGS: &[(u32, &str)] = &[
    (4, "a cycle path takes in the head's own step"),
    (50, "the overflow mark is not handed to the parent"),
    (51, "a finished goal does not lower its parent's reached depth"),
    (52, "a global hit does not lower its parent's reached depth"),
    (53, "a provisional hit does not lower its parent's reached depth"),
    (54, "a cycle does not lower its parent's reached depth"),
    (55, "candidate usages gain whole counters"),
    (56, "candidate usages leave out the heads below the frame"),
    (57, "candidate usages leave out the frame's own usages"),
    (58, "paths to heads are not extended by the step"),
    (59, "the frame's own usages gain whole counters"),
    (60, "a frame named as a head without usages is no head"),
    (62, "a child's nested goals are not taken over"),
    (63, "a cycle does not insert the head into the nested goals"),
    (64, "a cycle inserts the head with the flag empty"),
    (65, "a goal is never among its own nested goals"),
    (66, "a goal is among its own nested goals with the flag inductive"),
    (67, "a goal is always among its own nested goals"),
    (68, "a provisional hit does not insert the parent's own goal"),
    (69, "a child's nested goals do not insert the parent's own goal"),
    (73, "a cycle path leaves out the closing step"),
    (74, "a cycle path is the closing step alone"),
    (75, "ignoring leaves the usages of lower heads"),
    (76, "ignoring leaves the frame's own usages"),
    (96, "an overflow does not mark the frame"),
    (97, "an overflow does not insert the frame's goal"),
    (98, "an overflow inserts the goal that overflowed"),
];

pub const EDITS: &[Edit] = &[
    edit(
        "stack.rs",
        "wrong reading 4",
        "self.entries.raw[head.index() + 1..]",
        "self.entries.raw[if crate::mutant(4) { head.index() } else { head.index() + 1 }..]",
    ),
    edit(
        "mod.rs",
        "wrong reading 50",
        "            parent.encountered_overflow |= encountered_overflow;\n",
        "            parent.encountered_overflow |= encountered_overflow && !crate::mutant(50);\n",
    ),
    edit(
        "mod.rs",
        "wrong readings 53, 54",
        "            parent.min_reached_available_depth =
                parent.min_reached_available_depth.min(min_reachable_available_depth);
",
        "            let min_reachable_available_depth = match context {
                UpdateParentGoalCtxt::ProvisionalCacheHit if crate::mutant(53) => {
                    parent.min_reached_available_depth
                }
                UpdateParentGoalCtxt::CycleOnStack { .. } if crate::mutant(54) => {
                    parent.min_reached_available_depth
                }
                _ => min_reachable_available_depth,
            };
            parent.min_reached_available_depth =
                parent.min_reached_available_depth.min(min_reachable_available_depth);
",
    ),
    edit(
        "mod.rs",
        "wrong readings 55 to 57",
        "                if let Some(candidate_usages) = &mut parent.candidate_usages {\n",
        "                if crate::mutant(55)
                    && let Some(candidate_usages) = &mut parent.candidate_usages
                {
                    candidate_usages.add_whole(head_index, head.usages);
                } else if let Some(candidate_usages) = &mut parent.candidate_usages
                    && !(crate::mutant(56) && head_index != parent_index)
                    && !(crate::mutant(57) && head_index == parent_index)
                {
",
    ),
    edit(
        "mod.rs",
        "wrong reading 58",
        "                        head.paths_to_head.extend_with(step_kind_from_parent),\n",
        "                        if crate::mutant(58) {
                            head.paths_to_head
                        } else {
                            head.paths_to_head.extend_with(step_kind_from_parent)
                        },
",
    ),
    edit(
        "mod.rs",
        "wrong readings 59, 60",
        "                    Ordering::Equal => {\n",
        "                    Ordering::Equal if crate::mutant(59) => {
                        parent.usages.get_or_insert_default().add_whole(head.usages);
                    }
                    Ordering::Equal if crate::mutant(60) && head.usages.is_empty() => {}
                    Ordering::Equal => {
",
    ),
    edit(
        "mod.rs",
        "wrong readings 62, 69",
        "                    parent.nested_goals.extend_from_child(step_kind_from_parent, nested_goals);
                    !nested_goals.is_empty()
",
        "                    if !crate::mutant(62) {
                        parent.nested_goals.extend_from_child(step_kind_from_parent, nested_goals);
                    }
                    !nested_goals.is_empty() && !crate::mutant(69)
",
    ),
    edit(
        "mod.rs",
        "wrong readings 63, 64",
        "                    parent.nested_goals.insert(head, step_kind_from_parent.into());\n",
        "                    match () {
                        _ if crate::mutant(63) => {}
                        _ if crate::mutant(64) => {
                            parent.nested_goals.insert(head, PathsToNested::EMPTY)
                        }
                        _ => parent.nested_goals.insert(head, step_kind_from_parent.into()),
                    }
",
    ),
    edit(
        "mod.rs",
        "wrong reading 68",
        "UpdateParentGoalCtxt::ProvisionalCacheHit => true,",
        "UpdateParentGoalCtxt::ProvisionalCacheHit => !crate::mutant(68),",
    ),
    edit(
        "mod.rs",
        "wrong readings 65 to 67",
        "            if parent_depends_on_cycle {
                parent.nested_goals.insert(parent.input, PathsToNested::EMPTY);
",
        "            if (parent_depends_on_cycle || crate::mutant(67)) && !crate::mutant(65) {
                let paths = if crate::mutant(66) {
                    PathsToNested::INDUCTIVE
                } else {
                    PathsToNested::EMPTY
                };
                parent.nested_goals.insert(parent.input, paths);
",
    ),
    edit(
        "mod.rs",
        "wrong readings 73, 74",
        "        stack.cycle_step_kinds(head).fold(step_kind_to_head, |curr, step| curr.extend(step))\n",
        "        if crate::mutant(74) {
            return step_kind_to_head;
        }
        let step_kind_to_head =
            if crate::mutant(73) { PathKind::Inductive } else { step_kind_to_head };
        stack.cycle_step_kinds(head).fold(step_kind_to_head, |curr, step| curr.extend(step))
",
    ),
    edit(
        "mod.rs",
        "wrong readings 75, 76",
        "                if head_index == entry_index {\n",
        "                if crate::mutant(75) && head_index != entry_index
                    || crate::mutant(76) && head_index == entry_index
                {
                    continue;
                }
                if head_index == entry_index {
",
    ),
    edit(
        "mod.rs",
        "wrong reading 96",
        "            last.encountered_overflow = true;\n",
        "            last.encountered_overflow |= !crate::mutant(96);\n",
    ),
    edit(
        "mod.rs",
        "wrong readings 97, 98",
        "            last.nested_goals.insert(last.input, PathsToNested::EMPTY);\n",
        "            if !crate::mutant(97) {
                let goal = if crate::mutant(98) { input } else { last.input };
                last.nested_goals.insert(goal, PathsToNested::EMPTY);
            }
",
    ),
];
