//! What a rerun clears and what rebasing keeps.

use super::edit;
use crate::Edit;

pub const READINGS: &[(u32, &str)] = &[
    (3, "a rerun keeps the entries that depend on the old provisional result"),
    (200, "an entry that does not use the popped head gains none of its heads"),
    (201, "heads gained unused get the flag inductive"),
    (202, "heads gained unused get the popped head's usages"),
    (203, "an entry that does not use the popped head is dropped"),
    (204, "ambiguity drops entries that do not use the popped head"),
    (205, "rebasing does not check the paths"),
    (206, "rebasing leaves the entry's own path out of the check"),
    (207, "rebasing checks the first path to the popped head alone"),
    (208, "heads gained through the popped head get its paths alone"),
    (209, "heads gained through the popped head get the entry's paths alone"),
    (210, "heads gained through the popped head get no usages"),
    (211, "without cycle usages dependent entries are kept"),
    (212, "ambiguity keeps every entry"),
    (213, "ambiguity drops every dependent entry"),
    (214, "ambiguity keeps entries of either ambiguous result"),
    (215, "ambiguity makes dependent entries ambiguous instead of dropping them"),
    (216, "a later fixpoint drops dependent entries"),
    (218, "a first fixpoint keeps every entry"),
    (219, "a first fixpoint drops every dependent entry"),
    (220, "an entry's path is not carried on to the new highest head"),
    (221, "an entry's path becomes that of the popped head"),
    (222, "an entry's path is carried on to the lowest head"),
    (223, "entries are dropped with their highest head"),
    (224, "an entry that lost its last head is kept"),
    (225, "rebasing checks paths without the popped head's own step"),
    (226, "an entry's path is carried on without the popped head's own step"),
    (227, "rebasing for an overflow keeps undecided entries too"),
    (228, "rebasing for undecided keeps entries that overflowed, as undecided"),
    (230, "a rerun drops entries that do not use the result"),
    (231, "a rerun drops all entries"),
];

pub const EDITS: &[Edit] = &[
    edit(
        "mod.rs",
        "wrong reading 3",
        "            self.clear_dependent_provisional_results_for_rerun();\n",
        "            if !crate::mutant(3) {
                self.clear_dependent_provisional_results_for_rerun();
            }
",
    ),
    edit(
        "mod.rs",
        "wrong readings 230, 231",
        "                head_index != rerun_index || head.usages.is_empty()\n",
        "                (head_index != rerun_index || head.usages.is_empty() && !crate::mutant(230))
                    && !crate::mutant(231)
",
    ),
    edit(
        "mod.rs",
        "wrong reading 215",
        "        rebase_reason: RebaseReason<X>,\n    ) {\n",
        "        rebase_reason: RebaseReason<X>,\n        final_result: X::Result,\n    ) {\n",
    ),
    edit(
        "mod.rs",
        "wrong readings 203, 204, 223",
        "                if popped_head.usages.is_empty() {\n",
        "                if crate::mutant(223) {
                    return false;
                }
                if popped_head.usages.is_empty() {
                    if crate::mutant(203) {
                        return false;
                    }
                    if crate::mutant(204)
                        && let RebaseReason::Ambiguity(kind) = rebase_reason
                        && D::is_ambiguous_result(*result) != Some(kind)
                    {
                        return false;
                    }
",
    ),
    edit(
        "mod.rs",
        "wrong readings 200 to 202",
        "                    for (head_index, _) in stack_entry.heads.iter() {
                        heads.insert(head_index, PathsToNested::EMPTY, HeadUsages::default());
",
        "                    for (head_index, head) in stack_entry.heads.iter() {
                        if crate::mutant(200) {
                            continue;
                        }
                        let paths = if crate::mutant(201) {
                            PathsToNested::INDUCTIVE
                        } else {
                            PathsToNested::EMPTY
                        };
                        let usages =
                            if crate::mutant(202) { head.usages } else { HeadUsages::default() };
                        heads.insert(head_index, paths, usages);
",
    ),
    edit(
        "mod.rs",
        "wrong reading 225",
        "                        let hp = Self::cycle_path_kind(
                            &self.stack,
                            stack_entry.step_kind_from_parent,
",
        "                        let hp = Self::cycle_path_kind(
                            &self.stack,
                            if crate::mutant(225) {
                                PathKind::Inductive
                            } else {
                                stack_entry.step_kind_from_parent
                            },
",
    ),
    edit(
        "mod.rs",
        "wrong reading 206",
        "let he = hp.extend(*path_from_head);",
        "let he = if crate::mutant(206) { hp } else { hp.extend(*path_from_head) };",
    ),
    edit(
        "mod.rs",
        "wrong reading 207",
        "for ep in ep.iter_paths() {",
        "for ep in ep.iter_paths().take(if crate::mutant(207) { 1 } else { 4 }) {",
    ),
    edit(
        "mod.rs",
        "wrong reading 205",
        "if hph != heph {",
        "if hph != heph && !crate::mutant(205) {",
    ),
    edit(
        "mod.rs",
        "wrong readings 208 to 210",
        "                        let eph = ep.extend_with_paths(ph);
                        heads.insert(head_index, eph, head.usages);
",
        "                        let eph = match () {
                            _ if crate::mutant(208) => ph,
                            _ if crate::mutant(209) => ep,
                            _ => ep.extend_with_paths(ph),
                        };
                        let usages =
                            if crate::mutant(210) { HeadUsages::default() } else { head.usages };
                        heads.insert(head_index, eph, usages);
",
    ),
    edit(
        "mod.rs",
        "wrong reading 211",
        "RebaseReason::NoCycleUsages => return false,",
        "RebaseReason::NoCycleUsages if crate::mutant(211) => {}
                        RebaseReason::NoCycleUsages => return false,",
    ),
    edit(
        "mod.rs",
        "wrong readings 212 to 215, 227, 228",
        "                            if !D::is_ambiguous_result(*result).is_some_and(|k| k == kind) {\n",
        "                            let overflow = kind == D::FIXPOINT_OVERFLOW_AMBIGUITY_KIND;
                            let ambiguous = D::is_ambiguous_result(*result).is_some();
                            if crate::mutant(215) || crate::mutant(228) && ambiguous && !overflow {
                                *result = final_result;
                            }
                            let either = crate::mutant(214) || crate::mutant(227) && overflow;
                            if !D::is_ambiguous_result(*result)
                                .is_some_and(|k| k == kind || either)
                                && !crate::mutant(212)
                                || crate::mutant(213)
                            {
",
    ),
    edit(
        "mod.rs",
        "wrong reading 216",
        "RebaseReason::ReachedFixpoint(None) => {}",
        "RebaseReason::ReachedFixpoint(None) if crate::mutant(216) => return false,
                        RebaseReason::ReachedFixpoint(None) => {}",
    ),
    edit(
        "mod.rs",
        "wrong readings 218, 219",
        "if !popped_head.usages.is_single(path_kind) {",
        "if (!popped_head.usages.is_single(path_kind) || crate::mutant(219))
                                && !crate::mutant(218)
                            {",
    ),
    edit(
        "mod.rs",
        "wrong reading 224",
        "                let Some(new_highest_head_index) = heads.opt_highest_cycle_head_index() else {
                    return false;
",
        "                let Some(new_highest_head_index) = heads.opt_highest_cycle_head_index() else {
                    return crate::mutant(224);
",
    ),
    edit(
        "mod.rs",
        "wrong readings 220 to 222, 226",
        "                *path_from_head = path_from_head.extend(Self::cycle_path_kind(
                    &self.stack,
                    stack_entry.step_kind_from_parent,
                    new_highest_head_index,
                ));
",
        "                let from_new_head = Self::cycle_path_kind(
                    &self.stack,
                    if crate::mutant(226) {
                        PathKind::Inductive
                    } else {
                        stack_entry.step_kind_from_parent
                    },
                    if crate::mutant(222) {
                        heads.opt_lowest_cycle_head_index().unwrap()
                    } else {
                        new_highest_head_index
                    },
                );
                *path_from_head = match () {
                    _ if crate::mutant(220) => *path_from_head,
                    _ if crate::mutant(221) => from_new_head,
                    _ => path_from_head.extend(from_new_head),
                };
",
    ),
];
