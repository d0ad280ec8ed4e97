//! `reached_fixpoint` and `evaluate_goal_in_task`: when a frame finishes, and what a rerun keeps.

use super::edit;
use crate::Edit;

pub const READINGS: &[(u32, &str)] = &[
    (2, "a rerun forgets the heads"),
    (217, "a later fixpoint keeps entries as a first one does"),
    (258, "at the step limit the last run is not among the passes"),
    (259, "at the step limit one pass more is counted"),
    (260, "a first fixpoint needs no single kind of usages"),
    (261, "a later run can finish as a first one does"),
    (262, "a first run is never a fixpoint"),
    (263, "the overflow of earlier runs is forgotten"),
    (264, "no usages is tested before the fixpoint"),
    (265, "a frame without usages runs again"),
    (266, "ambiguity is tested before the fixpoint"),
    (267, "an ambiguous result runs again"),
    (268, "ambiguity is tested before no usages"),
    (269, "the step limit is tested before ambiguity"),
    (270, "L + 1 runs are allowed"),
    (271, "L - 1 runs are allowed"),
    (272, "L = 0 means no limit"),
    (273, "L = 0 overflows at once"),
    (274, "at the step limit the last result is claimed"),
    (275, "the result of the first run is claimed"),
    (276, "the step limit marks the frame as met by overflow"),
    (277, "at the step limit entries that are undecided are kept, not those that overflowed"),
    (278, "at the step limit every dependent entry is dropped"),
    (279, "a rerun forgets the nested goals"),
    (280, "a rerun forgets the depth reached"),
    (281, "a rerun keeps the overflow mark"),
    (282, "a rerun keeps the usages"),
    (283, "a rerun is no head until it is used"),
    (284, "a rerun keeps the candidate usages"),
    (285, "every rerun starts from the first run's result"),
    (286, "the run of a frame that is no head is not among the passes"),
    (287, "the run that reaches a fixpoint is not among the passes"),
    (288, "a last run without usages is not among the passes"),
    (289, "an ambiguous last run is not among the passes"),
];

pub const EDITS: &[Edit] = &[
    edit(
        "mod.rs",
        "wrong readings 217, 261",
        "            if provisional_result == result { Ok(None) } else { Err(()) }\n",
        "            let initial = D::is_initial_provisional_result(result);
            if provisional_result == result {
                Ok(initial.filter(|_| crate::mutant(217)))
            } else if crate::mutant(261) && initial.is_some_and(|kind| usages.is_single(kind)) {
                Ok(initial)
            } else {
                Err(())
            }
",
    ),
    edit(
        "mod.rs",
        "wrong readings 260, 262",
        ".filter(|&path_kind| usages.is_single(path_kind))",
        ".filter(|&path_kind| {
                (usages.is_single(path_kind) || crate::mutant(260)) && !crate::mutant(262)
            })",
    ),
    edit(
        "mod.rs",
        "wrong reading 273",
        "            let result = D::compute_goal(self, cx, input, inspect);\n",
        "            let result = if crate::mutant(273) && D::fixpoint_step_limit() == 0 {
                D::fixpoint_overflow_result(cx, input)
            } else {
                D::compute_goal(self, cx, input, inspect)
            };
",
    ),
    edit(
        "mod.rs",
        "wrong reading 263",
        "            encountered_overflow |= stack_entry.encountered_overflow;\n",
        "            encountered_overflow &= !crate::mutant(263);
            encountered_overflow |= stack_entry.encountered_overflow;
",
    ),
    edit(
        "mod.rs",
        "wrong readings 264, 266, 275",
        "            if let Ok(fixpoint) = self.reached_fixpoint(&stack_entry, usages, result) {\n",
        "            if let Some(reason) = Self::finished_wrongly(usages, result) {
                self.rebase_provisional_cache_entries(&stack_entry, reason, result);
                return EvaluationResult::finalize(stack_entry, encountered_overflow, result);
            }
            if let Ok(fixpoint) = self.reached_fixpoint(&stack_entry, usages, result) {
",
    ),
    edit(
        "mod.rs",
        "wrong reading 215",
        "                    RebaseReason::ReachedFixpoint(fixpoint),\n",
        "                    RebaseReason::ReachedFixpoint(fixpoint),\n                    result,\n",
    ),
    edit(
        "mod.rs",
        "wrong readings 265, 268",
        "            } else if usages.is_empty() {
                self.rebase_provisional_cache_entries(&stack_entry, RebaseReason::NoCycleUsages);
",
        "            } else if usages.is_empty()
                && !crate::mutant(265)
                && !(crate::mutant(268) && D::is_ambiguous_result(result).is_some())
            {
                self.rebase_provisional_cache_entries(
                    &stack_entry,
                    RebaseReason::NoCycleUsages,
                    result,
                );
",
    ),
    edit(
        "mod.rs",
        "wrong readings 267, 269",
        "            if let Some(kind) = D::is_ambiguous_result(result) {
                self.rebase_provisional_cache_entries(&stack_entry, RebaseReason::Ambiguity(kind));
",
        "            if let Some(kind) = D::is_ambiguous_result(result)
                && !crate::mutant(267)
                && !(crate::mutant(269) && i + 1 >= D::fixpoint_step_limit())
            {
                self.rebase_provisional_cache_entries(
                    &stack_entry,
                    RebaseReason::Ambiguity(kind),
                    result,
                );
",
    ),
    edit(
        "mod.rs",
        "wrong readings 270 to 272",
        "            if i >= D::fixpoint_step_limit() {\n",
        "            if match D::fixpoint_step_limit() {
                0 if crate::mutant(272) => false,
                limit if crate::mutant(270) => i > limit,
                limit if crate::mutant(271) => i + 1 >= limit,
                limit => i >= limit,
            } {
",
    ),
    edit(
        "mod.rs",
        "wrong readings 274, 276",
        "                let result = D::fixpoint_overflow_result(cx, input);\n",
        "                encountered_overflow |= crate::mutant(276);
                let result = if crate::mutant(274) {
                    result
                } else {
                    D::fixpoint_overflow_result(cx, input)
                };
",
    ),
    edit(
        "mod.rs",
        "wrong readings 277, 278",
        "                    RebaseReason::Ambiguity(D::FIXPOINT_OVERFLOW_AMBIGUITY_KIND),\n",
        "                    match () {
                        _ if crate::mutant(277) => Self::undecided_wrongly(cx, input),
                        _ if crate::mutant(278) => RebaseReason::NoCycleUsages,
                        _ => RebaseReason::Ambiguity(D::FIXPOINT_OVERFLOW_AMBIGUITY_KIND),
                    },
                    result,
",
    ),
    edit(
        "mod.rs",
        "wrong reading 285",
        "                provisional_result: Some(result),\n",
        "                provisional_result: match stack_entry.provisional_result {
                    Some(first) if crate::mutant(285) => Some(first),
                    _ => Some(result),
                },
",
    ),
    edit(
        "mod.rs",
        "wrong reading 280",
        "                min_reached_available_depth: stack_entry.min_reached_available_depth,\n",
        "                min_reached_available_depth: if crate::mutant(280) {
                    stack_entry.available_depth
                } else {
                    stack_entry.min_reached_available_depth
                },
",
    ),
    edit(
        "mod.rs",
        "wrong readings 2, 279",
        "                heads: stack_entry.heads,
                nested_goals: stack_entry.nested_goals,
",
        "                heads: if crate::mutant(2) { Default::default() } else { stack_entry.heads },
                nested_goals: if crate::mutant(279) {
                    Default::default()
                } else {
                    stack_entry.nested_goals
                },
",
    ),
    edit(
        "mod.rs",
        "wrong reading 281",
        "                encountered_overflow: false,
                // We keep provisional cache entries around if they used this goal
",
        "                encountered_overflow: stack_entry.encountered_overflow && crate::mutant(281),
                // We keep provisional cache entries around if they used this goal
",
    ),
    edit(
        "mod.rs",
        "wrong readings 282 to 284",
        "                usages: Some(HeadUsages::default()),
                candidate_usages: None,
",
        "                usages: match () {
                    _ if crate::mutant(282) => Some(usages),
                    _ if crate::mutant(283) => None,
                    _ => Some(HeadUsages::default()),
                },
                candidate_usages: stack_entry.candidate_usages.filter(|_| crate::mutant(284)),
",
    ),
    edit(
        "mod.rs",
        "wrong reading 286",
        "            let Some(usages) = stack_entry.usages else {\n",
        "            let Some(usages) = stack_entry.usages else {
                wrongly::last_run_uncounted(286);
",
    ),
    edit(
        "mod.rs",
        "wrong reading 287",
        "            if let Ok(fixpoint) = self.reached_fixpoint(&stack_entry, usages, result) {\n",
        "            if let Ok(fixpoint) = self.reached_fixpoint(&stack_entry, usages, result) {
                wrongly::last_run_uncounted(287);
",
    ),
    edit(
        "mod.rs",
        "wrong reading 288",
        "                    RebaseReason::NoCycleUsages,
                    result,
                );
",
        "                    RebaseReason::NoCycleUsages,
                    result,
                );
                wrongly::last_run_uncounted(288);
",
    ),
    edit(
        "mod.rs",
        "wrong reading 289",
        "                    RebaseReason::Ambiguity(kind),
                    result,
                );
",
        "                    RebaseReason::Ambiguity(kind),
                    result,
                );
                wrongly::last_run_uncounted(289);
",
    ),
    edit(
        "mod.rs",
        "wrong readings 258, 259",
        "                debug!(\"canonical cycle overflow\");\n",
        "                debug!(\"canonical cycle overflow\");
                wrongly::last_run_uncounted(258);
                wrongly::run_counted_twice(259);
",
    ),
];
