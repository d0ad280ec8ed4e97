//! Path kinds, usages, path sets, heads, nested goals.

use super::edit;
use crate::Edit;

pub const READINGS: &[(u32, &str)] = &[
    (1, "is_single is false when all counters are zero"),
    (5, "extend takes the lesser kind"),
    (6, "extend: unknown is stronger than coinductive"),
    (7, "extend keeps the first kind"),
    (8, "is_single asks for at most one usage"),
    (9, "is_single asks whether the kind is used, whatever else is"),
    (10, "is_single is always true"),
    (11, "ignoring usages takes away at most 1 of each kind"),
    (12, "merging usages takes the higher counters, not the sums"),
    (13, "merging usages replaces those merged before"),
    (14, "extend_with keeps the weaker flags"),
    (15, "extend_with adds the step's flag where all paths are stronger"),
    (16, "extend_with by an inductive step leaves the flag empty"),
    (17, "extend_with_paths: the flag empty yields the set itself"),
    (18, "iter_paths takes the flag empty for inductive"),
    (19, "a known head gains whole counters"),
    (20, "a known head gains no usages"),
    (21, "a known head's paths are replaced"),
    (22, "a known head's paths stay as they are"),
    (23, "a new head gains at most 1 of each kind"),
    (24, "a nested goal's paths are replaced"),
    (25, "a nested goal's paths stay as they are"),
    (26, "a child's nested goals are not extended by the step"),
    (27, "a child's nested goals get the step's flag alone"),
    (61, "a new head gains no usages"),
];

pub const EDITS: &[Edit] = &[
    edit("mod.rs", "wrong readings", "mod stack;\n", "mod stack;\nmod wrongly;\n"),
    edit(
        "mod.rs",
        "wrong readings 5 to 7",
        "    fn extend(self, rest: PathKind) -> PathKind {\n",
        "    fn extend(self, rest: PathKind) -> PathKind {
        if let Some(wrong) = self.extended_wrongly(rest) {
            return wrong;
        }
",
    ),
    edit(
        "mod.rs",
        "wrong readings 1, 8 to 10",
        "    fn is_single(self, path_kind: PathKind) -> bool {\n",
        "    fn is_single(self, path_kind: PathKind) -> bool {
        if let Some(wrong) = self.single_wrongly(path_kind) {
            return wrong;
        }
",
    ),
    edit(
        "mod.rs",
        "wrong reading 11",
        "    fn ignore_usages(&mut self, usages: HeadUsages) {\n",
        "    fn ignore_usages(&mut self, usages: HeadUsages) {
        let usages = if crate::mutant(11) { usages.at_most_one() } else { usages };
",
    ),
    edit(
        "mod.rs",
        "wrong readings 12, 13",
        "    pub fn merge_usages(&mut self, other: CandidateHeadUsages) {\n",
        "    pub fn merge_usages(&mut self, other: CandidateHeadUsages) {
        if self.merged_wrongly(&other) {
            return;
        }
",
    ),
    edit(
        "mod.rs",
        "wrong readings 14 to 16",
        "    fn extend_with(mut self, path: PathKind) -> Self {\n",
        "    fn extend_with(mut self, path: PathKind) -> Self {
        if let Some(wrong) = self.extended_wrongly(path) {
            return wrong;
        }
",
    ),
    edit(
        "mod.rs",
        "wrong reading 17",
        "        let mut new = PathsToNested::empty();\n",
        "        let mut new = PathsToNested::empty();
        if crate::mutant(17) && path.contains(PathsToNested::EMPTY) {
            new |= self;
        }
",
    ),
    edit(
        "mod.rs",
        "wrong reading 18",
        ".filter(move |&p| self.contains(p.into()))",
        ".filter(move |&p| {
                self.contains(p.into())
                    || crate::mutant(18)
                        && p == PathKind::Inductive
                        && self.contains(PathsToNested::EMPTY)
            })",
    ),
    edit(
        "mod.rs",
        "wrong readings 19 to 22",
        "                let head = entry.into_mut();
                head.paths_to_head |= path_from_entry.into();
",
        "                let head = entry.into_mut();
                if head.joined_wrongly(path_from_entry.into(), usages) {
                    return;
                }
                head.paths_to_head |= path_from_entry.into();
",
    ),
    edit(
        "mod.rs",
        "wrong readings 23, 61",
        "                entry.insert(CycleHead { paths_to_head: path_from_entry.into(), usages });\n",
        "                let usages = match () {
                    _ if crate::mutant(23) => usages.at_most_one(),
                    _ if crate::mutant(61) => HeadUsages::default(),
                    _ => usages,
                };
                entry.insert(CycleHead { paths_to_head: path_from_entry.into(), usages });
",
    ),
    edit(
        "mod.rs",
        "wrong readings 24, 25",
        "            Entry::Occupied(mut entry) => *entry.get_mut() |= paths_to_nested,\n",
        "            Entry::Occupied(_) if crate::mutant(25) => {}
            Entry::Occupied(mut entry) if crate::mutant(24) => *entry.get_mut() = paths_to_nested,
            Entry::Occupied(mut entry) => *entry.get_mut() |= paths_to_nested,
",
    ),
    edit(
        "mod.rs",
        "wrong readings 26, 27",
        "    fn extend_from_child(&mut self, step_kind: PathKind, nested_goals: &NestedGoals<X>) {\n",
        "    fn extend_from_child(&mut self, step_kind: PathKind, nested_goals: &NestedGoals<X>) {
        if crate::mutant(26) || crate::mutant(27) {
            for (input, paths) in nested_goals.iter() {
                self.insert(input, if crate::mutant(26) { paths } else { step_kind.into() });
            }
            return;
        }
",
    ),
];
