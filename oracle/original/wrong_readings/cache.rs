//! global_cache.rs.

use super::edit;
use crate::Edit;

pub const READINGS: &[(u32, &str)] = &[
    (290, "the overflow slot is looked up before the success slot"),
    (291, "a second insert of a success keeps the old entry"),
    (292, "a second insert of an overflow keeps the old entry"),
    (293, "an overflow slot applies above its depth too"),
    (294, "a result that met overflow goes to the success slot"),
    (295, "the overflow slot one depth lower is looked up"),
    (296, "a held success slot hides the overflow slots"),
    (297, "a slot with a different result is replaced, without refusal 11"),
];

pub const EDITS: &[Edit] = &[
    edit(
        "mod.rs",
        "wrong readings 304, 306 to 310, 312: passes are told and replaced wrongly",
        "    fn get_tracked<T: Debug + Clone>(self, tracked: &Self::Tracked<T>) -> T;\n",
        "    fn get_tracked<T: Debug + Clone>(self, tracked: &Self::Tracked<T>) -> T;
    fn counted_wrongly(self, goal: Self::Input, runs: Self::DepNodeIndex) -> Self::DepNodeIndex;
    fn replaced_wrongly<T: Debug + Clone>(self, old: &Self::Tracked<T>, new: &Self::Tracked<T>);
",
    ),
    edit(
        "global_cache.rs",
        "wrong readings 304, 306",
        "        let result = cx.mk_tracked(result, dep_node);\n",
        "        let result = cx.mk_tracked(result, cx.counted_wrongly(input, dep_node));\n",
    ),
    edit(
        "global_cache.rs",
        "wrong reading 294",
        "        if encountered_overflow {\n",
        "        if encountered_overflow && !crate::mutant(294) {\n",
    ),
    edit(
        "global_cache.rs",
        "wrong readings 292, 297, 307 to 310, 312",
        "            let prev = entry.with_overflow.insert(required_depth, with_overflow);
            if let Some(prev) = &prev {
",
        "            if crate::mutant(292)
                && let Some(old) = entry.with_overflow.get(&required_depth)
                && cx.get_tracked(&old.result) == evaluation_result.result
            {
                return;
            }
            let prev = entry.with_overflow.insert(required_depth, with_overflow);
            if let (Some(old), Some(new)) = (&prev, entry.with_overflow.get(&required_depth)) {
                cx.replaced_wrongly(&old.result, &new.result);
            }
            if let Some(prev) = &prev
                && !crate::mutant(297)
            {
",
    ),
    edit(
        "global_cache.rs",
        "wrong readings 291, 297, 307 to 310, 312",
        "            let prev = entry.success.replace(Success { required_depth, nested_goals, result });
            if let Some(prev) = &prev {
",
        "            if crate::mutant(291)
                && let Some(old) = &entry.success
                && cx.get_tracked(&old.result) == evaluation_result.result
            {
                return;
            }
            let prev = entry.success.replace(Success { required_depth, nested_goals, result });
            if let (Some(old), Some(new)) = (&prev, &entry.success) {
                cx.replaced_wrongly(&old.result, &new.result);
            }
            if let Some(prev) = &prev
                && !crate::mutant(297)
            {
",
    ),
    edit(
        "global_cache.rs",
        "wrong reading 290",
        "        let entry = self.map.get(&input)?;\n",
        "        let entry = self.map.get(&input)?;
        let required_depth = RequiredDepth(available_depth.0);
        if crate::mutant(290)
            && let Some(WithOverflow { nested_goals, result }) =
                entry.with_overflow.get(&required_depth)
            && candidate_is_applicable(nested_goals)
        {
            return Some(CacheData {
                result: cx.get_tracked(result),
                required_depth,
                encountered_overflow: true,
                nested_goals,
            });
        }
",
    ),
    edit(
        "global_cache.rs",
        "wrong readings 293, 295, 296",
        "        let additional_depth = RequiredDepth(available_depth.0);\n",
        "        if crate::mutant(296) && entry.success.is_some() {
            return None;
        }
        let additional_depth = RequiredDepth(available_depth.0);
        let below = entry.with_overflow.keys().copied().filter(|depth| *depth <= additional_depth);
        let additional_depth = match () {
            _ if crate::mutant(293) => below.max().unwrap_or(additional_depth),
            _ if crate::mutant(295) => RequiredDepth(available_depth.0.saturating_sub(1)),
            _ => additional_depth,
        };
",
    ),
];
