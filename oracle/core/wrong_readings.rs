//! Wrong readings of document 01's added parts and of document 02, numbers 100 to 199 and from 300
//! on: edits of this crate's files, each behind a switch. `mutant(n)` is true when number n is
//! switched on.

pub mod passes;

use crate::Edit;
use crate::apply::edit;

/// The files that are edited, and how visible their modules are.
pub const FILES: [(&str, &str); 5] = [
    ("book.rs", "pub"),
    ("delegate.rs", ""),
    ("read_book.rs", ""),
    ("reply.rs", "pub"),
    ("cache.rs", "pub"),
];

pub const READINGS: &[(u32, &str)] = &[
    (100, "a pick ignores no usages"),
    (101, "a pick ignores the first Yes's usages too"),
    (102, "a pick ignores only candidates before the Yes"),
    (103, "a pick ignores only candidates after the Yes"),
    (104, "a pick ignores all usages without a Yes too"),
    (105, "a pick keeps the last Yes's usages, not the first's"),
    (106, "a pick stops at a Yes"),
    (107, "a pick is combined as all"),
    (108, "all does not stop at a No"),
    (109, "any does not stop at a Yes"),
    (110, "an empty all is No"),
    (111, "an empty any is Yes"),
    (112, "of undecided and overflow the higher number counts, as in document 01"),
    (113, "of undecided and overflow the last one met counts"),
    (114, "inductive cycles begin with Yes, coinductive ones with No"),
    (115, "unknown cycles begin with overflow, forced ones with undecided"),
    (116, "undecided and overflow are confused as initial results"),
    (117, "too little depth is undecided"),
    (118, "the step limit is undecided"),
    (119, "unknown cycles begin with No"),
    (120, "undecided and overflow are one kind of ambiguity"),
    (121, "undecided is not ambiguous"),
    (122, "overflow is not ambiguous"),
    (123, "the root's step is coinductive"),
    (124, "kinds 1 and 2 are confused"),
    (125, "lower 0 and 1 are confused"),
    (126, "every goal is undecided"),
    (127, "a pick ignores all but each Yes"),
    (128, "a pick does not ignore ambiguous candidates"),
    (129, "undecided and overflow are never initial results"),
    (130, "all is undecided where an earlier part was, in spite of a No"),
    (131, "of undecided and overflow the first one met counts"),
    (132, "a pick takes the higher number"),
    (133, "all takes the higher number"),
    (134, "any takes the higher number"),
    (135, "all and any inside a pick take the higher number"),
    (136, "any is undecided where an earlier part was, in spite of a Yes"),
    (137, "a pick is undecided where a candidate was, in spite of a Yes"),
    (138, "all takes the higher number where it met a Yes too"),
    (139, "any takes the higher number where it met a No too"),
    (140, "an undecided that was met in a part of a part counts"),
    (141, "an undecided line that was not evaluated counts"),
    (142, "a list that met overflow and nothing worse is undecided"),
    (143, "the step limit is undecided where a run met undecided"),
    (144, "too little depth is undecided where undecided was met before"),
    (150, "every book is turned away"),
    (151, "2 G - 1 entries may live"),
    (152, "2 G + 1 entries may live"),
    (153, "refusal 10 leaves the cache"),
    (154, "refusal 11 leaves the cache"),
    (155, "a cache with more slots is accepted"),
    (156, "a longer work buffer is accepted"),
    (157, "refusals 5 to 9 zero the cache"),
    (158, "goal G is accepted"),
    (159, "depth T is refused"),
    (160, "depth T + 1 is accepted"),
    (161, "refusal 6 comes before 5"),
    (162, "refusal 7 comes before 5"),
    (163, "refusal 9 comes before 7"),
    (164, "a vacant slot may hold bytes"),
    (165, "a slot may not hold result 3"),
    (166, "a success slot may not require depth T"),
    (167, "a success slot may require depth T + 1"),
    (168, "an overflow slot may require any depth"),
    (169, "the flag forced is ill-formed"),
    (170, "overflow slots stand from depth T down"),
    (171, "a slot may begin with any byte"),
    (172, "parts nest at most 7 deep"),
    (173, "parts nest up to 9 deep"),
    (174, "a pick may stand in a pick"),
    (175, "a pick may stand in a pick below an all or any"),
    (176, "a call's last field is free"),
    (177, "lines may follow the last part"),
    (178, "kind 4 is accepted"),
    (179, "lower 2 is accepted"),
    (180, "leading zeros are accepted"),
    (181, "a blank field is 0"),
    (182, "64 goals are refused"),
    (183, "top depth 63 is refused"),
    (184, "L = 0 is refused"),
    (185, "V = 0 is accepted"),
    (186, "the header is tested before the other lines"),
    (187, "16,016 bytes are accepted"),
    (188, "a line's last byte is free"),
    (189, "a goal line's number is free"),
    (190, "a call of goal G is accepted"),
];

pub const EDITS: &[Edit] = &[
    // delegate.rs
    edit(
        "delegate.rs",
        "wrong readings",
        "use original::search_graph::{\n",
        "use original::mutant;\nuse original::search_graph::{\n",
    ),
    edit(
        "delegate.rs",
        "wrong reading 123",
        "(PathKind::Inductive, LowerAvailableDepth::Yes);",
        "(
            if mutant(123) { PathKind::Coinductive } else { PathKind::Inductive },
            LowerAvailableDepth::Yes,
        );",
    ),
    edit(
        "delegate.rs",
        "wrong readings 114, 115, 119",
        "    fn initial_provisional_result(_: Lent, kind: PathKind, _: usize) -> u8 {
        match kind {
",
        "    fn initial_provisional_result(_: Lent, kind: PathKind, _: usize) -> u8 {
        match kind {
            PathKind::Inductive if mutant(114) => YES,
            PathKind::Coinductive if mutant(114) => NO,
            PathKind::Unknown if mutant(115) => OVERFLOW,
            PathKind::ForcedAmbiguity if mutant(115) => UNDECIDED,
            PathKind::Unknown if mutant(119) => NO,
",
    ),
    edit(
        "delegate.rs",
        "wrong readings 116, 129",
        "    fn is_initial_provisional_result(result: u8) -> Option<PathKind> {
        match result {
",
        "    fn is_initial_provisional_result(result: u8) -> Option<PathKind> {
        match result {
            UNDECIDED | OVERFLOW if mutant(129) => None,
            UNDECIDED if mutant(116) => Some(PathKind::ForcedAmbiguity),
            OVERFLOW if mutant(116) => Some(PathKind::Unknown),
",
    ),
    edit(
        "delegate.rs",
        "wrong readings 117, 144",
        "    fn stack_overflow_result(_: Lent, _: usize) -> u8 {
        OVERFLOW
",
        "    fn stack_overflow_result(_: Lent, _: usize) -> u8 {
        if mutant(117) || mutant(144) && SEEN.get().any { UNDECIDED } else { OVERFLOW }
",
    ),
    edit(
        "delegate.rs",
        "wrong readings 118, 143",
        "    fn fixpoint_overflow_result(_: Lent, _: usize) -> u8 {
        OVERFLOW
",
        "    fn fixpoint_overflow_result(_: Lent, goal: usize) -> u8 {
        let met = mutant(143) && SEEN.get().goals & goal_bit(goal) != 0;
        if mutant(118) || met { UNDECIDED } else { OVERFLOW }
",
    ),
    edit(
        "delegate.rs",
        "wrong readings 120 to 122",
        "        (result == UNDECIDED || result == OVERFLOW).then_some(result)\n",
        "        match result {
            UNDECIDED if mutant(121) => None,
            OVERFLOW if mutant(122) => None,
            OVERFLOW if mutant(120) => Some(UNDECIDED),
            UNDECIDED | OVERFLOW => Some(result),
            _ => None,
        }
",
    ),
    edit(
        "delegate.rs",
        "wrong readings 126, 135, 140, 143",
        "        read_part(graph, &book.parts[goal])\n",
        "        let outside = SEEN.get();
        SEEN.set(Seen { below: false, in_pick: false, ..outside });
        let answer =
            if mutant(126) { UNDECIDED } else { read_part(graph, &book.parts[goal]) };
        let inside = SEEN.get();
        let own = if inside.below { goal_bit(goal) } else { 0 };
        SEEN.set(Seen { goals: inside.goals | own, any: inside.any, ..outside });
        answer
",
    ),
    edit(
        "delegate.rs",
        "wrong readings 135, 140, 143, 144: what was met",
        "/// Evaluates one goal from an empty stack.",
        "/// Whether undecided was met: inside the part at hand, in some run of a goal (bit by bit), at
/// all; and whether the part at hand stands in a pick.
#[derive(Clone, Copy, Default)]
struct Seen {
    below: bool,
    in_pick: bool,
    goals: u64,
    any: bool,
}

thread_local! {
    static SEEN: Cell<Seen> = Cell::new(Seen::default());
}

fn goal_bit(goal: usize) -> u64 {
    1u64.wrapping_shl(goal as u32)
}

fn holds_undecided(part: &Part) -> bool {
    match part {
        Part::Call { .. } => false,
        Part::All(parts) | Part::Any(parts) | Part::Pick(parts) => {
            parts.iter().any(holds_undecided)
        }
        Part::Undecided => true,
    }
}

/// Evaluates one goal from an empty stack.",
    ),
    edit(
        "delegate.rs",
        "wrong readings 135, 140, 143, 144: nothing was met",
        "    FUEL.set(fuel);\n",
        "    FUEL.set(fuel);\n    SEEN.set(Seen::default());\n",
    ),
    edit(
        "delegate.rs",
        "wrong readings 140 to 142",
        "fn read_part(graph: &mut SearchGraph<PartReader>, part: &Part) -> u8 {
",
        "fn read_part(graph: &mut SearchGraph<PartReader>, part: &Part) -> u8 {
    let outside = SEEN.get().below;
    SEEN.set(Seen { below: false, ..SEEN.get() });
    let is_list = !matches!(part, Part::Call { .. } | Part::Undecided);
    let answer = match read_plain_part(graph, part) {
        OVERFLOW if is_list && mutant(140) && SEEN.get().below => UNDECIDED,
        OVERFLOW if is_list && mutant(141) && holds_undecided(part) => UNDECIDED,
        OVERFLOW if is_list && mutant(142) => UNDECIDED,
        answer => answer,
    };
    let seen = SEEN.get();
    let below = seen.below || answer == UNDECIDED;
    SEEN.set(Seen { below: outside || below, any: seen.any || below, ..seen });
    answer
}

fn read_plain_part(graph: &mut SearchGraph<PartReader>, part: &Part) -> u8 {
",
    ),
    edit(
        "delegate.rs",
        "wrong readings 112, 113, 131, 135",
        "        (UNDECIDED, OVERFLOW) | (OVERFLOW, UNDECIDED) => UNDECIDED,
",
        "        _ if mutant(112) || mutant(135) && SEEN.get().in_pick => a.max(b),
        _ if mutant(113) && b >= UNDECIDED => b,
        _ if mutant(131) && a >= UNDECIDED => a,
        (UNDECIDED, OVERFLOW) | (OVERFLOW, UNDECIDED) => UNDECIDED,
",
    ),
    edit(
        "delegate.rs",
        "wrong reading 135",
        "        let next = read_part(graph, candidate);
",
        "        let outside = SEEN.get().in_pick;
        SEEN.set(Seen { in_pick: true, ..SEEN.get() });
        let next = read_part(graph, candidate);
        SEEN.set(Seen { in_pick: outside, ..SEEN.get() });
",
    ),
    edit("delegate.rs", "wrong reading 125", "if *lower {", "if *lower != mutant(125) {"),
    edit(
        "delegate.rs",
        "wrong readings 110, 111",
        "        Part::All(parts) => read_until(graph, parts, NO, YES),\n",
        "        Part::All(parts) if parts.is_empty() && mutant(110) => NO,
        Part::Any(parts) if parts.is_empty() && mutant(111) => YES,
        Part::All(parts) => read_until(graph, parts, NO, YES),
",
    ),
    edit(
        "delegate.rs",
        "wrong readings 108, 109, 130, 133, 134, 136, 138, 139",
        "        if next == deciding {
            return deciding;
        }
        answer = combine(answer, next);
    }
    answer
",
        "        if next == deciding && mutant(130) && deciding == NO && answer >= UNDECIDED {
            return answer;
        }
        if next == deciding && mutant(136) && deciding == YES && answer == UNDECIDED {
            return answer;
        }
        if next == deciding {
            met = true;
            if mutant(108) && deciding == NO || mutant(109) && deciding == YES {
                continue;
            }
            return deciding;
        }
        neutral |= next == empty;
        highest = highest.max(next);
        answer = combine(answer, next);
    }
    let in_all = deciding == NO;
    let takes_higher = in_all && (mutant(133) || mutant(138) && neutral)
        || !in_all && (mutant(134) || mutant(139) && neutral);
    match () {
        _ if met => deciding,
        _ if takes_higher => highest,
        _ => answer,
    }
",
    ),
    edit(
        "delegate.rs",
        "wrong readings 108, 109, 133, 134, 138, 139",
        "    let mut answer = empty;\n",
        "    let mut answer = empty;
    let mut highest = empty;
    let (mut met, mut neutral) = (false, false);
",
    ),
    edit(
        "delegate.rs",
        "wrong readings 105, 127, 128, 132",
        "        let usages = graph.finish_single_candidate();
        if next == YES && !yes_met {
            yes_met = true;
        } else {
            others.merge_usages(usages);
            combined = combine(combined, next);
        }
",
        "        let usages = graph.finish_single_candidate();
        no_met |= next == NO;
        let first = next == YES && !yes_met;
        let merged = match () {
            _ if mutant(101) => true,
            _ if mutant(102) => !yes_met && !first,
            _ if mutant(103) => yes_met,
            _ if mutant(105) && next == YES => {
                others.merge_usages(std::mem::replace(&mut last_yes, usages));
                yes_met = true;
                continue;
            }
            _ if mutant(127) => next != YES,
            _ if mutant(128) => !first && next < UNDECIDED,
            _ => !first,
        };
        if merged {
            others.merge_usages(usages);
        }
        yes_met |= first;
        combined = if mutant(132) { combined.max(next) } else { combine(combined, next) };
        if mutant(106) && yes_met {
            break;
        }
",
    ),
    edit(
        "delegate.rs",
        "wrong readings 105, 107",
        "    let mut yes_met = false;\n",
        "    let mut yes_met = false;
    let mut no_met = false;
    let mut last_yes = CandidateHeadUsages::default();
",
    ),
    edit(
        "delegate.rs",
        "wrong readings 104, 107, 137",
        "    if !yes_met {
        return combined;
    }
    graph.ignore_candidate_head_usages(others);
",
        "    if !yes_met && !mutant(104) {
        return combined;
    }
    if !mutant(100) {
        graph.ignore_candidate_head_usages(others);
    }
    if mutant(107) && (no_met || combined >= UNDECIDED) {
        return if no_met { NO } else { combined };
    }
    if !yes_met || mutant(137) && combined == UNDECIDED {
        return combined;
    }
",
    ),
    edit(
        "delegate.rs",
        "wrong reading 124",
        "        1 => PathKind::Unknown,\n",
        "        1 if mutant(124) => PathKind::Coinductive,
        2 if mutant(124) => PathKind::Unknown,
        1 => PathKind::Unknown,
",
    ),
    // reply.rs
    edit(
        "reply.rs",
        "wrong readings",
        "use original::hooks::{self, Stop};\n",
        "use original::hooks::{self, Stop};\nuse original::mutant;\n",
    ),
    edit(
        "reply.rs",
        "wrong reading 150",
        "    match Book::read(book) {\n",
        "    match Book::read(book) {\n        _ if mutant(150) => refused(4),\n",
    ),
    edit(
        "reply.rs",
        "wrong readings 151, 152",
        "    let entry_limit = if limits.cap_entries { 2 * book.header.goals } else { usize::MAX };\n",
        "    let two_each = 2 * book.header.goals + usize::from(mutant(152)) - usize::from(mutant(151));
    let entry_limit = if limits.cap_entries { two_each } else { usize::MAX };
",
    ),
    edit(
        "reply.rs",
        "wrong readings 153, 154",
        "            cache.fill(0);
            work.fill(0);
            Outcome::Replied { answer: 0, refusal }
",
        "            if !(refusal == 10 && mutant(153) || refusal == 11 && mutant(154)) {
                cache.fill(0);
            }
            work.fill(0);
            Outcome::Replied { answer: 0, refusal }
",
    ),
    edit(
        "reply.rs",
        "wrong reading 157",
        "    if let Some(refusal) = refusal_before(book, cache, work, goal, depth) {\n",
        "    if let Some(refusal) = refusal_before(book, cache, work, goal, depth) {
        if mutant(157) {
            cache.fill(0);
        }
",
    ),
    edit(
        "reply.rs",
        "wrong readings 158, 161 to 163",
        "    if goal >= header.goals {\n",
        "    let more_slots = cache.len() > header.cache_len() && cache.len() % header.slot_len() == 0;
    let cache_len_ok = cache.len() == header.cache_len() || mutant(155) && more_slots;
    let work_len_ok = work.len() == work_len(header.goals)
        || mutant(156) && work.len() > work_len(header.goals);
    if mutant(161) && depth > header.top_depth {
        Some(6)
    } else if mutant(162) && !cache_len_ok {
        Some(7)
    } else if mutant(163) && goal < header.goals && depth <= header.top_depth && !work_len_ok {
        Some(9)
    } else if goal >= header.goals + usize::from(mutant(158)) {
",
    ),
    edit(
        "reply.rs",
        "wrong readings 159, 160",
        "    } else if depth > header.top_depth {\n",
        "    } else if depth.saturating_add(mutant(159).into())
        > header.top_depth + usize::from(mutant(160))
    {
",
    ),
    edit(
        "reply.rs",
        "wrong reading 155",
        "    } else if cache.len() != header.cache_len() {\n",
        "    } else if !cache_len_ok {\n",
    ),
    edit(
        "reply.rs",
        "wrong reading 156",
        "    } else if work.len() != work_len(header.goals) {\n",
        "    } else if !work_len_ok {\n",
    ),
    // cache.rs
    edit(
        "cache.rs",
        "wrong readings",
        "use original::Held;\n",
        "use original::{Held, mutant};\n",
    ),
    edit(
        "cache.rs",
        "wrong reading 164",
        "        0 => slot.iter().all(|&b| b == 0),\n",
        "        0 => slot.iter().all(|&b| b == 0) || mutant(164),\n",
    ),
    edit(
        "cache.rs",
        "wrong readings 166 to 168",
        "if number == 0 { depth <= header.top_depth } else { depth == number - 1 };\n",
        "if number == 0 {
                    depth + usize::from(mutant(166))
                        <= header.top_depth + usize::from(mutant(167))
                } else {
                    depth == number - 1 || mutant(168)
                };
",
    ),
    edit(
        "cache.rs",
        "wrong readings 165, 169",
        "            let flags_ok = slot[FLAGS..].iter().all(|&f| f <= 31);
            slot[RESULT] <= 3 && depth_ok && passes_ok && flags_ok
",
        "            let highest = if mutant(169) { 15 } else { 31 };
            let flags_ok = slot[FLAGS..].iter().all(|&f| f <= highest);
            slot[RESULT] <= if mutant(165) { 2 } else { 3 } && depth_ok && passes_ok && flags_ok
",
    ),
    edit("cache.rs", "wrong reading 171", "        _ => false,\n", "        _ => mutant(171),\n"),
    edit(
        "cache.rs",
        "wrong reading 170",
        "        let number = if held.overflow { held.required_depth + 1 } else { 0 };\n",
        "        let number = match held.overflow {
            false => 0,
            true if mutant(170) => header.top_depth + 1 - held.required_depth,
            true => held.required_depth + 1,
        };
",
    ),
    // read_book.rs
    edit(
        "read_book.rs",
        "wrong readings",
        "type Fields = [usize; 5];\n",
        "use original::mutant;\n\ntype Fields = [usize; 5];\n",
    ),
    edit(
        "read_book.rs",
        "wrong reading 187",
        "            || bytes.len() > MAX_LINES * LINE\n",
        "            || bytes.len() > MAX_LINES * LINE && !(mutant(187) && bytes.len() == 16_016)\n",
    ),
    edit(
        "read_book.rs",
        "wrong reading 186",
        "        let lines = lines.ok_or(2)?;\n",
        "        let first = read_line(&bytes[..LINE]);
        if mutant(186) && first.is_some_and(|first| read_header(first).is_none()) {
            return Err(3);
        }
        let lines = lines.ok_or(2)?;
",
    ),
    edit(
        "read_book.rs",
        "wrong reading 188",
        "    (line[15] == 10).then_some(fields)\n",
        "    (line[15] == 10 || mutant(188)).then_some(fields)\n",
    ),
    edit(
        "read_book.rs",
        "wrong readings 180, 181",
        "        [] => false,
        [b'0', _, ..] => false,
",
        "        [] => mutant(181),
        [b'0', _, ..] if !mutant(180) => false,
",
    ),
    edit(
        "read_book.rs",
        "wrong readings 182 to 185",
        "        && (1..=64).contains(&goals)
        && top_depth <= 63
        && step_limit <= 99
        && (1..=99).contains(&divisor);
",
        "        && (1..=64).contains(&(goals + usize::from(mutant(182) && goals > 0)))
        && top_depth <= if mutant(183) { 62 } else { 63 }
        && step_limit <= 99
        && (step_limit > 0 || !mutant(184))
        && ((1..=99).contains(&divisor) || mutant(185) && divisor == 0);
",
    ),
    edit(
        "read_book.rs",
        "wrong reading 189",
        "        if reader.next()? != [1, goal, 0, 0, 0] {\n",
        "        let line = reader.next()?;
        if line != [1, goal, 0, 0, 0] && !(mutant(189) && line[0] == 1) {
",
    ),
    edit(
        "read_book.rs",
        "wrong reading 177",
        "    reader.lines.is_empty().then_some(parts)\n",
        "    (reader.lines.is_empty() || mutant(177)).then_some(parts)\n",
    ),
    edit(
        "read_book.rs",
        "wrong readings 172, 173",
        "        if nest > MAX_NEST {\n",
        "        if nest + usize::from(mutant(172)) > MAX_NEST + usize::from(mutant(173)) {\n",
    ),
    edit(
        "read_book.rs",
        "wrong readings 176, 178, 179, 190",
        "            [2, goal, kind, lower, 0] if goal < self.goals && kind <= 3 && lower <= 1 => {\n",
        "            [2, goal, kind, lower, unused]
                if goal < self.goals + usize::from(mutant(190))
                    && kind <= if mutant(178) { 4 } else { 3 }
                    && lower <= if mutant(179) { 2 } else { 1 }
                    && (unused == 0 || mutant(176)) =>
            {
",
    ),
    edit(
        "read_book.rs",
        "wrong reading 175",
        "            [3, count, 0, 0, 0] => Some(Part::All(self.parts(count, nest, in_pick)?)),
            [4, count, 0, 0, 0] => Some(Part::Any(self.parts(count, nest, in_pick)?)),
",
        "            [3, count, 0, 0, 0] => {
                Some(Part::All(self.parts(count, nest, in_pick && !mutant(175))?))
            }
            [4, count, 0, 0, 0] => {
                Some(Part::Any(self.parts(count, nest, in_pick && !mutant(175))?))
            }
",
    ),
    edit(
        "read_book.rs",
        "wrong reading 174",
        "            [5, count, 0, 0, 0] if !in_pick =>",
        "            [5, count, 0, 0, 0] if !in_pick || mutant(174) =>",
    ),
];
