//! What makes a run fail, in words: what must never be, and classes that gave less than they should.

use oracle_core::judge::too_long;

use crate::passes::KINDS;
use crate::tally::Tally;
use crate::tidy;

/// From so many cases on, a class is judged by its floors; fewer tell too little.
pub const ENOUGH: u64 = 1_000;

/// What a class must give at least, in every `ENOUGH` cases.
struct Floors {
    class: &'static str,
    compared: u64,
    /// No, Yes, undecided, overflow.
    answers: [u64; 4],
    /// Refusals 1 to 11.
    refusals: [u64; 11],
}

const fn floors(
    class: &'static str,
    compared: u64,
    answers: [u64; 4],
    refusals: [u64; 11],
) -> Floors {
    Floors { class, compared, answers, refusals }
}

/// Half of the least that any of the seeds 1 to 40 gave; 0 where that was below 10.
#[rustfmt::skip]
const FLOORS: &[Floors] = &[
    floors("examples",          500, [ 77,  180,  46,  76], [  0,   0,  0,   0,   0,   0,   0,    0,   0, 21,  21]),
    floors("tiny",             1600, [250,  290, 280, 680], [  0,   0,  0,   0,  24,  12,   0,    0,  12,  0,   0]),
    floors("random",           1600, [260,  340, 300, 530], [  0,   0,  0,   0,  27,  12,   0,    0,  12,  0,   0]),
    floors("rings",            1700, [200,  550, 240, 460], [  0,   0,  0,   0,  27,  10,   0,    0,  12,  0,   0]),
    floors("tangled",          1600, [340,  520, 320, 280], [  0,   0,  0,   0,  28,  12,   0,    0,  11,  5,   0]),
    floors("picks",            1600, [230,  560, 240, 410], [  0,   0,  0,   0,  26,  12,   0,    0,  10,  0,   0]),
    floors("knots",            1700, [430,  610,  99, 340], [  0,   0,  0,   0,  28,  12,   0,    0,  10,  0,   0]),
    floors("nested",           1600, [290,  360, 360, 450], [  0,   0,  0,   0,  28,  12,   0,    0,  12,  0,   0]),
    floors("overflow",         1600, [180,  260, 250, 770], [  0,   0,  0,   0,  25,  12,   0,    0,  11,  0,   0]),
    floors("uncached",         1600, [280,  460, 290, 440], [  0,   0,  0,   0,  28,   9,   0,    0,  12,  0,   0]),
    floors("many-entries",     1600, [150,  730, 240, 300], [  0,   0,  0,   0,  27,  12,   0,    0,  13, 59,   0]),
    floors("large",            1700, [200,  270, 280, 780], [  0,   0,  0,   0,  27,  11,   0,    0,  10,  0,   0]),
    floors("deep",             1600, [220,  550, 270, 420], [  0,   0,  0,   0,  27,  13,   0,    0,  12,  0,   0]),
    floors("closing",          1700, [ 70,  670, 320, 410], [  0,   0,  0,   0,  24,  11,   0,    0,  11,  0,   0]),
    floors("long",             1600, [530,  570, 120, 250], [  0,   0,  0,   0,  28,   9,   0,    0,  12, 39,   0]),
    floors("extremes",         1600, [210,  360, 230, 690], [  0,   0,  0,   0,  25,   9,   0,    0,  12,  0,   0]),
    floors("only-inductive",   1600, [970,  190,  76, 250], [  0,   0,  0,   0,  27,  13,   0,    0,  12,  0,   0]),
    floors("only-coinductive", 1600, [120, 1100,  52, 210], [  0,   0,  0,   0,  26,  12,   0,    0,  11,  0,   0]),
    floors("no-coinductive",   1700, [540,  190, 320, 370], [  0,   0,  0,   0,  27,  11,   0,    0,  11,  0,   0]),
    floors("no-inductive",     1700, [130,  840, 200, 360], [  0,   0,  0,   0,  26,  11,   0,    0,  13,  0,   0]),
    floors("groups",           1600, [320,  420, 320, 400], [  0,   0,  0,   0,  28,  11,   0,    0,  14,  0,   0]),
    floors("mixed",            1700, [270,  630, 270, 320], [  0,   0,  0,   0,  25,  12,   0,    0,  10,  0,   0]),
    floors("drafts",           1200, [200,  330, 190, 310], [  0,   0,  0,   0,  17,   7,   0,    0,   7,  0,  10]),
    floors("bad-query",        1900, [ 88,  150,  98, 170], [  0,   0,  0,   0, 570, 270, 230,    0, 200,  0,   0]),
    floors("damaged-book",     1000, [ 20,   22,  23,  35], [160, 120, 70, 370,   0,   0,   0,    0,   0,  0,   0]),
    floors("made-cache",       1200, [270,  350, 190, 250], [  0,   0,  0,   0,   7,   0,   0,    0,   0,  0,   9]),
    floors("changed-cache",    1200, [200,  330, 220, 320], [  0,   0,  0,   0,   6,   0,   0,    0,   0,  0,  16]),
    floors("reruns",           1500, [550,    8, 310, 400], [  0,   0,  0,   0,   0,   0,   0,    0,   0,  0, 100]),
    floors("refusals-race",    1500, [120,  510, 150, 210], [  0,   0,  0,   0,   0,   0,   0,    0,   0, 65, 280]),
    floors("damaged-cache",    1200, [ 29,   21,  12,  22], [  0,   0,  0,   0,   9,   0,   0, 1000,   0,  0,   0]),
];

/// What may not be in any run. `lengths` counts wrong results of the two functions for lengths.
pub fn never(all: &Tally, lengths: u64) -> Vec<String> {
    let none = [
        (all.differences, "queries that library and original answer differently"),
        (lengths, "lengths that the library computes wrongly"),
        (all.wrong_guarantees, "guarantees that the library tells wrongly"),
        (all.wrong_tidied, "books that the library tidies otherwise"),
        (all.wrong_on_tidied, "queries that a tidy book answers otherwise than its draft"),
        (all.panics, "panics of the original"),
        (all.frames, "frames of the original out of order"),
    ];
    let seen = none.into_iter().filter(|(count, _)| *count > 0);
    let mut found: Vec<String> = seen.map(|(count, what)| format!("{count} {what}")).collect();
    found.extend(too_long(all.too_long, all.asked()));
    if all.compared == 0 {
        found.push("nothing was compared".to_string());
    }
    found
}

/// Guarantees given, broken, and books refused, in every `ENOUGH` cases of all classes: at most half of the least that
/// any of the seeds 1 to 8 gave.
const GUARANTEES: [u64; 3] = [10_000, 2_000, 400];

/// Where all classes together gave too few.
pub fn too_few_guarantees(cases: u64, all: &Tally) -> Vec<String> {
    let least = GUARANTEES.map(|floor| floor * cases / ENOUGH);
    let seen = all.guarantees;
    if seen.iter().zip(&least).all(|(seen, least)| seen >= least) {
        return vec![];
    }
    vec![format!("guarantees given, broken, refused: {seen:?}, fewer than {least:?}")]
}

/// The fewest provisional entries that must have been live at once in some query of all classes: half of the 2 G that may be.
const ENTRIES: usize = 64;

/// Where all classes together never had so many.
pub fn too_few_entries(all: &Tally) -> Vec<String> {
    if all.entries >= ENTRIES {
        return vec![];
    }
    vec![format!("never more than {} entries live at once, fewer than {ENTRIES}", all.entries)]
}

/// Of each of `KINDS`, in every `ENOUGH` cases of all classes: at most half of the least that any of the seeds 1 to 8
/// gave.
const PASSES: [u64; KINDS.len()] = [2_500, 180, 95, 23, 45];

/// Where all classes together gave too few.
pub fn too_few_passes(cases: u64, all: &Tally) -> Vec<String> {
    let few = too_few(cases, &KINDS, &all.passes, &PASSES);
    few.map(|(kind, seen, least)| format!("passes {kind}: {seen} queries, fewer than {least}"))
        .collect()
}

/// Of each of `tidy::KINDS`, in every `ENOUGH` cases of all classes: half of the least that any of the seeds 1 to 8
/// gave, rounded down.
const TIDIED: [u64; tidy::KINDS.len()] =
    [3_500, 7_800, 95, 65, 35, 180, 3_100, 42_000, 43_000, 32_000, 26_000];

/// Where all classes together gave too few.
pub fn too_few_tidied(cases: u64, all: &Tally) -> Vec<String> {
    let few = too_few(cases, &tidy::KINDS, &all.tidied, &TIDIED);
    few.map(|(kind, seen, least)| format!("tidied, {kind}: {seen}, fewer than {least}")).collect()
}

/// Kinds that were seen too seldom, how often they were, and how often they should be.
fn too_few<'a>(
    cases: u64,
    kinds: &'a [&str],
    seen: &'a [u64],
    floors: &'a [u64],
) -> impl Iterator<Item = (&'a str, u64, u64)> {
    let each = kinds.iter().zip(seen).zip(floors);
    let each = each.map(move |((kind, seen), floor)| (*kind, *seen, floor * cases / ENOUGH));
    each.filter(|(_, seen, least)| seen < least)
}

/// Drafts that tidying changes, in every `ENOUGH` cases of their class: half of the least that any of the seeds 1 to 40
/// gave, rounded down.
const CHANGED_DRAFTS: u64 = 330;

/// Where a class is below its floors after so many cases.
pub fn below_floors(class: &str, cases: u64, tally: &Tally) -> Vec<String> {
    match FLOORS.iter().find(|floors| floors.class == class) {
        Some(floors) => floors.missed(cases, tally),
        None => vec![format!("{class} has no floors")],
    }
}

impl Floors {
    fn changed(&self) -> u64 {
        if self.class == "drafts" { CHANGED_DRAFTS } else { 0 }
    }

    /// The floors that the class does not reach.
    fn missed(&self, cases: u64, tally: &Tally) -> Vec<String> {
        let mut found = Vec::new();
        let mut at_least = |floor: u64, seen: u64, what: &str| {
            let least = floor * cases / ENOUGH;
            if seen < least {
                let class = self.class;
                found.push(format!("{class}: {what}: {seen} in {cases} cases, fewer than {least}"));
            }
        };
        at_least(self.compared, tally.compared, "queries compared");
        at_least(self.changed(), tally.tidied[tidy::CHANGED], "books changed");
        for (answer, name) in ["No", "Yes", "undecided", "overflow"].iter().enumerate() {
            at_least(self.answers[answer], tally.answers[answer], name);
        }
        for number in 1..=11 {
            let floor = self.refusals[number - 1];
            at_least(floor, tally.refusals[number], &format!("refusal {number}"));
        }
        found
    }
}

#[cfg(test)]
mod tests {
    use oracle_core::generate::CLASSES;

    use super::*;

    /// Just what the floors ask for in so many cases.
    fn just_enough(floors: &Floors, cases: u64) -> Tally {
        let scaled = |floor: u64| floor * cases / ENOUGH;
        let mut tally = Tally { compared: scaled(floors.compared), ..Tally::default() };
        tally.answers = floors.answers.map(scaled);
        tally.tidied[tidy::CHANGED] = scaled(floors.changed());
        (1..=11).for_each(|i| tally.refusals[i] = scaled(floors.refusals[i - 1]));
        tally
    }

    #[test]
    fn every_class_has_floors() {
        let classes: Vec<&str> = CLASSES.iter().map(|class| class.name).collect();
        let floors: Vec<&str> = FLOORS.iter().map(|floors| floors.class).collect();
        assert_eq!(classes, floors);
        assert_eq!(below_floors("new", ENOUGH, &Tally::default()), ["new has no floors"]);
    }

    #[test]
    fn every_answer_and_refusal_has_a_floor_somewhere() {
        let asked = |of: &dyn Fn(&Floors) -> u64| FLOORS.iter().any(|floors| of(floors) > 0);
        assert!((0..4).all(|i| asked(&|floors| floors.answers[i])));
        assert!((0..11).all(|i| asked(&|floors| floors.refusals[i])));
        assert!(asked(&Floors::changed));
        assert!(FLOORS.iter().all(|f| f.compared > 0 && f.answers[0] > 0 && f.answers[1] > 0));
    }

    /// One fewer of anything that has a floor is told, and by its name.
    #[test]
    fn one_fewer_is_too_few() {
        for (floors, cases) in FLOORS.iter().zip([ENOUGH, 3 * ENOUGH].into_iter().cycle()) {
            let enough = just_enough(floors, cases);
            assert!(below_floors(floors.class, cases, &enough).is_empty());
            let told = |change: &dyn Fn(&mut Tally), name: String| {
                let mut tally = enough.clone();
                change(&mut tally);
                let found = below_floors(floors.class, cases, &tally);
                assert!(found.len() == 1 && found[0].contains(&name), "{found:?}");
            };
            told(&|tally| tally.compared -= 1, "queries compared".into());
            if floors.changed() > 0 {
                told(&|tally| tally.tidied[tidy::CHANGED] -= 1, "books changed".into());
            }
            for (i, name) in ["No", "Yes", "undecided", "overflow"].into_iter().enumerate() {
                told(&|tally| tally.answers[i] -= 1, format!(" {name}: "));
            }
            for i in (1..=11).filter(|i| floors.refusals[i - 1] > 0) {
                told(&|tally| tally.refusals[i] -= 1, format!(" refusal {i}: "));
            }
        }
    }

    #[test]
    fn one_guarantee_fewer_is_too_few() {
        let enough = Tally { guarantees: GUARANTEES.map(|n| 2 * n), ..Tally::default() };
        assert!(too_few_guarantees(2 * ENOUGH, &enough).is_empty());
        for i in 0..3 {
            let mut tally = enough.clone();
            tally.guarantees[i] -= 1;
            assert_eq!(too_few_guarantees(2 * ENOUGH, &tally).len(), 1);
        }
    }

    #[test]
    fn one_query_with_passes_fewer_is_too_few() {
        let enough = Tally { passes: PASSES.map(|n| 2 * n), ..Tally::default() };
        assert!(too_few_passes(2 * ENOUGH, &enough).is_empty());
        for (i, kind) in KINDS.iter().enumerate() {
            let mut tally = enough.clone();
            tally.passes[i] -= 1;
            let found = too_few_passes(2 * ENOUGH, &tally);
            assert!(found.len() == 1 && found[0].contains(kind), "{found:?}");
        }
    }

    #[test]
    fn one_tidied_fewer_is_too_few() {
        let enough = Tally { tidied: TIDIED.map(|n| 2 * n), ..Tally::default() };
        assert!(too_few_tidied(2 * ENOUGH, &enough).is_empty());
        for (i, kind) in tidy::KINDS.iter().enumerate() {
            let mut tally = enough.clone();
            tally.tidied[i] -= 1;
            let found = too_few_tidied(2 * ENOUGH, &tally);
            assert!(found.len() == 1 && found[0].contains(kind), "{found:?}");
        }
    }

    #[test]
    fn one_entry_fewer_is_too_few() {
        let most = |entries| Tally { entries, ..Tally::default() };
        assert!(too_few_entries(&most(ENTRIES)).is_empty());
        assert_eq!(too_few_entries(&most(ENTRIES - 1)).len(), 1);
    }

    #[test]
    fn what_may_never_be() {
        let good = Tally { compared: 198, too_long: 2, ..Tally::default() };
        assert!(never(&good, 0).is_empty());
        let said = |tally: Tally, lengths| never(&tally, lengths).join("; ");
        let differs = Tally { differences: 1, ..good.clone() };
        assert_eq!(said(differs, 0), "1 queries that library and original answer differently");
        assert_eq!(said(good.clone(), 2), "2 lengths that the library computes wrongly");
        let told = Tally { wrong_guarantees: 1, ..good.clone() };
        assert_eq!(said(told, 0), "1 guarantees that the library tells wrongly");
        let tidied = Tally { wrong_tidied: 1, ..good.clone() };
        assert_eq!(said(tidied, 0), "1 books that the library tidies otherwise");
        let on_tidied = Tally { wrong_on_tidied: 1, ..good.clone() };
        let otherwise = "1 queries that a tidy book answers otherwise than its draft";
        assert_eq!(said(on_tidied, 0), otherwise);
        assert_eq!(said(Tally { panics: 1, ..good.clone() }, 0), "1 panics of the original");
        let frame = Tally { frames: 1, ..good.clone() };
        assert_eq!(said(frame, 0), "1 frames of the original out of order");
        let long = Tally { too_long: 3, ..good };
        assert_eq!(said(long, 0), "3 of 201 queries too long, more than one in a hundred");
        assert_eq!(said(Tally::default(), 0), "nothing was compared");
    }
}
