//! Hunts cases that tell wrong readings from the right one, makes them small, and keeps few of
//! them so that each reading that was caught is caught by a kept case.

mod cover;
mod near;

use std::panic::{AssertUnwindSafe, catch_unwind};
use std::time::{Duration, Instant};

use crate::book::Book;
use crate::case::{Case, Expected};
use crate::generate::class_named;
use crate::reply::{Limits, Outcome, reply_within};
use crate::{read_wrongly, recorded, shrink};

/// Goal runs of a query: the most of the right reading, and what a wrong one may take.
const FUEL: u64 = 400;
const WRONG_FUEL: u64 = 4_000;

/// So many different cases are looked for and made small for each reading.
const WITNESSES: usize = 12;

/// Larger cases are passed over: to make them small would take long.
const LONGEST_BOOK: usize = 60 * 16;
const LONGEST_CACHE: usize = 2_000;

/// Cases of each class in a round.
const ROUND: u64 = 20;

/// Good books and a cache of zeros.
const HONEST: &[&str] = &[
    "tiny",
    "examples",
    "knots",
    "random",
    "rings",
    "tangled",
    "picks",
    "nested",
    "overflow",
    "uncached",
    "many-entries",
    "extremes",
    "only-inductive",
    "only-coinductive",
    "no-coinductive",
    "no-inductive",
    "groups",
];

/// Classes, and whether a reading must show without refusals 10 and 11. A later group serves only
/// for readings that the earlier ones do not catch.
const GROUPS: [(&[&str], bool); 4] = [
    (HONEST, true),
    (HONEST, false),
    (&["damaged-book", "bad-query"], false),
    (&["made-cache", "changed-cache", "reruns", "refusals-race", "damaged-cache"], false),
];

#[derive(Clone, Copy, Debug)]
pub struct Extent {
    pub rounds: u64,
    pub time: Duration,
    pub seed: u64,
}

/// How a wrong reading shows.
#[derive(Clone, Copy, Debug, PartialEq, Eq)]
pub enum Shows {
    /// By an answer, a refusal or a cache.
    Differs,
    Panics,
    /// It takes more than ten times the goal runs that the right reading may take.
    NeverEnds,
}

#[derive(Clone, Debug)]
pub struct Hunted {
    pub case: Case,
    pub catches: Vec<(u32, Shows)>,
}

#[derive(Clone, Debug, Default)]
pub struct Catch {
    pub kept: Vec<Hunted>,
    pub not_caught: Vec<u32>,
    /// How many cases were tried.
    pub tried: u64,
}

/// What the right reading replies, and its goal runs; none if it takes too long.
fn right_replies(case: &Case) -> Option<(Vec<Expected>, u64)> {
    read_wrongly(0);
    let (mut cache, mut runs, mut replies) = (case.cache.clone(), 0, Vec::new());
    for query in &case.queries {
        let (reply, goal_runs, _) = one_reply(case, query, &mut cache, FUEL);
        replies.push(reply?);
        runs += goal_runs;
    }
    Some((replies, runs))
}

/// The reply, the goal runs and the most entries.
fn one_reply(
    case: &Case,
    query: &crate::case::Query,
    cache: &mut [u8],
    fuel: u64,
) -> (Option<Expected>, u64, usize) {
    let before = cache.to_vec();
    let limits = Limits { fuel, ..Limits::default() };
    let mut work = vec![0xaa; query.work_len];
    let mut run = || reply_within(limits, &case.book, cache, &mut work, query.goal, query.depth);
    // A wrong reading can panic outside of the evaluation too.
    let Ok(report) = catch_unwind(AssertUnwindSafe(&mut run)) else {
        return (Some(Expected::Panic), 0, 0);
    };
    let reply = match report.outcome {
        Outcome::Replied { answer, refusal } => {
            let cache = (*cache != *before).then(|| cache.to_vec());
            Some(Expected::Reply { answer, refusal, cache })
        }
        Outcome::TooLong => None,
        Outcome::Panicked | Outcome::FrameIsWrong(_) => Some(Expected::Panic),
    };
    (reply, report.goal_runs, report.high_water)
}

/// How the wrong reading shows in a case, if it does, and whether refusals 10 and 11 have no
/// part in it; `right` is what the right reading replies.
fn shows(case: &Case, right: &[Expected], reading: u32) -> Option<(Shows, bool)> {
    read_wrongly(reading);
    let mut cache = case.cache.clone();
    let mut found = None;
    for (query, right) in case.queries.iter().zip(right) {
        let wrong = one_reply(case, query, &mut cache, WRONG_FUEL).0;
        let plainly = !late_refusal(right) && !wrong.as_ref().is_some_and(late_refusal);
        found = match wrong {
            None => Some((Shows::NeverEnds, plainly)),
            Some(Expected::Panic) => Some((Shows::Panics, plainly)),
            Some(reply) => (reply != *right).then_some((Shows::Differs, plainly)),
        };
        if found.is_some() {
            break;
        }
    }
    read_wrongly(0);
    found
}

fn late_refusal(reply: &Expected) -> bool {
    matches!(reply, Expected::Reply { refusal: 10 | 11, .. })
}

/// How the case shows the reading; none if the right reading panics or takes too long.
pub fn catches(case: &Case, reading: u32) -> Option<Shows> {
    caught(case, reading).map(|(shows, _)| shows)
}

fn caught(case: &Case, reading: u32) -> Option<(Shows, bool)> {
    let (right, _) = right_replies(case)?;
    if right.contains(&Expected::Panic) {
        return None;
    }
    shows(case, &right, reading)
}

/// What a case costs to read and to compute: lines, queries, goal runs, cache bytes.
pub fn cost(case: &Case) -> u64 {
    let runs = right_replies(case).map_or(FUEL, |(_, runs)| runs);
    let goals = Book::read(&case.book).map_or(1, |book| book.header.goals);
    let cache = case.cache.len() as u64;
    let held = case.cache.iter().filter(|b| **b != 0).count() as u64;
    let extra = if goals > 4 || cache > 300 { 40 } else { 0 };
    8 + case.book.len() as u64 / 16
        + 4 * case.queries.len() as u64
        + runs
        + cache / 16
        + held
        + extra
}

/// Hunts the readings given, by one means after the other; each serves only for what those
/// before it do not catch.
pub fn hunt(extent: Extent, readings: &[u32]) -> Catch {
    let start = Instant::now();
    let mut out = Catch { not_caught: readings.to_vec(), ..Catch::default() };
    for group in GROUPS {
        let (cases, tried) = hunt_in(group, extent, start, &out.not_caught);
        out.keep(&cases, tried);
    }
    let (cases, tried) = hunt_in_recorded(&out.not_caught);
    out.keep(&cases, tried);
    let (cases, tried) = near::hunt(extent, start, &out.not_caught, WITNESSES);
    out.keep(&cases, tried);
    for kept in &mut out.kept {
        kept.catches = caught_by(&kept.case, readings);
    }
    out
}

impl Catch {
    /// Keeps few of the cases, so that what they catch is caught.
    fn keep(&mut self, cases: &[Case], tried: u64) {
        self.tried += tried;
        self.kept.extend(cover::cover(cases, &self.not_caught));
        let caught = |n: &u32| self.kept.iter().any(|k| k.catches.iter().any(|(m, _)| m == n));
        self.not_caught.retain(|n| !caught(n));
    }
}

/// Cases of the recorded files, made small where they are not large.
fn hunt_in_recorded(readings: &[u32]) -> (Vec<Case>, u64) {
    let files = recorded::FILES.iter().filter(|(name, _)| *name != "random");
    let cases: Vec<Case> = files.filter_map(|(name, _)| recorded::cases(name)).flatten().collect();
    let (mut found, tried) = (Vec::new(), cases.len() as u64);
    for mut case in cases {
        case.queries.iter_mut().for_each(|query| query.expected = None);
        for reading in readings.iter().filter(|n| catches(&case, **n).is_some()) {
            let small = if case.book.len() <= LONGEST_BOOK {
                shrink::shrink(&case, &|c| catches(c, *reading).is_some())
            } else {
                case.clone()
            };
            found.push(Case { name: format!("r{reading}-{}", case.name), ..small });
        }
    }
    (found, tried)
}

fn caught_by(case: &Case, readings: &[u32]) -> Vec<(u32, Shows)> {
    let Some((right, _)) = right_replies(case) else { return vec![] };
    readings.iter().filter_map(|n| Some((*n, shows(case, &right, *n)?.0))).collect()
}

/// Small cases from the classes of a group, up to `WITNESSES` for each reading.
fn hunt_in(
    (group, plainly): (&[&str], bool),
    extent: Extent,
    start: Instant,
    readings: &[u32],
) -> (Vec<Case>, u64) {
    let mut wanted: Vec<(u32, usize)> = readings.iter().map(|n| (*n, WITNESSES)).collect();
    let (mut found, mut tried) = (Vec::new(), 0);
    for round in 0..extent.rounds {
        for class in group.iter().map(|name| class_named(name).expect("a class")) {
            for number in round * ROUND..(round + 1) * ROUND {
                tried += 1;
                try_case(&class.case(extent.seed, number), plainly, &mut wanted, &mut found);
            }
        }
        wanted.retain(|(_, count)| *count > 0);
        if wanted.is_empty() || start.elapsed() > extent.time {
            break;
        }
    }
    (found, tried)
}

fn try_case(case: &Case, plainly: bool, wanted: &mut [(u32, usize)], found: &mut Vec<Case>) {
    if case.book.len() > LONGEST_BOOK || case.cache.len() > LONGEST_CACHE {
        return;
    }
    let Some((right, _)) = right_replies(case) else { return };
    if right.contains(&Expected::Panic) {
        return;
    }
    let is_good = |shown: Option<(Shows, bool)>| shown.is_some_and(|(_, plain)| plain || !plainly);
    for (reading, count) in wanted.iter_mut().filter(|(_, count)| *count > 0) {
        if is_good(shows(case, &right, *reading)) {
            let mut small = shrink::shrink(case, &|c| is_good(caught(c, *reading)));
            small.name = format!("h{reading}-{}", case.name);
            *count -= 1;
            found.push(small);
        }
    }
}

/// The case with its replies, as the right reading gives them.
pub fn answered(case: &Case) -> Case {
    read_wrongly(0);
    case.answered(Limits { fuel: FUEL, ..Limits::default() })
}
