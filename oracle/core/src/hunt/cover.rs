//! A small set of cases that catches all that the given ones catch.

use super::{Hunted, caught_by, cost};
use crate::case::Case;

struct Candidate {
    hunted: Hunted,
    cost: u64,
}

impl Candidate {
    fn caught(&self) -> impl Iterator<Item = u32> + '_ {
        self.hunted.catches.iter().map(|(reading, _)| *reading)
    }
}

/// Takes the case that catches most readings for its cost, again and again; then leaves out what
/// the others make needless, dear ones first.
pub fn cover(cases: &[Case], readings: &[u32]) -> Vec<Hunted> {
    let mut candidates = candidates(cases, readings);
    let mut left = readings.to_vec();
    let mut kept: Vec<Candidate> = Vec::new();
    while let Some(best) = best(&candidates, &left) {
        let taken = candidates.swap_remove(best);
        left.retain(|n| !taken.caught().any(|caught| caught == *n));
        kept.push(taken);
    }
    kept.sort_by_key(|c| std::cmp::Reverse(c.cost));
    let mut i = 0;
    while i < kept.len() {
        if needless(&kept, i) {
            kept.remove(i);
        } else {
            i += 1;
        }
    }
    kept.sort_by_key(|c| (c.cost, c.hunted.case.name.clone()));
    kept.into_iter().map(|c| c.hunted).collect()
}

fn candidates(cases: &[Case], readings: &[u32]) -> Vec<Candidate> {
    let mut out: Vec<Candidate> = Vec::new();
    for case in cases {
        let same = |c: &Candidate| {
            let known = &c.hunted.case;
            known.book == case.book && known.cache == case.cache && known.queries == case.queries
        };
        if !out.iter().any(same) {
            let hunted = Hunted { case: case.clone(), catches: caught_by(case, readings) };
            out.push(Candidate { cost: cost(case), hunted });
        }
    }
    out
}

/// The candidate with the most new readings for its cost.
fn best(candidates: &[Candidate], left: &[u32]) -> Option<usize> {
    let worth = |c: &Candidate| {
        let new = c.caught().filter(|n| left.contains(n)).count();
        (new > 0).then(|| new as f64 / c.cost as f64)
    };
    let worths = candidates.iter().enumerate().filter_map(|(i, c)| Some((i, worth(c)?)));
    worths.max_by(|a, b| a.1.total_cmp(&b.1)).map(|(i, _)| i)
}

fn needless(kept: &[Candidate], i: usize) -> bool {
    kept[i]
        .caught()
        .all(|n| kept.iter().enumerate().any(|(j, other)| j != i && other.caught().any(|m| m == n)))
}
