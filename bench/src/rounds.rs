//! Rounds: every engine in turn, again and again, on the same lists.

use crate::engines::{ENGINES, Engine, agree};
use crate::lists::{List, queries};

/// A round of one engine takes at least so many nanoseconds.
const ROUND: u64 = 2_000_000;

/// Nanoseconds a query: for each round, for each engine.
pub struct Rounds(Vec<Vec<f64>>);

impl Rounds {
    pub fn of(engines: &[Engine], lists: &[List], rounds: usize) -> Rounds {
        let queries = queries(lists);
        let times: Vec<usize> = engines.iter().map(|engine| enough(lists, engine)).collect();
        let each = |(engine, times): (&Engine, &usize)| {
            run(lists, engine, *times) as f64 / (times * queries) as f64
        };
        Rounds((0..rounds).map(|_| engines.iter().zip(&times).map(each).collect()).collect())
    }

    /// The median over the rounds, in microseconds.
    pub fn micros(&self, engine: usize) -> f64 {
        median(self.0.iter().map(|round| round[engine] / 1000.0).collect())
    }

    /// Least, median and most over the rounds of one engine's time over another's.
    pub fn ratio(&self, engine: usize, other: usize) -> [f64; 3] {
        let ratios: Vec<f64> = self.0.iter().map(|round| round[engine] / round[other]).collect();
        let least = ratios.iter().copied().fold(f64::INFINITY, f64::min);
        let most = ratios.iter().copied().fold(0.0, f64::max);
        [least, median(ratios), most]
    }
}

/// One list by itself. Times mean nothing where the engines do not do the same.
pub fn measured(list: List, rounds: usize) -> Result<(List, Rounds), String> {
    all_agree(std::slice::from_ref(&list))?;
    let rounds = Rounds::of(&ENGINES, std::slice::from_ref(&list), rounds);
    Ok((list, rounds))
}

/// Whether library and original answer all lists alike; else the first that tells them apart.
pub fn all_agree(lists: &[List]) -> Result<(), String> {
    match lists.iter().find(|list| !agree(list)) {
        Some(list) => Err(format!("library and original differ on this list:\n{}", list.text())),
        None => Ok(()),
    }
}

fn run(lists: &[List], engine: &Engine, times: usize) -> u64 {
    lists.iter().map(|list| (engine.run)(list, times)).sum()
}

/// How often an engine has to run the lists in a round.
fn enough(lists: &[List], engine: &Engine) -> usize {
    let powers = (0..20).map(|power| 1 << power);
    powers.into_iter().find(|&times| run(lists, engine, times) >= ROUND).unwrap_or(1 << 20)
}

/// The one in the middle, or the mean of the two there.
pub fn median(mut values: Vec<f64>) -> f64 {
    values.sort_by(f64::total_cmp);
    let (lower, upper) = ((values.len() - 1) / 2, values.len() / 2);
    (values[lower] + values[upper]) / 2.0
}
