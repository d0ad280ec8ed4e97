//! Looks for the small book whose query takes the most goal runs, by random changes that do not make them fewer.

use std::time::Instant;

use oracle_core::Limits;
use oracle_core::arguments::Arguments;
use oracle_core::book::{Book, Header, Part};
use oracle_core::generate::change;
use oracle_core::random::Random;

use crate::lists::List;

/// After so many tries without a worse book a new one is begun.
const PATIENCE: u64 = 5_000;

pub struct Search {
    goals: usize,
    lines: usize,
    provisional_cache: bool,
    /// The most goal runs that are tried.
    limit: u64,
    seed: u64,
    seconds: u64,
    tries: u64,
}

impl Search {
    pub fn read(words: &mut Arguments) -> Result<Search, String> {
        let goals = words.option("--goals")?.unwrap_or(3).clamp(1, 64) as usize;
        let lines = words.option("--lines")?.unwrap_or(16) as usize;
        if lines <= 2 * goals {
            return Err(format!("a book of {goals} goals has at least {} lines", 2 * goals + 1));
        }
        let tries = words.option("--tries")?;
        Ok(Search {
            goals,
            lines,
            provisional_cache: !words.switch("--off"),
            limit: words.option("--limit")?.unwrap_or(1_000_000),
            seed: words.option("--seed")?.unwrap_or(1),
            seconds: words.option("--seconds")?.unwrap_or(if tries.is_some() {
                u64::MAX
            } else {
                60
            }),
            tries: tries.unwrap_or(u64::MAX),
        })
    }

    /// The worst book found, as a case.
    pub fn print(&self) {
        let (mut found, tries) = self.found();
        found.case.name = format!("{}-goals", self.goals);
        found.case = found.case.answered(Limits::default());
        let off = if self.provisional_cache { "" } else { " --off" };
        println!(
            "# The book of {} goals and at most {} lines that took the most goal runs: {}.",
            self.goals, self.lines, found.runs
        );
        println!(
            "# Made by: bench/run search --goals {} --lines {}{off} --seed {} --limit {} --tries {tries}",
            self.goals, self.lines, self.seed, self.limit
        );
        print!("{}", found.text());
    }

    /// The worst book, and after how many tries it was found.
    fn found(&self) -> (List, u64) {
        let (start, mut r) = (Instant::now(), Random::new(self.seed));
        let mut best = (self.first(), 0);
        let (mut here, mut top, mut top_at) = (self.first(), 0, 0);
        for tries in 1..=self.tries {
            if start.elapsed().as_secs() >= self.seconds {
                break;
            }
            if tries - top_at > PATIENCE {
                (here, top, top_at) = (self.first(), 0, tries);
            }
            let Some(next) = self.changed(&mut r, &here) else { continue };
            if next.runs > best.0.runs {
                eprintln!("{} goal runs after {tries} tries", next.runs);
                best = (next.clone(), tries);
            }
            if next.runs > top {
                (top, top_at) = (next.runs, tries);
            }
            // now and then a step down, which may lead up elsewhere
            if next.runs >= here.runs || (r.chance(2) && next.runs * 10 >= here.runs * 7) {
                here = next;
            }
        }
        best
    }

    /// A book of goals that nothing makes.
    fn first(&self) -> List {
        let Search { goals, provisional_cache, .. } = *self;
        let header = Header { provisional_cache, goals, top_depth: 63, step_limit: 99, divisor: 1 };
        let book = Book { header, parts: vec![Part::Any(vec![]); goals] };
        List::of_book(&book, self.limit).expect("an accepted query")
    }

    /// A changed book that is still small and good.
    fn changed(&self, r: &mut Random, from: &List) -> Option<List> {
        let before = Book::read(&from.case.book).expect("a good book");
        let header = header(r, before.header);
        let book = Book { header, ..change::book(r, &before) };
        let fits = book.lines() <= self.lines && Book::read(&book.to_bytes()).is_ok();
        fits.then(|| List::of_book(&book, self.limit)).flatten()
    }
}

/// The header, now and then with one of its limits changed.
fn header(r: &mut Random, header: Header) -> Header {
    match r.below(20) {
        0 => Header { top_depth: r.choose(&[1, 2, 3, 4, 5, 6, 8, 63]), ..header },
        1 => Header { step_limit: r.choose(&[1, 2, 3, 4, 8, 99]), ..header },
        2 => Header { divisor: r.choose(&[1, 2, 3]), ..header },
        _ => header,
    }
}
