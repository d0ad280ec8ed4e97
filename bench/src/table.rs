//! The table of times, and whether the goals are met.

use crate::engines::{BYTE_FLOOR, ENGINES, FLOOR, FROM_BYTES, LIBRARY, ORIGINAL};
use crate::lists::{CLASSES, Class, LISTS, List, queries};
use crate::rounds::{Rounds, all_agree, median};

/// What each class is.
pub fn classes(made: &[(&Class, Vec<List>)]) {
    println!(
        "| class | what | lists | queries | goal runs a query | most entries, median | bytes of a book |"
    );
    println!("|---|---|---|---|---|---|---|");
    for (class, lists) in made {
        let queries = queries(lists);
        let runs: u64 = lists.iter().map(|list| list.runs).sum();
        let bytes: usize = lists.iter().map(|list| list.case.book.len()).sum();
        let entries = median(lists.iter().map(|list| list.entries as f64).collect());
        println!(
            "| {} | {} | {} | {queries} | {:.0} | {entries:.0} | {} |",
            class.name,
            class.what,
            lists.len(),
            runs as f64 / queries as f64,
            bytes / lists.len()
        );
    }
}

pub fn lists(made: &[(&Class, Vec<List>)]) {
    made.iter().flat_map(|(_, lists)| lists).for_each(|list| print!("{}", list.text()));
}

/// A class's times over all rounds.
struct Row {
    class: &'static str,
    cached: bool,
    rounds: Rounds,
}

impl Row {
    /// The floor is less than a quarter of the library's time.
    fn bound_by_evaluation(&self) -> bool {
        self.rounds.ratio(LIBRARY, FLOOR)[1] > 4.0 && !self.cached
    }

    fn print(&self) {
        let micros = |engine| self.rounds.micros(engine);
        let [least, ratio, most] = self.rounds.ratio(ORIGINAL, LIBRARY);
        println!(
            "| {} | {:.2} | {:.2} | {ratio:.2} ({least:.2}..{most:.2}) | {:.2} | {:.2} | {:.2} | {:.1} | {:.2} | {:.1} | {} |",
            self.class,
            micros(LIBRARY),
            micros(ORIGINAL),
            micros(FROM_BYTES),
            self.rounds.ratio(FROM_BYTES, LIBRARY)[1],
            micros(FLOOR),
            self.rounds.ratio(LIBRARY, FLOOR)[1],
            micros(BYTE_FLOOR),
            self.rounds.ratio(LIBRARY, BYTE_FLOOR)[1],
            self.bound_by(),
        );
    }

    fn bound_by(&self) -> &'static str {
        match (self.cached, self.bound_by_evaluation()) {
            (true, _) => "nothing is evaluated",
            (false, true) => "evaluation",
            (false, false) => "floor",
        }
    }
}

/// Times a query in microseconds, class by class.
pub fn times(made: &[(&'static Class, Vec<List>)], rounds: usize) {
    println!(
        "Microseconds a query; the median of {rounds} rounds, in brackets the least and the most.\n"
    );
    println!(
        "| class | library | original | original / library | original from bytes | from bytes / library | floor | library / floor | byte floor | library / byte floor | bound by |"
    );
    println!("|---|---|---|---|---|---|---|---|---|---|---|");
    let rows = made.iter().map(|(class, lists)| {
        eprintln!("timing {}", class.name);
        let cached = lists.iter().all(List::is_cached);
        let row = Row { class: class.name, cached, rounds: Rounds::of(&ENGINES, lists, rounds) };
        row.print();
        row
    });
    let rows: Vec<Row> = rows.collect();
    if rows.len() == CLASSES.len() {
        noise(&rows);
        goals(&rows);
    }
}

fn noise(rows: &[Row]) {
    let spread = |row: &Row| {
        let [least, _, most] = row.rounds.ratio(ORIGINAL, LIBRARY);
        most / least
    };
    println!(
        "\nThe machine's noise: in the median class the highest main ratio of a round was {:.2} times the lowest.\n",
        median(rows.iter().map(spread).collect())
    );
}

fn goals(rows: &[Row]) {
    let ratio = |row: &&Row| row.rounds.ratio(ORIGINAL, LIBRARY)[1];
    let bound: Vec<&Row> = rows.iter().filter(|row| row.bound_by_evaluation()).collect();
    if let Some(least) = bound.iter().copied().min_by(|a, b| ratio(a).total_cmp(&ratio(b))) {
        let (lowest, middle) = (ratio(&least), median(bound.iter().map(ratio).collect()));
        println!(
            "- Goal: at least as fast as the original in each of the {} classes bound by evaluation. Lowest {lowest:.2} ({}): {}.",
            bound.len(),
            least.class,
            verdict(lowest >= 1.0)
        );
        println!("- Goal: twice as fast in their median. {middle:.2}: {}.", verdict(middle >= 2.0));
    }
    let cached = rows.iter().filter(|row| row.cached);
    for (engine, name) in [(FLOOR, "floor"), (BYTE_FLOOR, "byte floor")] {
        let over = |row: &&Row| row.rounds.ratio(LIBRARY, engine)[1];
        let Some(worst) = cached.clone().max_by(|a, b| over(a).total_cmp(&over(b))) else {
            continue;
        };
        println!(
            "- Goal: a cached query within 3 times the {name}. Highest {:.1} ({}): {}.",
            over(&worst),
            worst.class,
            verdict(over(&worst) <= 3.0)
        );
    }
}

fn verdict(met: bool) -> &'static str {
    if met { "met" } else { "missed" }
}

/// The lists of all classes, or of one.
pub fn made(only: Option<&'static Class>) -> Result<Vec<(&'static Class, Vec<List>)>, String> {
    let wanted = CLASSES.iter().filter(|class| only.is_none_or(|only| only.name == class.name));
    let lists = |class: &'static Class| {
        eprintln!("making the lists of {}", class.name);
        let lists = class.lists();
        if lists.len() < LISTS {
            return Err(format!("{} has {} lists, fewer than {LISTS}", class.name, lists.len()));
        }
        all_agree(&lists).map(|()| (class, lists))
    };
    wanted.map(lists).collect()
}
