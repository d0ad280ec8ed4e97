//! The proved library and the original on the same lists of queries, in one process.

mod count;
mod engines;
mod lists;
mod rounds;
mod scaling;
mod search;
mod shapes;
mod table;
mod tidy;
mod worst;

use std::process::ExitCode;

use oracle_core::arguments::Arguments;

type Task = Box<dyn FnOnce() -> Result<(), String>>;

/// What the words ask for; bench/run tells them.
fn task() -> Result<Task, String> {
    let mut words = Arguments::new();
    let rounds = words.option("--rounds")?.unwrap_or(21).max(1) as usize;
    let only = words.option_word("--class")?;
    let only =
        only.map(|name| lists::class(&name).ok_or(format!("no class {name:?}"))).transpose()?;
    let task: Task = match words.next().as_deref() {
        None | Some("times") => Box::new(move || Ok(table::times(&table::made(only)?, rounds))),
        Some("count") => Box::new(move || count::table(&table::made(only)?)),
        Some("rebasing") => Box::new(move || count::rebasing(&table::made(only)?)),
        Some("scaling") => Box::new(move || scaling::tables(rounds)),
        Some("worst") => Box::new(move || worst::table(rounds)),
        Some("tidy") => Box::new(move || tidy::table(rounds)),
        Some("report") => Box::new(move || report(rounds)),
        Some("classes") => Box::new(move || Ok(table::classes(&table::made(only)?))),
        Some("lists") => Box::new(move || Ok(table::lists(&table::made(only)?))),
        Some("search") => {
            let search = search::Search::read(&mut words)?;
            Box::new(move || Ok(search.print()))
        }
        Some("run") => {
            let run = count::Run::read(&mut words)?;
            Box::new(move || run.run())
        }
        Some(other) => return Err(format!("no command {other:?}")),
    };
    words.end()?;
    Ok(task)
}

/// All tables, as docs/speed.md holds them.
fn report(rounds: usize) -> Result<(), String> {
    let made = table::made(None)?;
    println!("Measured on {}.\n\n## The classes\n", processor());
    table::classes(&made);
    println!("\n## Times\n");
    table::times(&made, rounds);
    println!("\n## Instructions\n");
    count::table(&made)?;
    println!("\n## Rebasing\n");
    count::rebasing(&made)?;
    println!("\n## Scaling\n");
    scaling::tables(rounds)?;
    println!("\n## The worst small books\n");
    worst::table(rounds)?;
    println!("\n## Tidying\n");
    tidy::table(rounds)
}

fn processor() -> String {
    let told = std::fs::read_to_string("/proc/cpuinfo").unwrap_or_default();
    let name = told.lines().find_map(|line| line.strip_prefix("model name")?.split_once(':'));
    name.map_or("a processor without a name".into(), |(_, name)| name.trim().into())
}

fn main() -> ExitCode {
    let task = match task() {
        Ok(task) => task,
        Err(wrong) => {
            eprintln!("bench/run: {wrong}; `bench/run --help` tells more");
            return ExitCode::from(2);
        }
    };
    match task() {
        Ok(()) => ExitCode::SUCCESS,
        Err(wrong) => {
            eprintln!("bench/run: {wrong}");
            ExitCode::FAILURE
        }
    }
}
