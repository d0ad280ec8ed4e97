//! Instructions, counted by valgrind's callgrind: a figure without noise.
//!
//! Each class and engine is run in a process of its own, which reads the class's lists from a file. Only what the function
//! `ask_all` does is counted, or what the function that rebases does, and of two runs, the second one twice as long, the
//! difference: so nothing of the set-up is.

use std::fs;
use std::path::Path;
use std::process::Command;

use oracle_core::arguments::Arguments;
use oracle_core::case::read_cases;

use crate::engines::{ASKING, BYTE_FLOOR, ENGINES, Engine, FLOOR, FROM_BYTES, LIBRARY, ORIGINAL};
use crate::lists::{Class, List, queries};
use crate::tidy::TIDIERS;

/// The table, class by class.
pub fn table(made: &[(&Class, Vec<List>)]) -> Result<(), String> {
    println!("Instructions a query, in thousands, by callgrind.\n");
    println!(
        "| class | library | original | original / library | original from bytes | from bytes / library | floor | byte floor | library / byte floor |"
    );
    println!("|---|---|---|---|---|---|---|---|---|");
    for (class, lists) in made {
        eprintln!("counting {}", class.name);
        let counts = counted(lists)?;
        let over = |engine: usize, other: usize| counts[engine] / counts[other];
        let thousands = |engine: usize| counts[engine] / 1000.0;
        println!(
            "| {} | {:.1} | {:.1} | {:.2} | {:.1} | {:.2} | {:.1} | {:.1} | {:.1} |",
            class.name,
            thousands(LIBRARY),
            thousands(ORIGINAL),
            over(ORIGINAL, LIBRARY),
            thousands(FROM_BYTES),
            over(FROM_BYTES, LIBRARY),
            thousands(FLOOR),
            thousands(BYTE_FLOOR),
            over(LIBRARY, BYTE_FLOOR)
        );
    }
    Ok(())
}

/// The functions that rebase provisional entries: each is called, and not put inside its callers. The library's takes a
/// frame off the stack with any ending, so that clearing before a rerun is in it, and in the original is not.
const REBASING: [(&Engine, &str); 2] = [
    (&ENGINES[LIBRARY], "task::popped"),
    (&ENGINES[ORIGINAL], "*::rebase_provisional_cache_entries"),
];

/// What rebasing takes of it, class by class where there is any.
pub fn rebasing(made: &[(&Class, Vec<List>)]) -> Result<(), String> {
    println!(
        "Instructions a query inside the function that rebases, in thousands, by callgrind. The library's pops every frame, and clears entries before a rerun too.\n"
    );
    println!(
        "| class | library | of its query, % | original | of its query, % | original / library |"
    );
    println!("|---|---|---|---|---|---|");
    let mut rows = 0;
    for (class, lists) in made {
        eprintln!("counting rebasing of {}", class.name);
        let inside = within(lists, &REBASING)?;
        if inside[1] == 0.0 {
            continue;
        }
        if inside[0] == 0.0 {
            let functions = REBASING.map(|(_, function)| function);
            return Err(format!("of {functions:?} callgrind found the original's alone"));
        }
        let whole = within(lists, &REBASING.map(|(engine, _)| (engine, ASKING)))?;
        let share = |k: usize| 100.0 * inside[k] / whole[k];
        println!(
            "| {} | {:.1} | {:.1} | {:.1} | {:.1} | {:.2} |",
            class.name,
            inside[0] / 1000.0,
            share(0),
            inside[1] / 1000.0,
            share(1),
            inside[1] / inside[0]
        );
        rows += 1;
    }
    if rows > 0 { Ok(()) } else { Err("no list rebases anything".to_string()) }
}

/// Instructions a query of each engine.
fn counted(lists: &[List]) -> Result<[f64; ENGINES.len()], String> {
    let counts = within(lists, &ENGINES.each_ref().map(|engine| (engine, ASKING)))?;
    if counts.contains(&0.0) {
        return Err("callgrind counted nothing".to_string());
    }
    one_by_one(lists, counts[BYTE_FLOOR] * queries(lists) as f64).map(|()| counts)
}

/// Instructions a query of some engines, each inside one of its functions.
pub fn within<const N: usize>(
    lists: &[List],
    asked: &[(&Engine, &str); N],
) -> Result<[f64; N], String> {
    let text: String = lists.iter().map(List::text).collect();
    let file = std::env::temp_dir().join(format!("bench-lists-{}.txt", std::process::id()));
    fs::write(&file, text).map_err(|e| format!("{}: {e}", file.display()))?;
    let mut counts = [0.0; N];
    let each = asked.iter().zip(&mut counts).try_for_each(|((engine, function), count)| {
        let of = |times: usize| collected(&file, engine, times, function);
        *count = of(2)?.saturating_sub(of(1)?) as f64 / queries(lists) as f64;
        Ok(())
    });
    fs::remove_file(&file).ok();
    each.map(|()| counts)
}

/// The byte floor is what its name says: more instructions than bytes that are read.
fn one_by_one(lists: &[List], instructions: f64) -> Result<(), String> {
    let bytes =
        |list: &List| (list.case.book.len() + list.case.cache.len()) * list.case.queries.len();
    match (lists.iter().map(bytes).sum::<usize>() as f64) < instructions {
        true => Ok(()),
        false => Err("the byte floor reads several bytes at once".into()),
    }
}

/// What callgrind collects inside a function while an engine runs the lists of a file so many times.
fn collected(file: &Path, engine: &Engine, times: usize, function: &str) -> Result<u64, String> {
    let this = std::env::current_exe().map_err(|e| e.to_string())?;
    let output = Command::new("valgrind")
        .args(["--tool=callgrind", "--callgrind-out-file=/dev/null"])
        .arg(format!("--toggle-collect={function}"))
        // without it glibc clears by a string instruction, which is counted once a byte
        .env("GLIBC_TUNABLES", "glibc.cpu.x86_rep_stosb_threshold=100000000")
        .arg(this)
        .args(["run", engine.name, &times.to_string()])
        .arg(file)
        .output()
        .map_err(|e| format!("valgrind: {e}"))?;
    let told = String::from_utf8_lossy(&output.stderr);
    let collected = told.lines().find_map(|line| line.split("Collected :").nth(1));
    collected
        .and_then(|number| number.trim().parse().ok())
        .filter(|_| output.status.success())
        .ok_or(format!("callgrind said:\n{told}"))
}

/// What such a process does: `run ENGINE TIMES FILE`.
pub struct Run {
    engine: String,
    times: usize,
    file: String,
}

impl Run {
    pub fn read(words: &mut Arguments) -> Result<Run, String> {
        let engine = words.need("ENGINE")?;
        Ok(Run { engine, times: words.need_number("TIMES")? as usize, file: words.need("FILE")? })
    }

    pub fn run(&self) -> Result<(), String> {
        let engine = ENGINES.iter().chain(&TIDIERS).find(|e| e.name == self.engine);
        let engine = engine.ok_or("no such engine")?;
        let text = fs::read_to_string(&self.file).map_err(|e| format!("{}: {e}", self.file))?;
        for case in read_cases(&text)? {
            (engine.run)(&List { case, runs: 1, entries: 0 }, self.times);
        }
        Ok(())
    }
}
