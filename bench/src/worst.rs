//! The worst small books that were found (bench/worst), timed.

use std::fs;
use std::path::PathBuf;

use oracle_core::book::{Book, LINE};
use oracle_core::case::read_cases;

use crate::engines::{LIBRARY, ORIGINAL};
use crate::lists::List;
use crate::rounds::measured;

/// From the repository's folder, where bench/run goes.
const FOLDER: &str = "bench/worst";

pub fn table(rounds: usize) -> Result<(), String> {
    println!("A query of goal 0 with a fresh cache, microseconds.\n");
    println!(
        "| file | goals | provisional cache | lines | goal runs | library | original | original / library | library, ns a goal run |"
    );
    println!("|---|---|---|---|---|---|---|---|---|");
    for (name, list) in lists()? {
        let (list, times) = measured(list, rounds)?;
        let header = Book::read(&list.case.book).expect("a good book").header;
        println!(
            "| {name} | {} | {} | {} | {} | {:.1} | {:.1} | {:.2} | {:.0} |",
            header.goals,
            if header.provisional_cache { "on" } else { "off" },
            list.case.book.len() / LINE,
            list.runs,
            times.micros(LIBRARY),
            times.micros(ORIGINAL),
            times.ratio(ORIGINAL, LIBRARY)[1],
            times.micros(LIBRARY) * 1000.0 / list.runs as f64,
        );
    }
    Ok(())
}

/// The files by name, each with its one case.
fn lists() -> Result<Vec<(String, List)>, String> {
    let wrong = |e: std::io::Error| format!("{FOLDER}: {e}");
    let entries: Result<Vec<_>, _> = fs::read_dir(FOLDER).map_err(wrong)?.collect();
    let mut files: Vec<PathBuf> =
        entries.map_err(wrong)?.iter().map(|entry| entry.path()).collect();
    files.retain(|file| file.extension().is_some_and(|e| e == "txt"));
    if files.is_empty() {
        return Err(format!("{FOLDER}: no books"));
    }
    files.sort();
    let list = |file: PathBuf| {
        let name = file.file_name().unwrap_or_default().to_string_lossy().into_owned();
        let cases = read_cases(&fs::read_to_string(&file).map_err(wrong)?)?;
        let case = cases.into_iter().next().ok_or(format!("{name}: no case"))?;
        Ok((name.clone(), List::tried(case, u64::MAX).ok_or(format!("{name}: refused"))?))
    };
    files.into_iter().map(list).collect()
}
