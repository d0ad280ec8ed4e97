//! The program `oracle`: queries answered by the original.

mod commands;
#[cfg(feature = "wrong_readings")]
mod hunting;

use std::process::ExitCode;

use oracle_core::arguments::Arguments;

const HELP: &str = "\
oracle: document 01's queries, answered by the original search graph

  oracle ask BOOKFILE [options] < queries
      Reads lines `goal depth`, keeps one cache, and prints for each line goal, depth, answer
      and refusal, three columns each; `panic` where the original panics, `too long` where
      the fuel ends.
      --cache FILE    the cache to begin with (its bytes); else zeros
      --show-cache    prints the cache after each query, in hexadecimal
      --marks         adds the most live provisional entries and the goal runs
      --uncapped      gives no refusal 10
      --fuel N        ends a query after N goal runs (default: never)
  oracle classes
      Lists the classes of generated cases.
  oracle gen CLASS SEED COUNT
      Prints COUNT cases without replies.
  oracle answer [--fuel N] < cases
      Prints the cases with the replies filled in. Queries that use more than N goal runs
      (default 1000000) are left out.
  oracle verify [--fuel N] < cases
      Replays the cases and compares; exit status 1 if something differs. No query is an error.
  oracle demand3 [--lists N] [--seconds S] [--seed K] [--least M] [--reading NAME]
      Checks demand 3, panics and the state after each frame on random lists (default: 10
      seconds, seed 1); exit status 1 with a small book if something is wrong, and where it saw
      fewer than M lists (default 1), no Yes, no No, too little of mixed books, or more than one
      query in a hundred that is too long. With --reading, mixed books are measured by a wrong
      reading of item 12, to see the run find it: `oracle readings` lists them.
  oracle groups BOOKFILE
      Prints the groups of item 12, called ones first: the goals, and whether the set is least,
      greatest or either. Where the condition is broken, prints the group, its first inductive
      and its first coinductive line (the header is line 0); exit status 1.
  oracle tidy BOOKFILE
      Prints the book in its plain form (item 1 of document 02).
  oracle tidied [--reading NAME] < calls
      Reads lines of a book and an output, both in hexadecimal, and prints for each what the call
      that tidies returns, and the output afterwards. With --reading, by a wrong reading of item 1.
  oracle extensions < TABLE
      Compares a table of 1,024 numbers, as crates/pop/src/table.rt has it between `[` and
      `]`, with every set of paths extended by every set; exit status 1 if something differs.
  oracle recorded FILE
      Prints one of the recorded files of tests/vectors, made anew: document, refusals, caches
      or random.
  oracle readings
      Lists the wrong readings that this build knows: by number (feature wrong_readings), and
      those of items 1 and 12 by name.
  oracle hunt [--rounds N] [--seconds S] [--seed K] [--readings N,N,..]
      Hunts small cases that catch wrong readings (feature wrong_readings) and prints few of
      them; tells the standard error how it goes and what is not caught. Ends after N rounds
      (default 200) or S seconds (default 3600).
  oracle hunted-check [--table] < cases
      Confirms that each case catches the readings that its comment lists (feature
      wrong_readings); exit status 1 if not. With --table prints which cases catch which. No
      claim is an error.
  oracle help

  --mutant N, with any command, switches on wrong reading N (feature wrong_readings).
";

fn main() -> ExitCode {
    oracle_core::silence_panics();
    match run() {
        Ok(true) => ExitCode::SUCCESS,
        Ok(false) => ExitCode::from(1),
        Err(message) => {
            eprintln!("oracle: {message}");
            eprintln!("Try `oracle help`.");
            ExitCode::from(2)
        }
    }
}

/// True if all is well, false if a comparison failed, an error on bad usage.
fn run() -> Result<bool, String> {
    let mut given = Arguments::new();
    oracle_core::read_as_told(&mut given)?;
    match given.next().as_deref() {
        Some("ask") => commands::ask(given),
        Some("classes") => commands::classes(given),
        Some("gen") => commands::generate(given),
        Some("answer") => commands::answer(given),
        Some("verify") => commands::verify(given),
        Some("demand3") => commands::demand3(given),
        Some("groups") => commands::groups(given),
        Some("tidy") => commands::tidy(given),
        Some("tidied") => commands::tidied(given),
        Some("extensions") => commands::extensions(given),
        Some("recorded") => commands::recorded(given),
        Some("readings") => commands::readings(given),
        #[cfg(feature = "wrong_readings")]
        Some("hunt") => hunting::hunt(given),
        #[cfg(feature = "wrong_readings")]
        Some("hunted-check") => hunting::hunted_check(given),
        #[cfg(not(feature = "wrong_readings"))]
        Some("hunt" | "hunted-check") => Err(oracle_core::NO_READINGS.to_string()),
        Some("help" | "--help" | "-h") => {
            print!("{HELP}");
            Ok(true)
        }
        Some(other) => Err(format!("no command {other:?}")),
        None => Err("a command is missing".to_string()),
    }
}
