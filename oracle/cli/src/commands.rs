//! One function for each command.

use std::fs;
use std::io::{Read, Write};
use std::time::{Duration, Instant};

use oracle_core::book::Book;
use oracle_core::case::{Case, Expected, Query, from_hex, read_cases, to_hex};
use oracle_core::demand3::{self, Counts, Extent, Seen};
use oracle_core::generate::{CLASSES, class_named};
use oracle_core::groups::wrong::{self, RIGHT};
use oracle_core::groups::{self, Breach};
use oracle_core::recorded;
use oracle_core::tidy;
use oracle_core::{Limits, Outcome, extend_with_paths, reply_within, work_len, wrong_readings};

use oracle_core::arguments::Arguments;

pub type Done = Result<bool, String>;

const CASE_FUEL: u64 = 1_000_000;

pub fn ask(mut given: Arguments) -> Done {
    let cache_file = given.option_word("--cache")?;
    let (show_cache, marks) = (given.switch("--show-cache"), given.switch("--marks"));
    let cap_entries = !given.switch("--uncapped");
    let fuel = given.option("--fuel")?.unwrap_or(u64::MAX);
    let book = read_file(&given.need("BOOKFILE")?)?;
    given.end()?;
    let header = Book::read(&book).ok().map(|book| book.header);
    let mut cache = match cache_file {
        Some(name) => read_file(&name)?,
        None => vec![0; header.map_or(0, |h| h.cache_len())],
    };
    let limits = Limits { fuel, cap_entries, ..Limits::default() };
    for (goal, depth) in read_queries(&read_input()?)? {
        let mut work = vec![0; header.map_or(0, |h| work_len(h.goals))];
        let report = reply_within(limits, &book, &mut cache, &mut work, goal, depth);
        let mut line = match report.outcome {
            Outcome::Replied { answer, refusal } => {
                format!("{goal:>3}{depth:>3}{answer:>3}{refusal:>3}")
            }
            Outcome::TooLong => format!("{goal:>3}{depth:>3} too long"),
            Outcome::Panicked | Outcome::FrameIsWrong(_) => format!("{goal:>3}{depth:>3} panic"),
        };
        if marks {
            line += &format!(" entries {} runs {}", report.high_water, report.goal_runs);
        }
        say(&line)?;
        if show_cache {
            say(&to_hex(&cache))?;
        }
    }
    Ok(true)
}

pub fn classes(given: Arguments) -> Done {
    given.end()?;
    for class in CLASSES {
        say(&format!("{:<17} {}", class.name, class.what))?;
    }
    Ok(true)
}

pub fn readings(given: Arguments) -> Done {
    given.end()?;
    for (number, what) in wrong_readings() {
        say(&format!("{number:>3} {what}"))?;
    }
    for reading in tidy::wrong::all() {
        say(&format!("item 1, {} ({}): {}", reading.name, reading.of, reading.what))?;
    }
    for reading in wrong::all() {
        say(&format!("item 12, {}: {}", reading.name, reading.what))?;
    }
    Ok(true)
}

pub fn generate(mut given: Arguments) -> Done {
    let name = given.need("CLASS")?;
    let class = class_named(&name).ok_or(format!("no class {name:?}; see `oracle classes`"))?;
    let (seed, count) = (given.need_number("SEED")?, given.need_number("COUNT")?);
    given.end()?;
    (0..count).try_for_each(|number| print_case(&class.case(seed, number)))?;
    Ok(true)
}

/// Prints a book's plain form.
pub fn tidy(mut given: Arguments) -> Done {
    let name = given.need("BOOKFILE")?;
    given.end()?;
    let bytes = read_file(&name)?;
    let mut out = vec![0; bytes.len()];
    let told = tidy::call(&bytes, &mut out);
    if told.refusal != 0 {
        return Err(format!("{name}: refused by {}", told.refusal));
    }
    let text = String::from_utf8_lossy(&out[..told.length]);
    say(text.trim_end_matches('\n'))?;
    Ok(true)
}

/// Prints what calls that tidy a book come to: the code, and the output afterwards.
pub fn tidied(mut given: Arguments) -> Done {
    let reading = match given.option_word("--reading")? {
        Some(name) => tidy::wrong::named(&name).ok_or(format!("no reading {name:?} of item 1"))?,
        None => tidy::wrong::RIGHT,
    };
    given.end()?;
    for line in read_input()?.lines() {
        let (book, out) = line.split_once(' ').ok_or("expected a book and an output")?;
        let (book, mut out) = (from_hex(book)?, from_hex(out)?);
        let told = reading.call(&book, &mut out);
        say(&format!("{} {}", told.code(), to_hex(&out)))?;
    }
    Ok(true)
}

/// Prints a book's groups, or where it breaks item 12's condition.
pub fn groups(mut given: Arguments) -> Done {
    let name = given.need("BOOKFILE")?;
    given.end()?;
    let book = Book::read(&read_file(&name)?);
    let book = book.map_err(|refusal| format!("{name}: refused by {refusal}"))?;
    let groups = groups::groups(&book);
    if let Some(Breach { goals, inductive, coinductive }) = groups::breach(&groups) {
        say(&format!(
            "broken in {goals:?}: inductive line {inductive}, coinductive {coinductive}"
        ))?;
        return Ok(false);
    }
    for group in &groups {
        let set = match (group.may_be_least(), group.may_be_greatest()) {
            (true, true) => "either",
            (true, false) => "least",
            _ => "greatest",
        };
        say(&format!("{:?} {set}", group.goals))?;
    }
    Ok(true)
}

/// Compares a table of extensions with the original: entry 32 a + b is set a extended by set b.
pub fn extensions(given: Arguments) -> Done {
    given.end()?;
    let text = read_input()?;
    let rows = text.lines().skip_while(|line| !line.ends_with('[')).skip(1);
    let rows = rows.take_while(|line| !line.starts_with(']'));
    let entries: Vec<u8> =
        rows.filter_map(|row| row.split_once(',')?.0.trim().parse().ok()).collect();
    let mut differences = 0;
    for (k, entry) in entries.iter().enumerate().take(1024) {
        let (a, b) = ((k / 32) as u8, (k % 32) as u8);
        let extended = extend_with_paths(a, b);
        if *entry != extended {
            differences += 1;
            say(&format!("set {a} extended by set {b}: is {entry}, the original has {extended}"))?;
        }
    }
    say(&format!("{} entries, {differences} differences", entries.len()))?;
    if entries.len() != 1024 {
        return Err("a table has 1024 entries".to_string());
    }
    Ok(differences == 0)
}

/// Prints one of the recorded files.
pub fn recorded(mut given: Arguments) -> Done {
    let name = given.need("FILE")?;
    given.end()?;
    let cases = recorded::cases(&name).ok_or_else(|| {
        let known: Vec<&str> = recorded::FILES.iter().map(|(name, _)| *name).collect();
        format!("no file {name:?}; there are {}", known.join(", "))
    })?;
    let what = recorded::FILES.iter().find(|(known, _)| *known == name).map_or("", |(_, w)| w);
    say(&format!("# Recorded cases: {what}."))?;
    say("# Made by (the format is told in oracle/README.md)")?;
    say(&format!("#     oracle recorded {name} > tests/vectors/{name}.txt\n"))?;
    cases.iter().try_for_each(print_case)?;
    Ok(true)
}

pub fn answer(given: Arguments) -> Done {
    let (limits, cases) = limits_and_cases(given)?;
    cases.iter().try_for_each(|case| print_case(&case.answered(limits)))?;
    Ok(true)
}

pub fn verify(given: Arguments) -> Done {
    let (limits, cases) = limits_and_cases(given)?;
    let (mut queries, mut differences) = (0, 0);
    for case in &cases {
        for (query, reply) in case.queries.iter().zip(case.replies(limits)) {
            queries += 1;
            // a query without a recorded reply that takes too long is no agreement
            if reply.is_none() || query.expected != reply {
                differences += 1;
                say(&difference(case, query, &reply))?;
            }
        }
    }
    say(&format!("{} cases, {queries} queries, {differences} differences", cases.len()))?;
    if queries == 0 {
        return Err("no query to verify".to_string());
    }
    Ok(differences == 0)
}

fn difference(case: &Case, query: &Query, reply: &Option<Expected>) -> String {
    let told = |reply: &Option<Expected>| match reply {
        None => "nothing".to_string(),
        Some(Expected::Panic) => "panic".to_string(),
        Some(Expected::Reply { answer, refusal, cache }) => {
            let cache = cache.as_ref().map_or("the same".to_string(), |c| to_hex(c));
            format!("answer {answer}, refusal {refusal}, cache {cache}")
        }
    };
    let Query { goal, depth, expected, .. } = query;
    let name = &case.name;
    format!("{name}: goal {goal}, depth {depth}: expected {}; is {}", told(expected), told(reply))
}

pub fn demand3(mut given: Arguments) -> Done {
    let (lists, seconds) = (given.option("--lists")?, given.option("--seconds")?);
    let seed = given.option("--seed")?.unwrap_or(1);
    let least = given.option("--least")?.unwrap_or(1);
    let reading = match given.option_word("--reading")? {
        Some(name) => wrong::named(&name).ok_or(format!("no reading {name:?} of item 12"))?,
        None => RIGHT,
    };
    given.end()?;
    let seconds = seconds.unwrap_or(if lists.is_some() { 1_000_000 } else { 10 });
    let time = Duration::from_secs(seconds);
    let start = Instant::now();
    let lists = lists.unwrap_or(u64::MAX);
    let (counts, violation) = demand3::run(Extent { lists, time, seed, reading });
    print_counts(&counts, start.elapsed())?;
    if let Some(violation) = violation {
        say(&format!("WRONG: {}", violation.what))?;
        print_case(&violation.case)?;
        return Ok(false);
    }
    let lacking = counts.lacking(least);
    lacking.iter().try_for_each(|what| say(&format!("FAILED: {what}")))?;
    Ok(lacking.is_empty())
}

fn print_counts(counts: &Counts, time: Duration) -> Result<(), String> {
    let rate = counts.queries as f64 / time.as_secs_f64();
    say(&format!("lists {}", counts.lists))?;
    print_seen("demand 3 speaks of", &counts.measured)?;
    print_seen("mixed", &counts.mixed)?;
    say(&format!("not measured, as the condition is broken: {} lists", counts.broken))?;
    say(&format!("queries {} ({rate:.0} a second)", counts.queries))?;
    say(&format!("accepted {}", counts.accepted))?;
    for (number, count) in counts.refused.iter().enumerate().filter(|(_, count)| **count != 0) {
        say(&format!("refused by {number}: {count}"))?;
    }
    let [no, yes, undecided, overflow] = counts.answers;
    say(&format!("no {no}\nyes {yes}\nundecided {undecided}\noverflow {overflow}"))?;
    say(&format!("too long {}\npanics {}", counts.too_long, counts.panics))?;
    say(&format!("goal runs {}, most in one query {}", counts.goal_runs, counts.longest))?;
    say(&format!("most live entries {}", counts.high_water))
}

fn print_seen(name: &str, seen: &Seen) -> Result<(), String> {
    let [no, yes, undecided, overflow] = seen.answers;
    let Seen { lists, queries, beyond_least, below_greatest, .. } = seen;
    say(&format!("{name}: {lists} lists, {queries} queries"))?;
    say(&format!("    no {no}, {below_greatest} of them in the whole book's greatest set"))?;
    say(&format!("    yes {yes}, {beyond_least} of them outside its least set"))?;
    say(&format!("    undecided {undecided}, overflow {overflow}"))?;
    let lists = [
        (seen.both_kinds, "with groups of both kinds"),
        (seen.bridged, "with a step of the other kind out of a group"),
        (seen.choices_differ, "in which two choices differ"),
        (seen.undecided_differ, "in which undecided lines matter"),
        (seen.cache_off, "without provisional cache"),
        (seen.sampled, "with too many choices to try all"),
    ];
    lists.iter().try_for_each(|(count, what)| say(&format!("    {count} lists {what}")))
}

fn limits_and_cases(mut given: Arguments) -> Result<(Limits, Vec<Case>), String> {
    let fuel = given.option("--fuel")?.unwrap_or(CASE_FUEL);
    given.end()?;
    Ok((Limits { fuel, ..Limits::default() }, read_cases(&read_input()?)?))
}

pub fn print_case(case: &Case) -> Result<(), String> {
    let mut text = String::new();
    case.write(&mut text);
    say(text.trim_end_matches('\n'))?;
    say("")
}

/// Prints a line; ends quietly when nobody reads on.
pub fn say(line: &str) -> Result<(), String> {
    match writeln!(std::io::stdout(), "{line}") {
        Err(error) if error.kind() == std::io::ErrorKind::BrokenPipe => std::process::exit(0),
        other => other.map_err(|error| format!("cannot write: {error}")),
    }
}

fn read_file(name: &str) -> Result<Vec<u8>, String> {
    fs::read(name).map_err(|error| format!("{name}: {error}"))
}

pub fn read_input() -> Result<String, String> {
    let mut text = String::new();
    let read = std::io::stdin().read_to_string(&mut text);
    read.map_err(|error| format!("cannot read the standard input: {error}"))?;
    Ok(text)
}

/// Lines of a goal and a depth.
fn read_queries(text: &str) -> Result<Vec<(usize, usize)>, String> {
    let mut queries = Vec::new();
    for (i, line) in text.lines().enumerate() {
        let words: Vec<&str> = line.split_whitespace().collect();
        match words.iter().map(|w| w.parse()).collect::<Result<Vec<usize>, _>>().as_deref() {
            Ok([]) => {}
            Ok([goal, depth]) => queries.push((*goal, *depth)),
            _ => return Err(format!("query line {}: expected `goal depth`: {line:?}", i + 1)),
        }
    }
    Ok(queries)
}
