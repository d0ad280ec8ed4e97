//! The commands `hunt` and `hunted-check`, of the feature `wrong_readings`.

use std::time::{Duration, Instant};

use oracle_core::case::{Case, read_cases};
use oracle_core::hunt::{self, Extent, Hunted, Shows};
use oracle_core::wrong_readings;

use crate::commands::{Done, print_case, read_input, say};
use oracle_core::arguments::Arguments;

pub fn hunt(mut given: Arguments) -> Done {
    let rounds = given.option("--rounds")?.unwrap_or(200);
    let seconds = given.option("--seconds")?.unwrap_or(3600);
    let seed = given.option("--seed")?.unwrap_or(1);
    let only = given.option_word("--readings")?;
    given.end()?;
    let readings: Vec<u32> = match only {
        None => wrong_readings().iter().map(|(number, _)| *number).collect(),
        Some(list) => {
            let numbers =
                list.split(',').map(|n| n.parse().map_err(|_| format!("no reading {n:?}")));
            numbers.collect::<Result<_, _>>()?
        }
    };
    let (start, time) = (Instant::now(), Duration::from_secs(seconds));
    let catch = hunt::hunt(Extent { rounds, time, seed }, &readings);
    say("# Cases that tell wrong readings from the right one, hunted and made small by")
        .and_then(|()| say(&format!("#     oracle hunt --rounds {rounds} --seed {seed}")))?;
    say("# (built with the feature wrong_readings). Each case says which readings it catches;")?;
    say("# `oracle hunted-check` confirms it. docs/wrong-readings.md lists all readings.")?;
    say("")?;
    for hunted in &catch.kept {
        say(&format!("# catches: {}", told(&hunted.catches)))?;
        print_case(&hunt::answered(&hunted.case))?;
    }
    let (caught, seconds) = (readings.len() - catch.not_caught.len(), start.elapsed().as_secs());
    eprintln!(
        "{} readings, {caught} caught by {} cases; {} cases tried in {seconds} s",
        readings.len(),
        catch.kept.len(),
        catch.tried
    );
    if start.elapsed() >= time {
        eprintln!("ended by the time; another run can catch more");
    }
    for number in &catch.not_caught {
        eprintln!("not caught: {number} ({})", label(*number));
    }
    Ok(true)
}

fn label(reading: u32) -> &'static str {
    let found = wrong_readings().into_iter().find(|(number, _)| *number == reading);
    found.map_or("unknown", |(_, what)| what)
}

fn told(catches: &[(u32, Shows)]) -> String {
    let one = |(reading, shows): &(u32, Shows)| {
        let how = match shows {
            Shows::Differs => "",
            Shows::Panics => "; panics",
            Shows::NeverEnds => "; never ends",
        };
        format!("{reading} ({}{how})", label(*reading))
    };
    catches.iter().map(one).collect::<Vec<_>>().join(", ")
}

/// Replays each case for every reading that its comment lists; with `--table`, prints which
/// cases catch which reading.
pub fn hunted_check(mut given: Arguments) -> Done {
    let table = given.switch("--table");
    given.end()?;
    let hunted = read_hunted(&read_input()?)?;
    let (mut claims, mut wrong) = (0, 0);
    for Hunted { case, catches } in &hunted {
        for (reading, shows) in catches {
            claims += 1;
            if hunt::catches(case, *reading) != Some(*shows) {
                wrong += 1;
                say(&format!("{} does not catch {reading} as it says", case.name))?;
            }
        }
    }
    if table {
        print_table(&hunted)?;
    } else {
        say(&format!("{} cases, {claims} claims, {wrong} wrong", hunted.len()))?;
    }
    if claims == 0 {
        return Err("no claim to check".to_string());
    }
    Ok(wrong == 0)
}

/// So many cases of a reading are named in the table.
const NAMED: usize = 4;

fn print_table(hunted: &[Hunted]) -> Result<(), String> {
    say("| number | wrong reading | caught by |")?;
    say("|---|---|---|")?;
    for (number, what) in wrong_readings() {
        let mut cases = Vec::new();
        for Hunted { case, catches } in hunted {
            match catches.iter().find(|(reading, _)| *reading == number) {
                Some((_, Shows::Differs)) => cases.push(case.name.clone()),
                Some((_, Shows::Panics)) => cases.push(format!("{} (panics)", case.name)),
                Some((_, Shows::NeverEnds)) => cases.push(format!("{} (never ends)", case.name)),
                None => {}
            }
        }
        let more = cases.len().saturating_sub(NAMED);
        cases.truncate(NAMED);
        let mut named = cases.join(", ");
        if more > 0 {
            named += &format!(" and {more} more");
        }
        say(&format!("| {number} | {what} | {named} |"))?;
    }
    Ok(())
}

/// The cases of a text with what the comment before each claims.
fn read_hunted(text: &str) -> Result<Vec<Hunted>, String> {
    let claims = text.lines().filter_map(|line| line.strip_prefix("# catches: "));
    let claims = claims.map(read_claims).collect::<Result<Vec<_>, _>>()?;
    let cases: Vec<Case> = read_cases(text)?;
    if claims.len() != cases.len() {
        return Err(format!("{} cases but {} claims", cases.len(), claims.len()));
    }
    Ok(cases.into_iter().zip(claims).map(|(case, catches)| Hunted { case, catches }).collect())
}

fn read_claims(text: &str) -> Result<Vec<(u32, Shows)>, String> {
    let one = |claim: &str| {
        let shows = match claim.trim_end_matches(')') {
            c if c.ends_with("; panics") => Shows::Panics,
            c if c.ends_with("; never ends") => Shows::NeverEnds,
            _ => Shows::Differs,
        };
        let number = claim.split(' ').next().unwrap_or("");
        Ok((number.parse().map_err(|_| format!("no reading: {claim:?}"))?, shows))
    };
    text.split("), ").map(one).collect()
}
