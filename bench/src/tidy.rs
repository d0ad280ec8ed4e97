//! What tidying a book of 1,000 lines costs, beside reading it alone and beside the oracle's tidying.

use std::hint::black_box;

use oracle_core::book::{Book, INDUCTIVE, LINE, MAX_LINES, MAX_NEST, Part};
use oracle_core::case::Query;
use oracle_core::tidy;

use crate::count::within;
use crate::engines::{ASKING, Engine, timed};
use crate::lists::{List, fresh, query};
use crate::rounds::Rounds;
use crate::shapes;

const TIDY: usize = 0;
const READ: usize = 1;
const ORACLE: usize = 2;

/// The second finds the output one byte short when the book is read, and writes nothing.
pub const TIDIERS: [Engine; 3] = [
    Engine { name: "tidy", run: |list, times| called(list, times, 0, library::tidy) },
    Engine { name: "tidy-refused", run: |list, times| called(list, times, 1, library::tidy) },
    Engine {
        name: "tidy-oracle",
        run: |list, times| called(list, times, 0, |book, out| tidy::call(book, out).code()),
    },
];

fn called(list: &List, times: usize, less: usize, call: impl Fn(&[u8], &mut [u8]) -> u32) -> u64 {
    let mut out = vec![0; list.case.book.len() - less];
    let tidied = |out: &mut Vec<u8>, _: &Query| {
        black_box(call(black_box(&list.case.book), out));
    };
    timed(list, times, true, &mut out, |_| (), tidied)
}

/// Books of 1,000 lines, and what they are.
fn drafts() -> [(&'static str, Book); 4] {
    let call = || Part::Call { goal: 0, kind: INDUCTIVE, lower: true };
    let deep = (1..MAX_NEST).fold(call(), |inner, _| Part::All(vec![call(), inner]));
    let alone = |part: Part| {
        (part.height()..MAX_NEST).fold(part, |inner, level| {
            if level % 2 == 0 { Part::Any(vec![inner]) } else { Part::All(vec![inner]) }
        })
    };
    let wide = Part::Any((0..MAX_LINES - 20).map(|_| call()).collect());
    let flat = Part::Any((1..deep.lines()).map(|_| call()).collect());
    [
        ("plain already", shapes::filled(flat)),
        ("all in all, 8 deep", shapes::filled(deep)),
        ("lists of one part, 8 deep", shapes::filled(alone(call()))),
        ("one long list, moved at 6 levels", shapes::filled(alone(wide))),
    ]
}

/// Microseconds and thousands of instructions a call; an error where the two tidy otherwise.
pub fn table(rounds: usize) -> Result<(), String> {
    println!(
        "Tidying a book of 1,000 lines. Reading alone: an output that is a byte short, so that the book is read \
         and 14 given.\n"
    );
    println!(
        "| book | lines when tidy | microseconds: library | reading alone | oracle | oracle / library \
         | thousands of instructions: library | reading alone | oracle |"
    );
    println!("|---|---|---|---|---|---|---|---|---|");
    for (what, book) in drafts() {
        let lines = agreed(&book)?;
        let list = List { case: fresh(&book, vec![query(&book, 0)]), runs: 0, entries: 0 };
        let lists = std::slice::from_ref(&list);
        let times = Rounds::of(&TIDIERS, lists, rounds);
        let counts = within(lists, &[TIDY, READ, ORACLE].map(|i| (&TIDIERS[i], ASKING)))?;
        println!(
            "| {what} | {lines} | {:.2} | {:.2} | {:.1} | {:.1} | {:.1} | {:.1} | {:.1} |",
            times.micros(TIDY),
            times.micros(READ),
            times.micros(ORACLE),
            times.ratio(ORACLE, TIDY)[1],
            counts[TIDY] / 1000.0,
            counts[READ] / 1000.0,
            counts[ORACLE] / 1000.0,
        );
    }
    Ok(())
}

/// The lines of the tidy book, where the book has 1,000 and library and oracle write the same.
fn agreed(book: &Book) -> Result<usize, String> {
    let bytes = book.to_bytes();
    let (mut ours, mut theirs) = (vec![1; bytes.len()], vec![2; bytes.len()]);
    let code = library::tidy(&bytes, &mut ours);
    let told = tidy::call(&bytes, &mut theirs);
    if bytes.len() != MAX_LINES * LINE || told.refusal != 0 {
        return Err("a draft is not of 1,000 lines".to_string());
    }
    match code == told.code() && ours == theirs {
        true => Ok(told.length / LINE),
        false => Err("library and oracle tidy a book otherwise".to_string()),
    }
}
