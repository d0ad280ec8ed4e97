//! The library's tidy book beside the oracle's, and its replies on it beside the draft's (document 02, item 1).

use oracle_core::book::{Book, LINE};
use oracle_core::tidy::wrong::Reading;
use oracle_core::tidy::{OUTPUT, RULES, plain};

use crate::guarded::Guarded;
use crate::tally::Tally;
use crate::{Asked, any_bytes};

/// What is counted: books by what they gave, how often each of `RULES` was applied, and queries.
pub const KINDS: [&str; 11] = [
    "plain already",
    "changed",
    "refused 1",
    "refused 2",
    "refused 3",
    "refused 4",
    "refused 14",
    "all spliced in",
    "any spliced in",
    "of one part",
    "queries on changed books",
];
pub const CHANGED: usize = 1;
const FOURTEEN: usize = 6;
const RULE: usize = 7;
const QUERIES: usize = 10;

/// How long the output is, by the case's number: mostly as the book.
fn output_length(book: &[u8], number: u64) -> usize {
    let tidy = || Book::read(book).map_or(0, |book| plain(&book).0.to_bytes().len());
    match number % 32 {
        0 => 0,
        1 => tidy(),
        2 => book.len().saturating_sub(1),
        3 => book.len().saturating_sub(LINE),
        4 => book.len() + 1,
        5 => book.len() + LINE,
        6 => book.len() + 65_536,
        _ => book.len(),
    }
}

fn count(bytes: &[u8], refusal: u8, counts: &mut [u64; KINDS.len()]) {
    match (refusal, Book::read(bytes)) {
        (OUTPUT, _) => counts[FOURTEEN] += 1,
        (0, Ok(book)) => {
            let applied = plain(&book).1;
            counts[if applied == [0; RULES.len()] { 0 } else { CHANGED }] += 1;
            applied.iter().enumerate().for_each(|(rule, times)| counts[RULE + rule] += times);
        }
        (refusal, _) => counts[CHANGED + usize::from(refusal)] += 1,
    }
}

/// Tidies a case's book; the library's tidy book, where it is not the draft.
pub fn compare(
    name: &str,
    bytes: &[u8],
    number: u64,
    reading: Reading,
    tally: &mut Tally,
) -> Option<Vec<u8>> {
    let mut out = any_bytes(output_length(bytes, number), number as usize);
    let (book, mut our_out) = (Guarded::new(bytes), Guarded::new(&out));
    let told = reading.call(bytes, &mut out);
    let code = library::tidy(book.inner(), our_out.inner_mut());
    count(bytes, told.refusal, &mut tally.tidied);
    let whole = book.guards_hold() && our_out.guards_hold() && book.inner() == bytes;
    if !(whole && code == told.code() && our_out.inner() == out) {
        tally.wrong_tidied += 1;
        println!(
            "{name}: tidied: {} {}, the library says {} {}; output {}, guards and book {whole}",
            told.length,
            told.refusal,
            code % 65_536,
            code / 65_536,
            our_out.inner() == out,
        );
        return None;
    }
    let tidied = &out[..told.length];
    (told.refusal == 0 && tidied != bytes).then(|| tidied.to_vec())
}

/// The library's reply on the tidy book, held to the original's on the draft: its code, and the cache and
/// the workspace that it left.
pub fn compare_query(
    asked: &Asked,
    tidied: &[u8],
    before: &[u8],
    (code, cache, work): (u32, &[u8], &[u8]),
    tally: &mut Tally,
) {
    let query = asked.query;
    let (mut our_cache, mut our_work) = (before.to_vec(), asked.any_work());
    let ours = library::query(tidied, &mut our_cache, &mut our_work, query.goal, query.depth);
    tally.tidied[QUERIES] += 1;
    if !(ours == code && our_cache == cache && our_work == work) {
        tally.wrong_on_tidied += 1;
        println!(
            "{asked}: on the draft {code}, on the tidy book {ours}; cache {}, workspace {}",
            our_cache == cache,
            our_work == work,
        );
    }
}

#[cfg(test)]
mod tests {
    use oracle_core::generate::CLASSES;
    use oracle_core::tidy::call;

    use super::*;

    /// Outputs of every sort of length come, and most are as long as the book.
    #[test]
    fn lengths_of_outputs() {
        let book = vec![0; 80];
        let lengths: Vec<usize> = (0..32).map(|number| output_length(&book, number)).collect();
        assert_eq!(lengths[..8], [0, 0, 79, 64, 81, 96, 65_616, 80]);
        assert_eq!(lengths.iter().filter(|length| **length == 80).count(), 25);
        assert_eq!(output_length(&[], 2), 0);
    }

    /// Every kind but queries is counted, each book once.
    #[test]
    fn books_are_counted_by_what_they_gave() {
        let (mut counts, mut books) = ([0; KINDS.len()], 0);
        for case in CLASSES.iter().flat_map(|class| (0..64).map(|number| class.case(1, number))) {
            let mut out = vec![1; output_length(&case.book, books)];
            count(&case.book, call(&case.book, &mut out).refusal, &mut counts);
            books += 1;
        }
        assert!(counts[..QUERIES].iter().all(|count| *count > 0), "{counts:?}");
        assert_eq!(counts[..RULE].iter().sum::<u64>(), books);
    }
}
