//! The library's guarantee of a book beside item 12's condition as the oracle reads it.

use oracle_core::book::Book;
use oracle_core::groups::{breach, groups};

use crate::guarded::Guarded;
use crate::tally::Tally;

/// What the numbers that are lent hold before the call.
const MARK: u64 = 0x5151_5151_5151_5151;

/// The code, and an inductive line, a coinductive line and their group: zeros where nothing is broken.
fn expected(bytes: &[u8]) -> (u32, [u64; 3]) {
    match Book::read(bytes) {
        Err(refusal) => (256 * u32::from(refusal), [0; 3]),
        Ok(book) => (
            0,
            breach(&groups(&book)).map_or([0; 3], |breach| {
                let group = breach.goals.iter().map(|goal| 1 << goal).sum();
                [breach.inductive as u64, breach.coinductive as u64, group]
            }),
        ),
    }
}

/// Asks for 0 to 4 numbers, by the case's number.
pub fn compare(name: &str, bytes: &[u8], number: u64, tally: &mut Tally) {
    let (code, numbers) = expected(bytes);
    let book = Guarded::new(bytes);
    let mut told = vec![MARK; (number % 5) as usize];
    let ours = library::guarantee(book.inner(), &mut told);
    let beyond = std::iter::repeat(&MARK);
    let same = told.iter().zip(numbers.iter().chain(beyond)).all(|(a, b)| a == b);
    let broken = usize::from(numbers[2] != 0);
    tally.guarantees[if code == 0 { broken } else { 2 }] += 1;
    if !(ours == code && same && book.guards_hold() && book.inner() == bytes) {
        tally.wrong_guarantees += 1;
        println!("{name}: the guarantee is {code} {numbers:?}, the library says {ours} {told:?}");
    }
}
