//! Document 01's queries, answered by the original.

pub mod arguments;
pub mod case;
pub mod demand3;
pub mod generate;
pub mod groups;
#[cfg(feature = "wrong_readings")]
pub mod hunt;
pub mod judge;
pub mod random;
pub mod recorded;
pub mod sets;
pub mod shrink;
pub mod slot;
pub mod tidy;
mod work;

#[cfg(not(feature = "wrong_readings"))]
pub mod book;
#[cfg(not(feature = "wrong_readings"))]
pub mod cache;
#[cfg(not(feature = "wrong_readings"))]
mod delegate;
#[cfg(not(feature = "wrong_readings"))]
mod read_book;
#[cfg(not(feature = "wrong_readings"))]
pub mod reply;
#[cfg(not(feature = "wrong_readings"))]
pub mod session;

// The same modules, with the edits of wrong_readings.rs.
#[cfg(feature = "wrong_readings")]
include!(concat!(env!("OUT_DIR"), "/modules.rs"));

pub use original::{extend_with_paths, mutant};
pub use reply::{Limits, Outcome, Report, reply, reply_within};
pub use work::work_len;

/// All wrong readings of this build, by number: none without the feature.
pub fn wrong_readings() -> Vec<(u32, &'static str)> {
    let mut all = original::WRONG_READINGS.to_vec();
    #[cfg(feature = "wrong_readings")]
    all.extend(CORE_READINGS);
    all.sort();
    all
}

/// Switches on one wrong reading; 0 is none.
#[cfg(feature = "wrong_readings")]
pub fn read_wrongly(number: u32) {
    original::MUTANT.store(number, std::sync::atomic::Ordering::Relaxed);
}

/// Takes `--mutant N` from the words, and switches that reading on.
pub fn read_as_told(words: &mut arguments::Arguments) -> Result<(), String> {
    match words.option("--mutant")? {
        Some(number) => read_known(number),
        None => Ok(()),
    }
}

#[cfg(feature = "wrong_readings")]
fn read_known(number: u64) -> Result<(), String> {
    let known = wrong_readings().iter().any(|(n, _)| u64::from(*n) == number);
    if number != 0 && !known {
        return Err(format!("no wrong reading {number}; see `oracle readings`"));
    }
    read_wrongly(number as u32);
    Ok(())
}

#[cfg(not(feature = "wrong_readings"))]
fn read_known(_: u64) -> Result<(), String> {
    Err(NO_READINGS.to_string())
}

#[cfg(not(feature = "wrong_readings"))]
pub const NO_READINGS: &str =
    "this build has no wrong readings; build with --features wrong_readings (see README.md)";

/// Panics of the original are reported as an outcome, so nothing is printed about them.
pub fn silence_panics() {
    std::panic::set_hook(Box::new(|_| {}));
}
