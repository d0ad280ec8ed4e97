//! Wrong readings, switched on one at a time. Without the feature there are none.

#[cfg(feature = "wrong_readings")]
mod switch {
    use std::sync::atomic::{AtomicU32, Ordering};

    /// The number of the wrong reading that is on; 0 is none.
    pub static MUTANT: AtomicU32 = AtomicU32::new(0);

    #[inline]
    pub fn mutant(number: u32) -> bool {
        MUTANT.load(Ordering::Relaxed) == number
    }
}

#[cfg(feature = "wrong_readings")]
pub use switch::{MUTANT, mutant};

#[cfg(not(feature = "wrong_readings"))]
#[inline]
pub fn mutant(_number: u32) -> bool {
    false
}

include!(concat!(env!("OUT_DIR"), "/wrong_readings.rs"));
