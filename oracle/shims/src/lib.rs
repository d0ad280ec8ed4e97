//! Stand-ins for what the original takes from other crates. The crate `original` names this one
//! crate `bitflags`, `rustc_hash`, `rustc_index` and `tracing`.

mod flags;
mod hash;
mod index;

pub use hash::FxBuildHasher;
pub use index::{Idx, IndexVec};
pub use shim_macros::instrument;

/// Tracing is left out.
#[macro_export]
macro_rules! debug {
    ($($anything:tt)*) => {
        ()
    };
}

/// Tracing is left out.
#[macro_export]
macro_rules! trace {
    ($($anything:tt)*) => {
        ()
    };
}
