//! The original: `search_graph` as the build script left it, and what it leans on.

extern crate self as rustc_type_ir;
extern crate shim_macros as derive_where;
extern crate shims as bitflags;
extern crate shims as rustc_hash;
extern crate shims as rustc_index;
extern crate shims as tracing;

pub mod data_structures;
pub mod hooks;
mod wrong_reading;

pub use search_graph::{Held, extend_with_paths};
#[cfg(feature = "wrong_readings")]
pub use wrong_reading::MUTANT;
pub use wrong_reading::{WRONG_READINGS, mutant};

include!(concat!(env!("OUT_DIR"), "/search_graph.rs"));
