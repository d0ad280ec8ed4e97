//! Where a slot's bytes stand: document 01's notebook, with item 8 of document 02.

pub const HELD: usize = 0;
pub const RESULT: usize = 1;
pub const DEPTH: usize = 2;
/// How often the goal's part was run for the result.
pub const PASSES: usize = 3;
/// From here on, one byte for each goal.
pub const FLAGS: usize = 4;
