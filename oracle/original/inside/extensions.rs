//! Stands inside the original's module, to call its private operation on sets of paths.

use super::PathsToNested;

/// A set of paths extended by a set; a set is the sum of its flags.
pub fn extend_with_paths(paths: u8, rest: u8) -> u8 {
    let [paths, rest] = [paths, rest].map(PathsToNested::from_bits_retain);
    paths.extend_with_paths(rest).bits()
}
