/// The length of the work buffer for G goals; refusal 9 is any other length.
/// The formula is the library's own: docs/workspace.md.
pub fn work_len(goals: usize) -> usize {
    4 * goals * (41 * goals + 24)
}
