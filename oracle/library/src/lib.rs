//! The proved library: the C functions of include/search_graph.h, on slices.

unsafe extern "C" {
    fn search_graph_work_len(goals: usize) -> usize;
    fn search_graph_cache_len(goals: usize, top_depth: usize) -> usize;
    fn search_graph_query(
        book: *const u8,
        book_len: usize,
        cache: *mut u8,
        cache_len: usize,
        work: *mut u8,
        work_len: usize,
        goal: usize,
        depth: usize,
    ) -> u32;
    fn search_graph_guarantee(book: *const u8, book_len: usize, out: *mut u64, n: usize) -> u32;
    fn search_graph_tidy(book: *const u8, book_len: usize, out: *mut u8, out_len: usize) -> u32;
}

pub fn work_len(goals: usize) -> usize {
    unsafe { search_graph_work_len(goals) }
}

pub fn cache_len(goals: usize, top_depth: usize) -> usize {
    unsafe { search_graph_cache_len(goals, top_depth) }
}

/// Answer + 256 * refusal.
pub fn query(book: &[u8], cache: &mut [u8], work: &mut [u8], goal: usize, depth: usize) -> u32 {
    unsafe {
        search_graph_query(
            book.as_ptr(),
            book.len(),
            cache.as_mut_ptr(),
            cache.len(),
            work.as_mut_ptr(),
            work.len(),
            goal,
            depth,
        )
    }
}

/// 256 * refusal; an inductive line, a coinductive line and their group, as far as there is room.
pub fn guarantee(book: &[u8], out: &mut [u64]) -> u32 {
    unsafe { search_graph_guarantee(book.as_ptr(), book.len(), out.as_mut_ptr(), out.len()) }
}

/// Length used + 65536 * refusal.
pub fn tidy(book: &[u8], out: &mut [u8]) -> u32 {
    unsafe { search_graph_tidy(book.as_ptr(), book.len(), out.as_mut_ptr(), out.len()) }
}
