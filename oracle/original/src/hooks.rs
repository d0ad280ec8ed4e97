//! What the edits call. An evaluation that has to end early unwinds with a `Stop`.

use std::cell::Cell;

/// Why an evaluation ended early. Any other payload is a panic of the original.
#[derive(Clone, Copy, Debug, PartialEq, Eq)]
pub enum Stop {
    /// Refusal 10 or 11.
    Refused(u8),
    /// The fuel is used up.
    TooLong,
    /// Document 01's statement on stack and entries does not hold.
    FrameIsWrong(&'static str),
}

thread_local! {
    static ENTRY_LIMIT: Cell<usize> = const { Cell::new(usize::MAX) };
    static HIGH_WATER: Cell<usize> = const { Cell::new(0) };
    static CHECKING_FRAMES: Cell<bool> = const { Cell::new(false) };
    /// Of the part of the goal on top of the stack, in its frame.
    pub(crate) static RUNS: Cell<usize> = const { Cell::new(0) };
}

/// Prepares one evaluation.
pub fn start(entry_limit: usize, checking_frames: bool) {
    ENTRY_LIMIT.set(entry_limit);
    HIGH_WATER.set(0);
    CHECKING_FRAMES.set(checking_frames);
}

/// The most provisional entries that were live at once since `start`.
pub fn high_water() -> usize {
    HIGH_WATER.get()
}

/// Evaluates a frame; tells how often the goal's part was run in it, frames above not counted.
pub fn counting_runs<T>(frame: impl FnOnce() -> T) -> (T, usize) {
    let below = RUNS.replace(0);
    let result = frame();
    (result, RUNS.replace(below))
}

pub(crate) fn part_is_run() {
    RUNS.set(RUNS.get() + 1);
}

pub fn stop(why: Stop) -> ! {
    std::panic::resume_unwind(Box::new(why))
}

pub(crate) fn entry_kept(live: usize) {
    HIGH_WATER.set(HIGH_WATER.get().max(live));
    if live > ENTRY_LIMIT.get() {
        stop(Stop::Refused(10));
    }
}

pub(crate) fn insert_differs() -> ! {
    stop(Stop::Refused(11))
}

pub(crate) fn checking_frames() -> bool {
    CHECKING_FRAMES.get()
}

pub(crate) fn frame_is_wrong(why: &'static str) -> ! {
    stop(Stop::FrameIsWrong(why))
}
