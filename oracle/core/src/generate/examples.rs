//! Document 01's examples.

use super::damage::line;
use crate::book::{Book, Header, Part};
use crate::case::{Case, Query};
use crate::random::Random;
use crate::work_len;

/// One of the twelve examples of the table: its number, book, depth and answer.
pub struct Example {
    pub part: Part,
    pub step_limit: usize,
    pub depth: usize,
    pub answer: u8,
}

/// The table, in order.
pub fn table() -> Vec<Example> {
    let call = |kind, lower| Part::Call { goal: 0, kind, lower };
    let two = || vec![call(0, true), Part::All(vec![])];
    let row = |part, step_limit, depth, answer| Example { part, step_limit, depth, answer };
    vec![
        row(Part::Any(vec![]), 1, 0, 0),
        row(Part::All(vec![]), 1, 0, 1),
        row(Part::Undecided, 1, 0, 2),
        row(call(0, true), 1, 1, 0),
        row(call(1, true), 1, 1, 2),
        row(call(2, true), 1, 1, 1),
        row(call(3, true), 1, 1, 3),
        row(call(0, true), 1, 0, 3),
        row(call(0, false), 1, 0, 0),
        row(Part::Any(two()), 1, 1, 3),
        row(Part::Any(two()), 2, 1, 1),
        row(Part::Pick(two()), 1, 1, 1),
    ]
}

impl Example {
    /// A book of one goal, T 5, V 1, cache on.
    pub fn case(&self) -> Case {
        let header = header(1, self.step_limit);
        case(&Book { header, parts: vec![self.part.clone()] }, 0, self.depth)
    }
}

fn header(goals: usize, step_limit: usize) -> Header {
    Header { provisional_cache: true, goals, top_depth: 5, step_limit, divisor: 1 }
}

fn case(book: &Book, goal: usize, depth: usize) -> Case {
    let goals = book.header.goals;
    Case {
        name: String::new(),
        book: book.to_bytes(),
        cache: vec![0; book.header.cache_len()],
        queries: vec![Query::new(goal, depth, work_len(goals))],
    }
}

/// Refusal 10: a pick of eight calls, and two goals that call back.
pub fn one_entry_too_many() -> Case {
    let call = |goal, kind| Part::Call { goal, kind, lower: true };
    let eight = (1..3).flat_map(|goal| (0..4).map(move |kind| call(goal, kind))).collect();
    let parts = vec![Part::Pick(eight), call(0, 0), call(0, 0)];
    case(&Book { header: header(3, 1), parts }, 0, 2)
}

/// Refusal 11: the cache says Yes, required depth 5, for an empty any, asked at depth 3.
pub fn another_result_held() -> Case {
    let mut case = case(&Book { header: header(1, 1), parts: vec![Part::Any(vec![])] }, 0, 3);
    case.cache[..4].copy_from_slice(&[1, 1, 5, 1]);
    case
}

/// The book whose goal 0 at depth 4 runs one frame 99 times.
pub fn ninety_nine_runs() -> Case {
    from_lines(
        [1, 6, 4, 99, 1],
        &[
            &[[3, 3, 0, 0, 0], [2, 5, 0, 1, 0], [2, 1, 1, 1, 0], [2, 5, 0, 1, 0]],
            &[[4, 3, 0, 0, 0], [2, 3, 0, 1, 0], [2, 0, 0, 1, 0], [3, 0, 0, 0, 0]],
            &[[3, 2, 0, 0, 0], [4, 2, 0, 0, 0], [2, 3, 0, 1, 0], [2, 4, 1, 1, 0], [2, 5, 0, 1, 0]],
            &[[2, 2, 0, 1, 0]],
            &[[2, 1, 0, 1, 0]],
            &[[2, 1, 0, 1, 0]],
        ],
    )
}

/// A book in which a frame finishes without cycle usages (`RebaseReason::NoCycleUsages`) when
/// goal 0 is asked at depth 4.
pub fn no_cycle_usages() -> Case {
    from_lines(
        [1, 5, 4, 3, 1],
        &[
            &[[3, 2, 0, 0, 0], [2, 4, 0, 1, 0], [2, 4, 0, 1, 0]],
            &[[5, 3, 0, 0, 0], [2, 2, 0, 1, 0], [2, 3, 0, 1, 0], [3, 0, 0, 0, 0]],
            &[[3, 2, 0, 0, 0], [4, 2, 0, 0, 0], [2, 3, 2, 1, 0], [2, 0, 2, 0, 0], [2, 4, 0, 1, 0]],
            &[[2, 2, 0, 1, 0]],
            &[[2, 1, 0, 1, 0]],
        ],
    )
}

/// A book that shows what a third run starts from and how a later run finishes, when goal 0 is
/// asked at depth 4.
pub fn three_runs() -> Case {
    from_lines(
        [1, 6, 4, 3, 1],
        &[
            &[[3, 3, 0, 0, 0], [2, 5, 0, 1, 0], [2, 5, 0, 1, 0], [2, 4, 0, 1, 0]],
            &[[5, 3, 0, 0, 0], [2, 3, 0, 1, 0], [2, 0, 0, 0, 0], [3, 0, 0, 0, 0]],
            &[
                [3, 2, 0, 0, 0],
                [4, 3, 0, 0, 0],
                [2, 3, 2, 1, 0],
                [2, 0, 0, 1, 0],
                [3, 0, 0, 0, 0],
                [2, 5, 0, 1, 0],
            ],
            &[[2, 2, 0, 1, 0]],
            &[[2, 2, 0, 1, 0]],
            &[[2, 1, 0, 1, 0]],
        ],
    )
}

/// A book from its goals' lines; goal 0 is asked at depth 4.
fn from_lines(header: [usize; 5], goals: &[&[[usize; 5]]]) -> Case {
    let mut book = line(header);
    for (goal, lines) in goals.iter().enumerate() {
        book.extend(line([1, goal, 0, 0, 0]));
        book.extend(lines.iter().flat_map(|fields| line(*fields)));
    }
    case(&Book::read(&book).expect("a good book"), 0, 4)
}

/// Any of the examples above.
pub fn any(r: &mut Random) -> Case {
    let table = table();
    match r.below(table.len() + 5) {
        0 => one_entry_too_many(),
        1 => another_result_held(),
        2 => ninety_nine_runs(),
        3 => no_cycle_usages(),
        4 => three_runs(),
        n => table[n - 5].case(),
    }
}
