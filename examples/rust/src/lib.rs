//! A safe wrapper of the C functions in `include/search_graph.h`.
//!
//! [`Questions`] owns a book, with a cache and a workspace of the lengths that the book asks for, so that no
//! query is refused for its buffers, and no unsafe code is left to its user.
use std::fmt;

mod c {
    extern "C" {
        pub fn search_graph_work_len(goals: usize) -> usize;
        pub fn search_graph_cache_len(goals: usize, top_depth: usize) -> usize;
        pub fn search_graph_query(
            book: *const u8,
            book_len: usize,
            cache: *mut u8,
            cache_len: usize,
            work: *mut u8,
            work_len: usize,
            goal: usize,
            depth: usize,
        ) -> u32;
        pub fn search_graph_guarantee(
            book: *const u8,
            book_len: usize,
            out: *mut u64,
            n: usize,
        ) -> u32;
        pub fn search_graph_tidy(
            book: *const u8,
            book_len: usize,
            out: *mut u8,
            out_len: usize,
        ) -> u32;
    }
}

/// What an accepted query answers.
#[derive(Clone, Copy, Debug, PartialEq, Eq)]
pub enum Answer {
    No,
    Yes,
    Undecided,
    Overflow,
}

/// Why a call is refused.
#[derive(Clone, Copy, Debug, PartialEq, Eq)]
pub enum Refusal {
    BookLength,
    BookLine,
    BookHeader,
    BookGrammar,
    Goal,
    Depth,
    CacheLength,
    CacheForm,
    WorkLength,
    TooManyEntries,
    DifferentResult,
    OutputLength,
    /// A number that the header does not know.
    Unknown(u32),
}

/// Why no Yes and No of a book is proved right: two calls inside one group of goals, each of which reaches
/// the others by calls. Line 0 is the book's first line.
#[derive(Clone, Debug, PartialEq, Eq)]
pub struct Conflict {
    pub inductive_line: usize,
    pub coinductive_line: usize,
    pub goals: Vec<usize>,
}

/// A book that is asked, and what was settled so far.
pub struct Questions {
    book: Vec<u8>,
    cache: Vec<u8>,
    work: Vec<u8>,
}

impl Questions {
    /// Takes any bytes: what is no book is refused when it is asked.
    pub fn new(book: Vec<u8>) -> Questions {
        let (goals, top_depth) = (header_field(&book, 3), header_field(&book, 6));
        // SAFETY: both take numbers and touch no memory.
        let (cache_len, work_len) = unsafe {
            (c::search_graph_cache_len(goals, top_depth), c::search_graph_work_len(goals))
        };
        Questions { book, cache: vec![0; cache_len], work: vec![0; work_len] }
    }

    /// Evaluates a goal at a depth. What it settles is kept for later questions.
    pub fn ask(&mut self, goal: usize, depth: usize) -> Result<Answer, Refusal> {
        // SAFETY: three distinct vectors with their own lengths; their pointers are never null.
        let code = unsafe {
            c::search_graph_query(
                self.book.as_ptr(),
                self.book.len(),
                self.cache.as_mut_ptr(),
                self.cache.len(),
                self.work.as_mut_ptr(),
                self.work.len(),
                goal,
                depth,
            )
        };
        read_code(code)
    }

    /// Whether every Yes and No of this book is proved right; where not, why.
    pub fn guarantee(&self) -> Result<Option<Conflict>, Refusal> {
        let mut out = [0u64; 3];
        // SAFETY: a vector and an array with their own lengths.
        let code = unsafe {
            let book = (self.book.as_ptr(), self.book.len());
            c::search_graph_guarantee(book.0, book.1, out.as_mut_ptr(), out.len())
        };
        read_code(code)?;
        let [inductive, coinductive, group] = out;
        Ok((group != 0).then(|| Conflict {
            inductive_line: inductive as usize,
            coinductive_line: coinductive as usize,
            goals: (0..64).filter(|goal| group >> goal & 1 == 1).collect(),
        }))
    }

    /// The book in its plain form, which has the same answers.
    pub fn tidy(&self) -> Result<Vec<u8>, Refusal> {
        let mut out = vec![0; self.book.len()];
        // SAFETY: two distinct vectors with their own lengths; their pointers are never null.
        let code = unsafe {
            let book = (self.book.as_ptr(), self.book.len());
            c::search_graph_tidy(book.0, book.1, out.as_mut_ptr(), out.len())
        };
        if code / 65536 != 0 {
            return Err(refusal(code / 65536));
        }
        out.truncate(code as usize);
        Ok(out)
    }
}

/// A number of the first line, three columns; 0 for what is none, which the query refuses.
fn header_field(book: &[u8], column: usize) -> usize {
    let text = book.get(column..column + 3).and_then(|b| std::str::from_utf8(b).ok());
    text.and_then(|t| t.trim_start_matches(' ').parse().ok()).unwrap_or(0)
}

fn read_code(code: u32) -> Result<Answer, Refusal> {
    match (code / 256, code % 256) {
        (0, 0) => Ok(Answer::No),
        (0, 1) => Ok(Answer::Yes),
        (0, 2) => Ok(Answer::Undecided),
        (0, 3) => Ok(Answer::Overflow),
        (number, _) => Err(refusal(number)),
    }
}

fn refusal(number: u32) -> Refusal {
    match number {
        1 => Refusal::BookLength,
        2 => Refusal::BookLine,
        3 => Refusal::BookHeader,
        4 => Refusal::BookGrammar,
        5 => Refusal::Goal,
        6 => Refusal::Depth,
        7 => Refusal::CacheLength,
        8 => Refusal::CacheForm,
        9 => Refusal::WorkLength,
        10 => Refusal::TooManyEntries,
        11 => Refusal::DifferentResult,
        14 => Refusal::OutputLength,
        other => Refusal::Unknown(other),
    }
}

impl fmt::Display for Answer {
    fn fmt(&self, f: &mut fmt::Formatter) -> fmt::Result {
        f.write_str(match self {
            Answer::No => "No",
            Answer::Yes => "Yes",
            Answer::Undecided => "undecided",
            Answer::Overflow => "overflow",
        })
    }
}

impl fmt::Display for Refusal {
    fn fmt(&self, f: &mut fmt::Formatter) -> fmt::Result {
        let what = match self {
            Refusal::BookLength => {
                "the book's length is no multiple of 16 from 48 to 16,000: look for a line that is not 15 columns"
            }
            Refusal::BookLine => "a line of the book is not five numbers in three columns each",
            Refusal::BookHeader => "a number of the book's first line is out of range",
            Refusal::BookGrammar => "the book's lines do not make one rule for each goal",
            Refusal::Goal => "the book has no such goal",
            Refusal::Depth => "the depth is above the book's top depth",
            Refusal::CacheLength => "the cache has not the length for this book",
            Refusal::CacheForm => {
                "the cache is not one that queries leave behind: begin with zeros"
            }
            Refusal::WorkLength => "the workspace has not the length for this book",
            Refusal::TooManyEntries => {
                "more than twice as many unfinished results as goals are to be kept: make the first number of the book 0"
            }
            Refusal::DifferentResult => {
                "the cache holds another result: it comes from another book; begin with zeros"
            }
            Refusal::OutputLength => "the output is not as long as the book",
            Refusal::Unknown(n) => {
                return write!(f, "refusal {n}, which this wrapper does not know");
            }
        };
        f.write_str(what)
    }
}

impl std::error::Error for Refusal {}

#[cfg(test)]
mod tests {
    use super::*;

    const RING: &str = "  1  1  5  1  1\n  1  0  0  0  0\n  2  0  0  1  0\n";

    #[test]
    fn a_ring_of_one_goal() {
        let mut questions = Questions::new(RING.into());
        assert_eq!(questions.ask(0, 1), Ok(Answer::No));
        assert_eq!(questions.ask(0, 0), Ok(Answer::Overflow));
        assert_eq!(
            Questions::new(RING.replace("2  0  0", "2  0  2").into()).ask(0, 1),
            Ok(Answer::Yes)
        );
        assert_eq!(
            Questions::new(RING.replace("2  0  0", "2  0  1").into()).ask(0, 1),
            Ok(Answer::Undecided)
        );
    }

    #[test]
    fn a_ring_of_one_kind_is_guaranteed() {
        assert_eq!(Questions::new(RING.into()).guarantee(), Ok(None));
        let both = "  4  2  0  0  0\n  2  0  2  1  0\n  2  0  0  1  0\n";
        let book = RING.replace("  2  0  0  1  0\n", both);
        let conflict = Conflict { inductive_line: 4, coinductive_line: 3, goals: vec![0] };
        assert_eq!(Questions::new(book.into()).guarantee(), Ok(Some(conflict)));
        assert_eq!(Questions::new("".into()).guarantee(), Err(Refusal::BookLength));
    }

    #[test]
    fn a_draft_and_its_plain_form() {
        let draft = RING.replace("  2  0  0", "  3  1  0  0  0\n  2  0  0");
        assert_eq!(Questions::new(draft.into()).tidy(), Ok(RING.into()));
        assert_eq!(Questions::new(RING.into()).tidy(), Ok(RING.into()));
        assert_eq!(Questions::new("".into()).tidy(), Err(Refusal::BookLength));
    }

    #[test]
    fn any_bytes_are_refused() {
        let ask = |book: &str| Questions::new(book.into()).ask(0, 1);
        assert_eq!(ask(""), Err(Refusal::BookLength));
        assert_eq!(ask(&RING.replace("  5", "005")), Err(Refusal::BookLine));
        assert_eq!(ask(&RING.replace("  1  1  5", "  1 99  5")), Err(Refusal::BookHeader));
        assert_eq!(ask(&RING.replace("  2  0  0", "  7  0  0")), Err(Refusal::BookGrammar));
        assert_eq!(Questions::new(RING.into()).ask(1, 1), Err(Refusal::Goal));
        assert_eq!(Questions::new(RING.into()).ask(0, usize::MAX), Err(Refusal::Depth));
    }
}
