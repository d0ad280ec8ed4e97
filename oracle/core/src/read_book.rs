//! The book reader: refusals 1 to 4, in document 01's order.

use crate::book::{Book, Header, LINE, MAX_LINES, MAX_NEST, Part};

type Fields = [usize; 5];

impl Book {
    /// The book, or the number of the refusal.
    pub fn read(bytes: &[u8]) -> Result<Book, u8> {
        if !bytes.len().is_multiple_of(LINE)
            || bytes.len() < 3 * LINE
            || bytes.len() > MAX_LINES * LINE
        {
            return Err(1);
        }
        let lines: Option<Vec<Fields>> = bytes.chunks(LINE).map(read_line).collect();
        let lines = lines.ok_or(2)?;
        let header = read_header(lines[0]).ok_or(3)?;
        let parts = read_body(&lines[1..], header.goals).ok_or(4)?;
        Ok(Book { header, parts })
    }
}

fn read_line(line: &[u8]) -> Option<Fields> {
    let mut fields = [0; 5];
    for (i, field) in fields.iter_mut().enumerate() {
        *field = read_field(&line[3 * i..3 * i + 3])?;
    }
    (line[15] == 10).then_some(fields)
}

/// A number 0 to 999, right-justified after spaces, without a leading zero.
fn read_field(columns: &[u8]) -> Option<usize> {
    let spaces = columns.iter().take_while(|&&c| c == b' ').count();
    let digits = &columns[spaces..];
    let well_formed = match digits {
        [] => false,
        [b'0', _, ..] => false,
        _ => digits.iter().all(u8::is_ascii_digit),
    };
    well_formed.then(|| digits.iter().fold(0, |n, c| 10 * n + usize::from(c - b'0')))
}

fn read_header([cache, goals, top_depth, step_limit, divisor]: Fields) -> Option<Header> {
    let in_range = cache <= 1
        && (1..=64).contains(&goals)
        && top_depth <= 63
        && step_limit <= 99
        && (1..=99).contains(&divisor);
    let provisional_cache = cache == 1;
    in_range.then_some(Header { provisional_cache, goals, top_depth, step_limit, divisor })
}

fn read_body(lines: &[Fields], goals: usize) -> Option<Vec<Part>> {
    let mut reader = Reader { lines, goals };
    let mut parts = Vec::new();
    for goal in 0..goals {
        if reader.next()? != [1, goal, 0, 0, 0] {
            return None;
        }
        parts.push(reader.part(1, false)?);
    }
    reader.lines.is_empty().then_some(parts)
}

struct Reader<'a> {
    lines: &'a [Fields],
    goals: usize,
}

impl Reader<'_> {
    fn next(&mut self) -> Option<Fields> {
        let (first, rest) = self.lines.split_first()?;
        self.lines = rest;
        Some(*first)
    }

    fn part(&mut self, nest: usize, in_pick: bool) -> Option<Part> {
        if nest > MAX_NEST {
            return None;
        }
        match self.next()? {
            [2, goal, kind, lower, 0] if goal < self.goals && kind <= 3 && lower <= 1 => {
                Some(Part::Call { goal, kind: kind as u8, lower: lower == 1 })
            }
            [3, count, 0, 0, 0] => Some(Part::All(self.parts(count, nest, in_pick)?)),
            [4, count, 0, 0, 0] => Some(Part::Any(self.parts(count, nest, in_pick)?)),
            [5, count, 0, 0, 0] if !in_pick => Some(Part::Pick(self.parts(count, nest, true)?)),
            [6, 0, 0, 0, 0] => Some(Part::Undecided),
            _ => None,
        }
    }

    fn parts(&mut self, count: usize, nest: usize, in_pick: bool) -> Option<Vec<Part>> {
        (0..count).map(|_| self.part(nest + 1, in_pick)).collect()
    }
}
