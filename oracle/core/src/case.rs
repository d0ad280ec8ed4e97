//! The case format: books, caches and queries with their replies, as text. README.md describes it.

use std::fmt::Write;

use crate::book::LINE;
use crate::reply::{Limits, Outcome, reply_within};
use crate::work_len;

#[derive(Clone, Debug, PartialEq, Eq)]
pub struct Case {
    pub name: String,
    pub book: Vec<u8>,
    pub cache: Vec<u8>,
    pub queries: Vec<Query>,
}

#[derive(Clone, Debug, PartialEq, Eq)]
pub struct Query {
    pub goal: usize,
    pub depth: usize,
    pub work_len: usize,
    pub expected: Option<Expected>,
}

#[derive(Clone, Debug, PartialEq, Eq)]
pub enum Expected {
    /// `cache` is the cache afterwards, where it changed.
    Reply {
        answer: u8,
        refusal: u8,
        cache: Option<Vec<u8>>,
    },
    Panic,
}

impl Query {
    pub fn new(goal: usize, depth: usize, work_len: usize) -> Query {
        Query { goal, depth, work_len, expected: None }
    }
}

impl Case {
    /// What each query gives in turn, with a carried cache; none where it takes too long.
    pub fn replies(&self, limits: Limits) -> Vec<Option<Expected>> {
        let mut cache = self.cache.clone();
        let mut replies = Vec::new();
        for query in &self.queries {
            let before = cache.clone();
            let mut work = vec![0xaa; query.work_len];
            let report =
                reply_within(limits, &self.book, &mut cache, &mut work, query.goal, query.depth);
            replies.push(match report.outcome {
                Outcome::Replied { answer, refusal } => {
                    let cache = (cache != before).then(|| cache.clone());
                    Some(Expected::Reply { answer, refusal, cache })
                }
                Outcome::TooLong => None,
                Outcome::Panicked | Outcome::FrameIsWrong(_) => Some(Expected::Panic),
            });
        }
        replies
    }

    /// The case with the replies filled in; queries that take too long are left out.
    pub fn answered(&self, limits: Limits) -> Case {
        let replies = self.replies(limits);
        let answered = self.queries.iter().zip(replies).filter_map(|(query, reply)| {
            reply.map(|reply| Query { expected: Some(reply), ..query.clone() })
        });
        Case { queries: answered.collect(), ..self.clone() }
    }

    pub fn write(&self, out: &mut String) {
        writeln!(out, "b {}", self.name).unwrap();
        write_book(out, &self.book);
        if self.cache.iter().all(|&b| b == 0) {
            writeln!(out, "z {}", self.cache.len()).unwrap();
        } else {
            writeln!(out, "c {}", to_hex(&self.cache)).unwrap();
        }
        for query in &self.queries {
            write_query(out, query);
        }
        out.push('\n');
    }
}

/// As lines where it consists of printable lines, else in hexadecimal.
fn write_book(out: &mut String, book: &[u8]) {
    let printable = |line: &[u8]| {
        line.len() == LINE && line[15] == b'\n' && line[..15].iter().all(|b| (32..127).contains(b))
    };
    if book.chunks(LINE).all(printable) {
        writeln!(out, "t {}", book.len() / LINE).unwrap();
        out.push_str(std::str::from_utf8(book).unwrap());
    } else {
        writeln!(out, "x {}", to_hex(book)).unwrap();
    }
}

fn write_query(out: &mut String, query: &Query) {
    let Query { goal, depth, work_len, expected } = query;
    match expected {
        None => writeln!(out, "q {goal} {depth} {work_len}").unwrap(),
        Some(Expected::Panic) => writeln!(out, "p {goal} {depth}").unwrap(),
        Some(Expected::Reply { answer, refusal, cache }) => {
            writeln!(out, "q {goal} {depth} {work_len} {answer} {refusal}").unwrap();
            if let Some(cache) = cache {
                writeln!(out, "k {}", to_hex(cache)).unwrap();
            }
        }
    }
}

pub fn to_hex(bytes: &[u8]) -> String {
    bytes.iter().map(|b| format!("{b:02x}")).collect()
}

pub fn from_hex(text: &str) -> Result<Vec<u8>, String> {
    let digit =
        |c: u8| (c as char).to_digit(16).ok_or_else(|| format!("no hexadecimal digit: {c}"));
    if !text.len().is_multiple_of(2) {
        return Err("an odd number of hexadecimal digits".to_string());
    }
    let pairs = text.as_bytes().chunks(2);
    pairs.map(|pair| Ok((16 * digit(pair[0])? + digit(pair[1])?) as u8)).collect()
}

/// All cases of a text; an error names its line.
pub fn read_cases(text: &str) -> Result<Vec<Case>, String> {
    let mut reader = Reader { lines: text.split('\n').collect(), at: 0 };
    let mut cases = Vec::new();
    while let Some(case) =
        reader.case().map_err(|error| format!("case line {}: {error}", reader.at))?
    {
        cases.push(case);
    }
    Ok(cases)
}

struct Reader<'a> {
    lines: Vec<&'a str>,
    at: usize,
}

impl<'a> Reader<'a> {
    fn next(&mut self) -> Option<&'a str> {
        let line = self.lines.get(self.at).copied();
        self.at += 1;
        line
    }

    /// The next line that is no comment.
    fn next_told(&mut self) -> Option<&'a str> {
        loop {
            let line = self.next()?;
            if !line.starts_with('#') {
                return Some(line);
            }
        }
    }

    fn case(&mut self) -> Result<Option<Case>, String> {
        let name = loop {
            match self.next_told() {
                None => return Ok(None),
                Some("") => {}
                Some(line) => {
                    break line.strip_prefix("b ").ok_or("a case begins with `b NAME`")?;
                }
            }
        };
        let book = self.book()?;
        let cache = match split(self.next_told().unwrap_or("")) {
            ("z", length) => vec![0; number(length)?],
            ("c", hex) => from_hex(hex)?,
            _ => return Err("expected `z LEN` or `c HEX`".to_string()),
        };
        let mut queries: Vec<Query> = Vec::new();
        loop {
            match split(self.next_told().unwrap_or("")) {
                ("", "") => break,
                ("q", rest) => queries.push(read_query(rest)?),
                ("p", rest) => queries.push(read_panic(rest, &book)?),
                ("k", hex) => keep_cache(queries.last_mut(), from_hex(hex)?)?,
                _ => return Err("expected `q`, `p`, `k` or an empty line".to_string()),
            }
        }
        Ok(Some(Case { name: name.to_string(), book, cache, queries }))
    }

    fn book(&mut self) -> Result<Vec<u8>, String> {
        match split(self.next_told().unwrap_or("")) {
            ("x", hex) => from_hex(hex),
            ("t", count) => {
                let mut book = Vec::new();
                for _ in 0..number(count)? {
                    let line = self.next().ok_or("the book ends too early")?;
                    if line.len() != LINE - 1 {
                        return Err("a book's line has 15 characters".to_string());
                    }
                    book.extend(line.bytes());
                    book.push(b'\n');
                }
                Ok(book)
            }
            _ => Err("expected `t N` or `x HEX`".to_string()),
        }
    }
}

fn split(line: &str) -> (&str, &str) {
    line.split_once(' ').unwrap_or((line, ""))
}

fn number(text: &str) -> Result<usize, String> {
    text.parse().map_err(|_| format!("no number: {text:?}"))
}

fn numbers(text: &str) -> Result<Vec<usize>, String> {
    text.split(' ').map(number).collect()
}

fn read_query(text: &str) -> Result<Query, String> {
    match numbers(text)?[..] {
        [goal, depth, work_len] => Ok(Query::new(goal, depth, work_len)),
        [goal, depth, work_len, answer, refusal] if answer < 4 && refusal < 256 => {
            let (answer, refusal) = (answer as u8, refusal as u8);
            let expected = Some(Expected::Reply { answer, refusal, cache: None });
            Ok(Query { goal, depth, work_len, expected })
        }
        _ => Err("expected `q GOAL DEPTH WORKLEN ANSWER REFUSAL`".to_string()),
    }
}

fn read_panic(text: &str, book: &[u8]) -> Result<Query, String> {
    let [goal, depth] = numbers(text)?[..] else {
        return Err("expected `p GOAL DEPTH`".to_string());
    };
    let goals = crate::book::Book::read(book).map_or(0, |book| book.header.goals);
    Ok(Query { goal, depth, work_len: work_len(goals), expected: Some(Expected::Panic) })
}

fn keep_cache(query: Option<&mut Query>, bytes: Vec<u8>) -> Result<(), String> {
    match query {
        Some(Query { expected: Some(Expected::Reply { cache, .. }), .. }) => {
            *cache = Some(bytes);
            Ok(())
        }
        _ => Err("`k HEX` follows a `q` line with a reply".to_string()),
    }
}
