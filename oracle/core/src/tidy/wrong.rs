//! Wrong readings of item 1, to see that drafts find them out.

use super::{OUTPUT, Told, call, call_with, plain, splice_at, written};
use crate::book::{Book, LINE, Part};

/// How item 1 is read.
#[derive(Clone, Copy)]
pub struct Reading {
    pub name: &'static str,
    /// What is read wrongly: the item's text, or a reading of it by its number.
    pub of: &'static str,
    pub what: &'static str,
    how: How,
}

#[derive(Clone, Copy)]
enum How {
    /// Other rules, applied until none fits.
    Rules(Rules),
    /// Each goal's part is tidied otherwise.
    Part(fn(&mut Part)),
    /// The tidy book's bytes are others.
    Bytes(fn(&Book) -> Vec<u8>),
    Call(fn(&[u8], &mut [u8]) -> Told),
}

impl Reading {
    pub fn call(&self, bytes: &[u8], out: &mut [u8]) -> Told {
        let by_parts = |tidy: &dyn Fn(&mut Part), out| {
            call_with(bytes, out, |book| {
                let mut book = book.clone();
                book.parts.iter_mut().for_each(tidy);
                book.to_bytes()
            })
        };
        match self.how {
            How::Rules(rules) => by_parts(&|part| rules.settle(part), out),
            How::Part(tidy) => by_parts(&tidy, out),
            How::Bytes(tidied) => call_with(bytes, out, tidied),
            How::Call(call) => call(bytes, out),
        }
    }
}

/// What a part stands directly in.
#[derive(Clone, Copy, PartialEq, Eq)]
enum Inside {
    Goal,
    List,
    Pick,
}

#[derive(Clone, Copy)]
struct Rules {
    /// Whether a part is spliced into what it stands in, which comes first.
    joins: fn(&Part, &Part) -> bool,
    /// Whether a part becomes its only part, which comes last.
    becomes: fn(Inside, &Part, &Part) -> bool,
    /// Whether tidying goes on inside of a part.
    enters: fn(&Part) -> bool,
}

const RULES: Rules = Rules { joins: alike, becomes: |_, list, _| is_list(list), enters: |_| true };

fn is_list(part: &Part) -> bool {
    matches!(part, Part::All(_) | Part::Any(_))
}

fn is_pick(part: &Part) -> bool {
    matches!(part, Part::Pick(_))
}

fn is_empty(part: &Part) -> bool {
    is_list(part) && part.children().is_empty()
}

fn alike(list: &Part, inner: &Part) -> bool {
    matches!((list, inner), (Part::All(_), Part::All(_)) | (Part::Any(_), Part::Any(_)))
}

impl Rules {
    fn settle(&self, part: &mut Part) {
        while self.step(Inside::Goal, part) {}
    }

    fn step(&self, inside: Inside, part: &mut Part) -> bool {
        if self.apply(inside, part) {
            return true;
        }
        let inside = if is_list(part) { Inside::List } else { Inside::Pick };
        let parts = if (self.enters)(part) { part.children_mut() } else { None };
        parts.into_iter().flatten().any(|part| self.step(inside, part))
    }

    fn apply(&self, inside: Inside, part: &mut Part) -> bool {
        if let Some(at) = part.children().iter().position(|inner| (self.joins)(part, inner)) {
            splice_at(part.children_mut().expect("it has parts"), at);
            return true;
        }
        match part.children() {
            [only] if (self.becomes)(inside, part, only) => {
                *part = only.clone();
                true
            }
            _ => false,
        }
    }
}

const fn reading(name: &'static str, of: &'static str, what: &'static str, how: How) -> Reading {
    Reading { name, of, what, how }
}

pub const RIGHT: Reading = reading("right", "item 1", "as item 1 says", How::Call(call));

const fn joining(joins: fn(&Part, &Part) -> bool) -> How {
    How::Rules(Rules { joins, ..RULES })
}

const fn becoming(becomes: fn(Inside, &Part, &Part) -> bool) -> How {
    How::Rules(Rules { becomes, ..RULES })
}

/// Those of what a book becomes.
#[rustfmt::skip]
const OF_BOOKS: &[Reading] = &[
    reading("nothing", "item 1", "the draft is copied", How::Part(|_| ())),
    reading("all-alone", "item 1", "any inside any stays",
        joining(|list, inner| alike(list, inner) && matches!(list, Part::All(_)))),
    reading("any-alone", "item 1", "all inside all stays",
        joining(|list, inner| alike(list, inner) && matches!(list, Part::Any(_)))),
    reading("any-in-all", "item 1", "an any inside an all is spliced in, and an all inside an any",
        joining(|list, inner| is_list(list) && is_list(inner))),
    reading("never-one", "item 1", "a list of one part stays", becoming(|_, _, _| false)),
    reading("spliced-last", "item 1", "parts that are spliced in come last", How::Part(spliced_last)),
    reading("once", "item 1", "of equal parts of a list one stays", How::Part(|part| once(part, is_list))),
    reading("decided", "item 1", "an all becomes an empty any inside it, an any an empty all", How::Part(decided)),
    reading("empty-stays", "T1", "empty lists stay",
        joining(|list, inner| alike(list, inner) && !is_empty(inner))),
    reading("empty-gone", "T1", "an empty list of the other kind disappears too",
        joining(|list, inner| alike(list, inner) || is_list(list) && is_empty(inner))),
    reading("only-call", "T2", "a list becomes its only part where that is a call",
        becoming(|_, list, only| is_list(list) && matches!(only, Part::Call { .. }))),
    reading("only-undecided", "T2", "a list stays whose only part is an undecided line",
        becoming(|_, list, only| is_list(list) && *only != Part::Undecided)),
    reading("only-pick", "T2", "a list stays whose only part is a pick",
        becoming(|_, list, only| is_list(list) && !is_pick(only))),
    reading("only-empty", "T2", "a list stays whose only part is an empty one",
        becoming(|_, list, only| is_list(list) && !is_empty(only))),
    reading("own-part", "T2", "a goal's own part stays, and its parts are tidied", How::Part(own_part)),
    reading("own-list", "T2", "a goal's own list of one part stays",
        becoming(|inside, list, _| is_list(list) && inside != Inside::Goal)),
    reading("own-alone", "T2", "a goal's own part is tidied, and nothing inside",
        How::Rules(Rules { enters: |_| false, ..RULES })),
    reading("copied", "T3", "a pick's lines are copied untouched",
        How::Rules(Rules { enters: is_list, ..RULES })),
    reading("candidate-stays", "T3", "a candidate of one part stays",
        becoming(|inside, list, _| is_list(list) && inside != Inside::Pick)),
    reading("reversed", "T3", "candidates come in the other order", How::Part(reversed)),
    reading("candidate-once", "T3", "of equal candidates one stays", How::Part(|part| once(part, is_pick))),
    reading("no-candidate", "T3", "an empty any is no candidate",
        joining(|list, inner| alike(list, inner) || is_pick(list) && *inner == Part::Any(vec![]))),
    reading("one-candidate", "T4", "a pick of one candidate becomes it", becoming(|_, _, _| true)),
    reading("any-in-pick", "T4", "an any that is a candidate is spliced in",
        joining(|list, inner| alike(list, inner) || is_pick(list) && matches!(inner, Part::Any(_)))),
    reading("pick-in-any", "T4", "a pick inside an any is spliced in",
        joining(|list, inner| alike(list, inner) || matches!(list, Part::Any(_)) && is_pick(inner))),
    reading("outside-in", "T5", "one round of the rules, outside in", How::Part(outside_in)),
    reading("only-first", "T5", "one round, inside out, and a list of one part becomes it before splicing",
        How::Part(only_first)),
    reading("header", "T6", "a step limit of 0 is written as 1", How::Bytes(header)),
    reading("blanks", "T6", "unused fields are blank", How::Bytes(blanks)),
    reading("own-pick", "T9", "a goal's own pick becomes an any", How::Part(own_pick)),
    reading("own-empty", "T9", "a goal's own empty list is not written", How::Bytes(own_empty)),
    reading("goal-lines", "T9", "goal lines are not written", How::Bytes(goal_lines)),
];

/// Those of output, length and refusals.
#[rustfmt::skip]
const OF_CALLS: &[Reading] = &[
    reading("14-first", "item 1", "14 comes before 1 to 4", How::Call(|book, out| early(book, out, 1))),
    reading("14-before-4", "item 1", "14 comes before 4", How::Call(|book, out| early(book, out, 4))),
    reading("whole-length", "item 1", "the length is the output's",
        How::Call(|book, out| carrying(book, out, |refusal| refusal == 0))),
    reading("lines", "item 1", "the length is told in lines", How::Call(lines)),
    reading("tail-digits", "T6", "the tail is digits", How::Call(|book, out| tail(book, out, b'0'))),
    reading("tail-spaces", "T6", "the tail is spaces", How::Call(|book, out| tail(book, out, b' '))),
    reading("fitting", "T7", "an output is long enough where the tidy book fits into it",
        How::Call(|book, out| accepting(book, out, |out, _, tidy| out >= tidy))),
    reading("tidy-length", "T7", "the output is to be as long as the tidy book",
        How::Call(|book, out| accepting(book, out, |out, _, tidy| out == tidy))),
    reading("longer", "T7", "a longer output is no reason for 14",
        How::Call(|book, out| accepting(book, out, |out, book, _| out >= book))),
    reading("shorter", "T7", "a shorter output is none, where the tidy book fits into it",
        How::Call(|book, out| accepting(book, out, |out, book, tidy| tidy <= out && out <= book))),
    reading("tail-left", "T11", "the tail stays as found", How::Call(tail_left)),
    reading("plain-left", "T11", "where the book is plain, the output stays as found", How::Call(plain_left)),
    reading("refused-zeros", "O4", "refusals 1 to 4 fill the output with zeros",
        How::Call(|book, out| clearing(book, out, |refusal| refusal < OUTPUT))),
    reading("14-zeros", "O4", "14 fills the output with zeros",
        How::Call(|book, out| clearing(book, out, |refusal| refusal == OUTPUT))),
    reading("14-as-much", "O4", "14 writes what there is room for", How::Call(as_much)),
    reading("refused-length", "O8", "refusals 1 to 4 carry the book's length",
        How::Call(|book, out| carrying(book, out, |refusal| (1..OUTPUT).contains(&refusal)))),
    reading("14-length", "O8", "14 carries the book's length",
        How::Call(|book, out| carrying(book, out, |refusal| refusal == OUTPUT))),
];

/// All wrong ones.
pub fn all() -> impl Iterator<Item = Reading> {
    OF_BOOKS.iter().chain(OF_CALLS).copied()
}

pub fn named(name: &str) -> Option<Reading> {
    all().find(|reading| reading.name == name)
}

/// At every place of the part, the inner ones first.
fn everywhere(part: &mut Part, change: &dyn Fn(&mut Part)) {
    part.children_mut().into_iter().flatten().for_each(|part| everywhere(part, change));
    change(part);
}

/// Tidied, changed everywhere, and tidied again.
fn tidied_and(part: &mut Part, change: &dyn Fn(&mut Part)) {
    RULES.settle(part);
    everywhere(part, change);
    RULES.settle(part);
}

fn spliced_last(part: &mut Part) {
    everywhere(part, &|part| {
        while let Some(at) = part.children().iter().position(|inner| alike(part, inner)) {
            let parts = part.children_mut().expect("it has parts");
            let inner = parts.remove(at);
            parts.extend(inner.children().to_vec());
        }
    });
    RULES.settle(part);
}

fn once(part: &mut Part, such: fn(&Part) -> bool) {
    tidied_and(part, &|part| {
        let mut kept: Vec<Part> = Vec::new();
        for inner in part.children() {
            if !kept.contains(inner) {
                kept.push(inner.clone());
            }
        }
        if such(part) {
            part.children_mut().into_iter().for_each(|parts| *parts = kept.clone());
        }
    });
}

fn decided(part: &mut Part) {
    tidied_and(part, &|part| {
        let decides = match part {
            Part::All(_) => Part::Any(vec![]),
            Part::Any(_) => Part::All(vec![]),
            _ => return,
        };
        if part.children().contains(&decides) {
            *part = decides;
        }
    });
}

fn own_part(part: &mut Part) {
    part.children_mut().into_iter().flatten().for_each(|part| RULES.settle(part));
}

fn reversed(part: &mut Part) {
    tidied_and(part, &|part| {
        if let Part::Pick(parts) = part {
            parts.reverse();
        }
    });
}

fn outside_in(part: &mut Part) {
    for _ in 0..=part.children().len() {
        RULES.apply(Inside::Goal, part);
    }
    part.children_mut().into_iter().flatten().for_each(outside_in);
}

fn only_first(part: &mut Part) {
    let joins = Rules { becomes: |_, _, _| false, ..RULES };
    let becomes = Rules { joins: |_, _| false, ..RULES };
    everywhere(part, &|part| {
        becomes.apply(Inside::Goal, part);
        while joins.apply(Inside::Goal, part) {}
    });
}

fn own_pick(part: &mut Part) {
    RULES.settle(part);
    if let Part::Pick(parts) = part {
        *part = Part::Any(std::mem::take(parts));
        RULES.settle(part);
    }
}

fn tidied(book: &Book) -> Vec<u8> {
    plain(book).0.to_bytes()
}

fn header(book: &Book) -> Vec<u8> {
    let mut book = book.clone();
    book.header.step_limit = book.header.most_passes();
    tidied(&book)
}

fn blanks(book: &Book) -> Vec<u8> {
    let mut bytes = tidied(book);
    for line in bytes.chunks_mut(LINE).skip(1) {
        let used = match line[2] {
            b'2' => 4,
            b'6' => 1,
            _ => 2,
        };
        line[3 * used..LINE - 1].fill(b' ');
    }
    bytes
}

/// The tidy book without some lines of its body, each told with the line before it.
fn without(book: &Book, gone: fn(&[u8], &[u8]) -> bool) -> Vec<u8> {
    let bytes = tidied(book);
    let (header, body) = bytes.split_at(LINE);
    let pairs = bytes.chunks(LINE).zip(body.chunks(LINE));
    let kept = pairs.filter(|(before, line)| !gone(before, line)).flat_map(|(_, line)| line);
    header.iter().chain(kept).copied().collect()
}

fn own_empty(book: &Book) -> Vec<u8> {
    without(book, |before, line| {
        before.starts_with(b"  1") && (line.starts_with(b"  3  0") || line.starts_with(b"  4  0"))
    })
}

fn goal_lines(book: &Book) -> Vec<u8> {
    without(book, |_, line| line.starts_with(b"  1"))
}

/// 14 comes before the refusals from `first` on.
fn early(book: &[u8], out: &mut [u8], first: u8) -> Told {
    match Book::read(book) {
        Err(refusal) if refusal < first => Told::refused(refusal),
        _ if out.len() != book.len() => Told::refused(OUTPUT),
        _ => call(book, out),
    }
}

/// 14 where the lengths of output, book and tidy book do not fit.
fn accepting(book: &[u8], out: &mut [u8], fit: fn(usize, usize, usize) -> bool) -> Told {
    let tidied = match Book::read(book) {
        Err(refusal) => return Told::refused(refusal),
        Ok(book) => tidied(&book),
    };
    let fits = fit(out.len(), book.len(), tidied.len());
    if fits { written(&tidied, out) } else { Told::refused(OUTPUT) }
}

/// The right call, then a change of what is told and of the output, which is also told as it was found.
fn then(book: &[u8], out: &mut [u8], change: impl Fn(&mut Told, &mut [u8], &[u8])) -> Told {
    let found = out.to_vec();
    let mut told = call(book, out);
    change(&mut told, out, &found);
    told
}

/// Refusals of some numbers, or none, carry the book's length.
fn carrying(book: &[u8], out: &mut [u8], such: fn(u8) -> bool) -> Told {
    then(book, out, |told, _, _| {
        if such(told.refusal) {
            told.length = book.len();
        }
    })
}

fn lines(book: &[u8], out: &mut [u8]) -> Told {
    then(book, out, |told, _, _| told.length /= LINE)
}

fn tail(book: &[u8], out: &mut [u8], byte: u8) -> Told {
    then(book, out, |told, out, _| {
        if told.refusal == 0 {
            out[told.length..].fill(byte);
        }
    })
}

fn tail_left(book: &[u8], out: &mut [u8]) -> Told {
    then(book, out, |told, out, found| {
        if told.refusal == 0 {
            out[told.length..].copy_from_slice(&found[told.length..]);
        }
    })
}

/// No rule fits where no line is gained.
fn plain_left(book: &[u8], out: &mut [u8]) -> Told {
    then(book, out, |told, out, found| {
        if told.length == book.len() {
            out.copy_from_slice(found);
        }
    })
}

fn clearing(book: &[u8], out: &mut [u8], such: fn(u8) -> bool) -> Told {
    then(book, out, |told, out, _| {
        if told.refusal != 0 && such(told.refusal) {
            out.fill(0);
        }
    })
}

fn as_much(book: &[u8], out: &mut [u8]) -> Told {
    then(book, out, |told, out, _| {
        if told.refusal == OUTPUT {
            let tidied = Book::read(book).map_or(vec![], |book| tidied(&book));
            out.iter_mut().zip(tidied).for_each(|(to, from)| *to = from);
        }
    })
}
