//! Books that are spoiled in one to three places.

use crate::book::{Book, LINE, Part, write_line};
use crate::random::Random;

pub fn book(r: &mut Random, book: &Book) -> Vec<u8> {
    if r.chance(25) {
        return wrong_tree(r, book).to_bytes();
    }
    let mut bytes = book.to_bytes();
    for _ in 0..r.choose(&[1, 1, 1, 2, 3]) {
        match r.below(10) {
            0 => spoil_byte(r, &mut bytes),
            1 => change_length(r, &mut bytes),
            2 => change_lines(r, &mut bytes),
            3 => spoil_header(r, &mut bytes),
            4 | 5 => change_field(r, &mut bytes),
            6 => ill_form_field(r, &mut bytes),
            7 => change_count(r, &mut bytes),
            8 => odd_length(r, &mut bytes),
            _ => add_unused_field(r, &mut bytes),
        }
    }
    bytes
}

fn spoil_byte(r: &mut Random, bytes: &mut [u8]) {
    if !bytes.is_empty() {
        let at = r.below(bytes.len());
        bytes[at] = match r.below(4) {
            0 => b' ',
            1 => b'0' + r.below(10) as u8,
            2 => b'\n',
            _ => r.number() as u8,
        };
    }
}

fn change_length(r: &mut Random, bytes: &mut Vec<u8>) {
    let length = match r.below(4) {
        0 => r.below(bytes.len() + 1),
        1 => r.below(5) * LINE,
        2 => bytes.len() + r.between(1, 2 * LINE),
        _ => 16_000 + r.below(3) * LINE,
    };
    let last_line = bytes[bytes.len().saturating_sub(LINE)..].to_vec();
    while bytes.len() < length && !last_line.is_empty() {
        bytes.extend(&last_line);
    }
    bytes.truncate(length);
}

fn odd_length(r: &mut Random, bytes: &mut Vec<u8>) {
    if r.chance(50) {
        bytes.pop();
    } else {
        bytes.push(b'\n');
    }
}

/// A line is left out, doubled, or changes places with another.
fn change_lines(r: &mut Random, bytes: &mut Vec<u8>) {
    let mut lines: Vec<Vec<u8>> = bytes.chunks(LINE).map(<[u8]>::to_vec).collect();
    if lines.is_empty() {
        return;
    }
    let (at, to) = (r.below(lines.len()), r.below(lines.len()));
    match r.below(3) {
        0 => drop(lines.remove(at)),
        1 => lines.insert(to, lines[at].clone()),
        _ => lines.swap(at, to),
    }
    *bytes = lines.concat();
}

fn set_field(bytes: &mut [u8], line: usize, field: usize, text: &[u8]) {
    let start = line * LINE + 3 * field;
    if let Some(columns) = bytes.get_mut(start..start + 3) {
        columns.copy_from_slice(text);
    }
}

fn number(value: usize) -> Vec<u8> {
    format!("{value:>3}").into_bytes()
}

fn spoil_header(r: &mut Random, bytes: &mut [u8]) {
    let field = r.below(5);
    let value = match field {
        0 => r.between(2, 9),
        1 => r.choose(&[0, 65, 66, 128, 999]),
        2 => r.choose(&[64, 65, 100, 999]),
        3 => r.choose(&[100, 101, 256, 999]),
        _ => r.choose(&[0, 100, 101, 999]),
    };
    set_field(bytes, 0, field, &number(value));
}

fn change_field(r: &mut Random, bytes: &mut [u8]) {
    let line = r.below(bytes.len() / LINE + 1);
    let value = match r.below(3) {
        0 => r.below(8),
        1 => r.below(70),
        _ => r.below(1000),
    };
    let field = r.below(5);
    set_field(bytes, line, field, &number(value));
}

/// Blank, left-justified, with a leading zero, or with a sign.
fn ill_form_field(r: &mut Random, bytes: &mut [u8]) {
    let line = r.below(bytes.len() / LINE + 1);
    let texts: [&[u8; 3]; 9] =
        [b"   ", b"1  ", b" 0 ", b" 00", b"000", b" 01", b" +1", b"0 0", b"1 1"];
    let (field, text) = (r.below(5), r.choose(&texts));
    set_field(bytes, line, field, text);
}

/// The count of an all, any or pick becomes one more or less.
fn change_count(r: &mut Random, bytes: &mut [u8]) {
    let line = r.below(bytes.len() / LINE + 1);
    let value = r.below(5);
    set_field(bytes, line, 1, &number(value));
}

fn add_unused_field(r: &mut Random, bytes: &mut [u8]) {
    let line = r.below(bytes.len() / LINE + 1);
    let (field, value) = (r.between(2, 4), r.between(1, 3));
    set_field(bytes, line, field, &number(value));
}

/// A tree that is written well and breaks the grammar, or just does not.
fn wrong_tree(r: &mut Random, book: &Book) -> Book {
    let mut book = book.clone();
    let goal = r.below(book.parts.len());
    let inner =
        if r.chance(50) { Part::Undecided } else { Part::Call { goal, kind: 0, lower: true } };
    match r.below(4) {
        // Nested 7 to 10 deep.
        0 | 1 => {
            let depth = r.between(7, 10);
            book.parts[goal] = (1..depth).fold(inner, |part, _| Part::All(vec![part]));
        }
        // A pick inside a pick, with something between.
        2 => {
            let between = r.below(4);
            let low = Part::Pick(vec![inner]);
            let mid = (0..between).fold(low, |part, _| Part::Any(vec![part]));
            book.parts[goal] = Part::Pick(vec![Part::All(vec![]), mid]);
        }
        // A call of a goal that is not there, or of no kind.
        _ => {
            let (goals, kind) = (book.parts.len(), r.between(0, 4) as u8);
            book.parts[goal] = Part::Call { goal: goals - r.below(2), kind, lower: true };
        }
    }
    book
}

/// A line of five numbers, for examples.
pub fn line(fields: [usize; 5]) -> Vec<u8> {
    let mut out = Vec::new();
    write_line(&mut out, fields);
    out
}
