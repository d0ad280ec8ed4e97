//! Drafts (document 02, item 1): books of other classes whose parts nest more than they need to, and
//! now and then one that is plain.

use super::{books, caches, on, query};
use crate::book::{Book, MAX_LINES, MAX_NEST, Part};
use crate::case::Case;
use crate::random::Random;
use crate::tidy::plain;

pub fn any(r: &mut Random) -> Case {
    let mut book = books::any_small(r);
    let few = r.choose(&[0, 1, 2, 3, 5, 8, 13, 21, 40]);
    let more = if r.chance(2) { MAX_LINES } else { few };
    nest(r, &mut book, more);
    if r.chance(8) {
        (book, _) = plain(&book);
    }
    let count = r.between(1, 4);
    let queries = (0..count).map(|_| query(r, &book, 4)).collect();
    let mut case = on(&book, queries);
    match r.below(8) {
        0 => case.cache = caches::made(r, &book.header),
        1 => case.cache = caches::unusable(r, &book.header),
        _ => {}
    }
    case
}

/// Undoes rules at any places: so many of them, and so many lines more, as far as there is room.
fn nest(r: &mut Random, book: &mut Book, more: usize) {
    let (mut left, mut tries) = (more.min(MAX_LINES - book.lines()), 4 * more);
    while left > 0 && tries > 0 {
        let goal = r.below(book.parts.len());
        left -= usize::from(undo(r, &mut book.parts[goal], 1));
        tries -= 1;
    }
}

/// Undoes a rule somewhere in a part that stands at a level; false where it would nest too deep.
fn undo(r: &mut Random, part: &mut Part, level: usize) -> bool {
    if !part.children().is_empty() && r.chance(70) {
        let at = r.below(part.children().len());
        return part.children_mut().is_some_and(|parts| undo(r, &mut parts[at], level + 1));
    }
    let list = r.choose::<fn(Vec<Part>) -> Part>(&[Part::All, Part::Any]);
    match part {
        Part::All(parts) if r.chance(60) => gather(r, parts, Part::All, level),
        Part::Any(parts) if r.chance(60) => gather(r, parts, Part::Any, level),
        _ if level + part.height() > MAX_NEST => false,
        _ => {
            *part = list(vec![part.clone()]);
            true
        }
    }
}

/// Up to three parts of a list, or none, go into a list of the same kind inside it.
fn gather(
    r: &mut Random,
    parts: &mut Vec<Part>,
    list: fn(Vec<Part>) -> Part,
    level: usize,
) -> bool {
    let from = r.below(parts.len() + 1);
    let to = r.between(from, parts.len().min(from + 3));
    let height = parts[from..to].iter().map(Part::height).max().unwrap_or(0);
    if level + 1 + height > MAX_NEST {
        return false;
    }
    let inner = parts.drain(from..to).collect();
    parts.insert(from, list(inner));
    true
}
