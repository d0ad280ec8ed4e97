//! Books changed in a small place.

use super::shapes::Shape;
use crate::book::{Book, Part};
use crate::random::Random;

/// The book with one to three small changes; it may break the grammar.
pub fn book(r: &mut Random, book: &Book) -> Book {
    let mut book = book.clone();
    for _ in 0..r.choose(&[1, 1, 1, 2, 3]) {
        match r.below(8) {
            0 => header(r, &mut book),
            1 => {
                let (a, b) = (r.below(book.parts.len()), r.below(book.parts.len()));
                book.parts.swap(a, b);
            }
            _ => {
                let goal = r.below(book.parts.len());
                let goals = book.parts.len();
                let node = r.below(book.parts[goal].lines());
                part(r, &mut book.parts[goal], node, goal, goals);
            }
        }
    }
    book
}

fn header(r: &mut Random, book: &mut Book) {
    let header = &mut book.header;
    match r.below(3) {
        0 => header.step_limit = r.between(1, 4),
        1 => header.top_depth = (header.top_depth + r.below(3)).saturating_sub(1).min(8),
        _ => header.divisor = r.between(1, 3),
    }
}

/// Changes the part's piece `node`, counted by lines.
fn part(r: &mut Random, piece: &mut Part, node: usize, goal: usize, goals: usize) {
    if node == 0 {
        return change(r, piece, goal, goals);
    }
    let (Part::All(pieces) | Part::Any(pieces) | Part::Pick(pieces)) = piece else { return };
    let mut left = node - 1;
    for piece in pieces {
        let lines = piece.lines();
        if left < lines {
            return part(r, piece, left, goal, goals);
        }
        left -= lines;
    }
}

fn change(r: &mut Random, piece: &mut Part, goal: usize, goals: usize) {
    let shape = Shape { nest: 2, width: 2, picks: 0, ..Shape::new(vec![0, 0, 2, 1, 3]) };
    let new = shape.part(r, goal, goals);
    match (piece, r.below(4)) {
        (Part::Call { kind, .. }, 0) => *kind = r.choose(&[0, 0, 2, 1, 3]),
        (Part::Call { lower, .. }, 1) => *lower = !*lower,
        (Part::Call { goal, .. }, 2) => *goal = r.below(goals),
        (Part::All(pieces) | Part::Any(pieces) | Part::Pick(pieces), 0) => {
            let place = r.below(pieces.len() + 1);
            pieces.insert(place, new);
        }
        (Part::All(pieces) | Part::Any(pieces) | Part::Pick(pieces), 1) if !pieces.is_empty() => {
            let place = r.below(pieces.len());
            pieces.remove(place);
        }
        (piece @ (Part::All(_) | Part::Any(_) | Part::Pick(_)), 2) => {
            let pieces = piece.children().to_vec();
            *piece = match r.below(3) {
                0 => Part::All(pieces),
                1 => Part::Any(pieces),
                _ => Part::Pick(pieces),
            };
        }
        (piece, _) => *piece = new,
    }
}
