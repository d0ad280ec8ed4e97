//! Makes a failing list of queries smaller while it still fails.

use crate::book::{Book, Header, Part};
use crate::case::Case;
use crate::slot::{DEPTH, FLAGS, HELD, PASSES};

/// The smallest case that single steps lead to. The cache follows the book.
pub fn shrink(case: &Case, still_fails: &dyn Fn(&Case) -> bool) -> Case {
    let mut best = case.clone();
    while let Some(next) = steps(&best).into_iter().find(|c| still_fails(c)) {
        best = next;
    }
    best
}

/// All cases one step smaller.
fn steps(case: &Case) -> Vec<Case> {
    let mut out = Vec::new();
    for i in 0..case.queries.len() {
        let mut fewer = case.clone();
        fewer.queries.remove(i);
        out.push(fewer);
    }
    let Ok(book) = Book::read(&case.book) else { return out };
    if book.header.goals > 1 {
        out.extend((0..book.header.goals).filter_map(|goal| without_goal(case, &book, goal)));
    }
    for goal in 0..book.parts.len() {
        for smaller in smaller_parts(&book.parts[goal]) {
            let mut book = book.clone();
            book.parts[goal] = smaller;
            out.push(Case { book: book.to_bytes(), ..case.clone() });
        }
    }
    out.extend(smaller_headers(case, &book));
    out.extend(smaller_caches(case, &book));
    out
}

/// The cache with one slot vacant, or with one nested goal or the result less, or one pass.
fn smaller_caches(case: &Case, book: &Book) -> Vec<Case> {
    let mut out = Vec::new();
    if case.cache.len() != book.header.cache_len() {
        return out;
    }
    let held = |start: &usize| case.cache[*start + HELD] != 0;
    for start in (0..case.cache.len()).step_by(book.header.slot_len()).filter(held) {
        let slot = start..start + book.header.slot_len();
        let mut vacant = case.clone();
        vacant.cache[slot.clone()].fill(0);
        out.push(vacant);
        for byte in slot.clone().skip(1) {
            let least = u8::from(byte == slot.start + PASSES);
            if case.cache[byte] > least {
                let mut less = case.clone();
                less.cache[byte] = least;
                out.push(less);
            }
        }
    }
    out
}

/// The part with one piece of it left out or made plainer.
fn smaller_parts(part: &Part) -> Vec<Part> {
    let empty = [Part::Any(vec![]), Part::All(vec![])];
    let mut out = Vec::new();
    if !empty.contains(part) {
        out.extend(empty);
    }
    out.extend(part.children().iter().cloned());
    let wrap: fn(Vec<Part>) -> Part = match part {
        Part::Call { goal, kind, lower } => {
            if *kind != 0 {
                out.push(Part::Call { goal: *goal, kind: 0, lower: *lower });
            }
            out.extend((0..*goal).map(|goal| Part::Call { goal, kind: *kind, lower: *lower }));
            return out;
        }
        Part::All(_) => Part::All,
        Part::Any(_) => Part::Any,
        Part::Pick(_) => Part::Pick,
        Part::Undecided => return out,
    };
    for i in 0..part.children().len() {
        let mut fewer = part.children().to_vec();
        fewer.remove(i);
        out.push(wrap(fewer));
        for smaller in smaller_parts(&part.children()[i]) {
            let mut changed = part.children().to_vec();
            changed[i] = smaller;
            out.push(wrap(changed));
        }
    }
    out
}

/// The book without a goal, if no query asks it; calls of it become an empty any.
fn without_goal(case: &Case, book: &Book, gone: usize) -> Option<Case> {
    if case.queries.iter().any(|q| q.goal == gone) {
        return None;
    }
    let mut book = book.clone();
    book.parts.remove(gone);
    book.header.goals -= 1;
    for part in &mut book.parts {
        *part = renumbered(part, gone);
    }
    let mut out = with_book(case, &book, Some(gone));
    for query in &mut out.queries {
        query.goal -= usize::from(query.goal > gone);
    }
    Some(out)
}

fn renumbered(part: &Part, gone: usize) -> Part {
    let each = |parts: &[Part]| parts.iter().map(|p| renumbered(p, gone)).collect();
    match part {
        Part::Call { goal, .. } if *goal == gone => Part::Any(vec![]),
        Part::Call { goal, kind, lower } => {
            Part::Call { goal: goal - usize::from(*goal > gone), kind: *kind, lower: *lower }
        }
        Part::All(parts) => Part::All(each(parts)),
        Part::Any(parts) => Part::Any(each(parts)),
        Part::Pick(parts) => Part::Pick(each(parts)),
        Part::Undecided => Part::Undecided,
    }
}

fn smaller_headers(case: &Case, book: &Book) -> Vec<Case> {
    let mut out = Vec::new();
    let mut with = |change: &dyn Fn(&mut Book)| {
        let mut changed = book.clone();
        change(&mut changed);
        if changed != *book {
            out.push(with_book(case, &changed, None));
        }
    };
    with(&|b| b.header.top_depth = b.header.top_depth.saturating_sub(1));
    with(&|b| b.header.step_limit /= 2);
    with(&|b| b.header.step_limit = b.header.step_limit.saturating_sub(1));
    with(&|b| b.header.divisor = 1);
    with(&|b| b.header.divisor = b.header.divisor.min(2));
    with(&|b| b.header.provisional_cache = true);
    for query in 0..case.queries.len() {
        let depth = case.queries[query].depth;
        for lower in [depth / 2, depth.saturating_sub(1)] {
            if lower < depth {
                let mut changed = case.clone();
                changed.queries[query].depth = lower;
                out.push(changed);
            }
        }
    }
    out
}

/// The case with another book, in which the goal `gone` is left out; the cache follows, if its
/// length was right.
fn with_book(case: &Case, book: &Book, gone: Option<usize>) -> Case {
    let mut out = Case { book: book.to_bytes(), ..case.clone() };
    if let Ok(old) = Book::read(&case.book)
        && case.cache.len() == old.header.cache_len()
    {
        out.cache = following(&old.header, &book.header, &case.cache, gone);
    }
    let right = Book::read(&case.book).map_or(0, |old| crate::work_len(old.header.goals));
    for query in out.queries.iter_mut().filter(|q| q.work_len == right) {
        query.work_len = crate::work_len(book.header.goals);
    }
    out
}

/// The slots that are left of a cache, without the goal `gone`, without the depths above T and
/// with no more passes than L allows, if they were as many before.
pub(crate) fn following(old: &Header, new: &Header, cache: &[u8], gone: Option<usize>) -> Vec<u8> {
    let mut out = Vec::new();
    for (i, slot) in cache.chunks(old.slot_len()).enumerate() {
        let (goal, number) = (i / old.slots_per_goal(), i % old.slots_per_goal());
        if Some(goal) != gone && number < new.slots_per_goal() {
            let mut head = slot[..FLAGS].to_vec();
            if number == 0 {
                head[DEPTH] = head[DEPTH].min(new.top_depth as u8);
            }
            if usize::from(head[PASSES]) <= old.most_passes() {
                head[PASSES] = head[PASSES].min(new.most_passes() as u8);
            }
            out.extend(head);
            let nested = slot[FLAGS..].iter().enumerate();
            out.extend(nested.filter(|(goal, _)| Some(*goal) != gone).map(|(_, flags)| *flags));
        }
    }
    out
}
