//! Item 1 of document 02, from its text alone: a book in its plain form, and the call that writes it.

pub mod wrong;

use crate::book::{Book, Part};

/// What the draft is made plain by.
#[derive(Clone, Copy, Debug, PartialEq, Eq)]
pub enum Rule {
    /// An all directly inside an all is spliced in.
    AllInAll,
    /// Likewise any inside any.
    AnyInAny,
    /// An all or any with exactly one part becomes that part.
    OnlyPart,
}

pub const RULES: [Rule; 3] = [Rule::AllInAll, Rule::AnyInAny, Rule::OnlyPart];

impl Rule {
    /// Where the rule fits the part itself, and not inside of it: by the numbers of its parts.
    pub fn places(self, part: &Part) -> Vec<usize> {
        let parts = part.children();
        let fits = |inner: &Part| match self {
            Rule::AllInAll => matches!((part, inner), (Part::All(_), Part::All(_))),
            Rule::AnyInAny => matches!((part, inner), (Part::Any(_), Part::Any(_))),
            Rule::OnlyPart => matches!(part, Part::All(_) | Part::Any(_)) && parts.len() == 1,
        };
        (0..parts.len()).filter(|at| fits(&parts[*at])).collect()
    }

    /// Applies the rule once, at a place where it fits.
    pub fn apply_at(self, part: &mut Part, at: usize) {
        match (self, part.children_mut()) {
            (Rule::AllInAll | Rule::AnyInAny, Some(parts)) => splice_at(parts, at),
            (Rule::OnlyPart, Some(parts)) => *part = parts.remove(at),
            (_, None) => unreachable!("it fits nowhere"),
        }
    }

    /// Applies the rule once, at the first place where it fits; false where there is none.
    pub fn apply(self, part: &mut Part) -> bool {
        let place = self.places(part).into_iter().next();
        place.inspect(|at| self.apply_at(part, *at)).is_some()
    }
}

/// The part gives way to its own parts.
fn splice_at(parts: &mut Vec<Part>, at: usize) {
    let inner = parts[at].children().to_vec();
    parts.splice(at..=at, inner);
}

/// Applies the first rule that fits, at the first line where one does; none where the part is plain.
pub fn step(part: &mut Part) -> Option<Rule> {
    let here = RULES.into_iter().find(|rule| rule.apply(part));
    here.or_else(|| part.children_mut().into_iter().flatten().find_map(step))
}

/// The book in its plain form, and how often each of `RULES` was applied until none fits.
pub fn plain(book: &Book) -> (Book, [u64; RULES.len()]) {
    let (mut plain, mut applied) = (book.clone(), [0; RULES.len()]);
    for part in &mut plain.parts {
        while let Some(rule) = step(part) {
            applied[rule as usize] += 1;
        }
    }
    (plain, applied)
}

/// The refusal of an output that is not as long as the book.
pub const OUTPUT: u8 = 14;

#[derive(Clone, Copy, Debug, PartialEq, Eq)]
pub struct Told {
    /// How many bytes of the output the tidy book takes.
    pub length: usize,
    pub refusal: u8,
}

impl Told {
    fn refused(refusal: u8) -> Told {
        Told { length: 0, refusal }
    }

    /// As the C function returns it.
    pub fn code(self) -> u32 {
        self.length as u32 + 65536 * u32::from(self.refusal)
    }
}

/// The call: refusals 1 to 4, then 14, which leave the output as found; else the tidy book is
/// written, and zeros to the output's end.
pub fn call(bytes: &[u8], out: &mut [u8]) -> Told {
    call_with(bytes, out, |book| plain(book).0.to_bytes())
}

fn call_with(bytes: &[u8], out: &mut [u8], tidied: impl Fn(&Book) -> Vec<u8>) -> Told {
    match Book::read(bytes) {
        Err(refusal) => Told::refused(refusal),
        Ok(_) if out.len() != bytes.len() => Told::refused(OUTPUT),
        Ok(book) => written(&tidied(&book), out),
    }
}

fn written(tidied: &[u8], out: &mut [u8]) -> Told {
    let (used, tail) = out.split_at_mut(tidied.len());
    used.copy_from_slice(tidied);
    tail.fill(0);
    Told { length: tidied.len(), refusal: 0 }
}
