//! A book as a tree, and how it is written.

use crate::slot::FLAGS;

pub const LINE: usize = 16;
pub const MAX_LINES: usize = 1000;
pub const MAX_NEST: usize = 8;

pub const INDUCTIVE: u8 = 0;
pub const UNKNOWN: u8 = 1;
pub const COINDUCTIVE: u8 = 2;
pub const FORCED_AMBIGUITY: u8 = 3;

#[derive(Clone, Copy, Debug, PartialEq, Eq)]
pub struct Header {
    pub provisional_cache: bool,
    pub goals: usize,
    pub top_depth: usize,
    /// L, the fixpoint step limit.
    pub step_limit: usize,
    /// V, the divisor of the available depth after an overflow.
    pub divisor: usize,
}

#[derive(Clone, Debug, PartialEq, Eq)]
pub enum Part {
    Call { goal: usize, kind: u8, lower: bool },
    All(Vec<Part>),
    Any(Vec<Part>),
    Pick(Vec<Part>),
    Undecided,
}

/// `parts[g]` is goal g's own part.
#[derive(Clone, Debug, PartialEq, Eq)]
pub struct Book {
    pub header: Header,
    pub parts: Vec<Part>,
}

impl Header {
    pub fn fields(&self) -> [usize; 5] {
        let cache = self.provisional_cache.into();
        [cache, self.goals, self.top_depth, self.step_limit, self.divisor]
    }

    pub fn slots_per_goal(&self) -> usize {
        self.top_depth + 2
    }

    pub fn slot_len(&self) -> usize {
        FLAGS + self.goals
    }

    /// The most runs of a goal's part in one frame: L, and 1 where L is 0.
    pub fn most_passes(&self) -> usize {
        self.step_limit.max(1)
    }

    pub fn cache_len(&self) -> usize {
        self.goals * self.slots_per_goal() * self.slot_len()
    }
}

impl Part {
    pub fn children(&self) -> &[Part] {
        match self {
            Part::All(parts) | Part::Any(parts) | Part::Pick(parts) => parts,
            Part::Call { .. } | Part::Undecided => &[],
        }
    }

    /// None where the line can have no parts.
    pub fn children_mut(&mut self) -> Option<&mut Vec<Part>> {
        match self {
            Part::All(parts) | Part::Any(parts) | Part::Pick(parts) => Some(parts),
            Part::Call { .. } | Part::Undecided => None,
        }
    }

    pub fn lines(&self) -> usize {
        1 + self.children().iter().map(Part::lines).sum::<usize>()
    }

    /// How many levels it takes: 1 where nothing stands below.
    pub fn height(&self) -> usize {
        1 + self.children().iter().map(Part::height).max().unwrap_or(0)
    }

    /// This part and all below it, as their lines follow each other.
    pub fn in_order(&self) -> Vec<&Part> {
        let mut all = vec![self];
        self.children().iter().for_each(|part| all.extend(part.in_order()));
        all
    }

    /// Whether some call line below, or this one, has the kind.
    pub fn has_kind(&self, wanted: u8) -> bool {
        matches!(self, Part::Call { kind, .. } if *kind == wanted)
            || self.children().iter().any(|p| p.has_kind(wanted))
    }

    fn write(&self, out: &mut Vec<u8>) {
        let (code, count) = match self {
            Part::Call { goal, kind, lower } => {
                return write_line(out, [2, *goal, (*kind).into(), (*lower).into(), 0]);
            }
            Part::All(parts) => (3, parts.len()),
            Part::Any(parts) => (4, parts.len()),
            Part::Pick(parts) => (5, parts.len()),
            Part::Undecided => (6, 0),
        };
        write_line(out, [code, count, 0, 0, 0]);
        for part in self.children() {
            part.write(out);
        }
    }
}

impl Book {
    pub fn lines(&self) -> usize {
        1 + self.parts.iter().map(|p| 1 + p.lines()).sum::<usize>()
    }

    pub fn has_kind(&self, kind: u8) -> bool {
        self.parts.iter().any(|p| p.has_kind(kind))
    }

    /// Whether it has both inductive and coinductive steps.
    pub fn is_mixed(&self) -> bool {
        self.has_kind(INDUCTIVE) && self.has_kind(COINDUCTIVE)
    }

    pub fn to_bytes(&self) -> Vec<u8> {
        let mut out = Vec::new();
        write_line(&mut out, self.header.fields());
        for (goal, part) in self.parts.iter().enumerate() {
            write_line(&mut out, [1, goal, 0, 0, 0]);
            part.write(&mut out);
        }
        out
    }
}

/// Five fields of three columns and a newline.
pub fn write_line(out: &mut Vec<u8>, fields: [usize; 5]) {
    for field in fields {
        out.extend(format!("{field:>3}").bytes());
    }
    out.push(b'\n');
}
