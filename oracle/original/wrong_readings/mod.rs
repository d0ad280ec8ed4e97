//! Wrong readings of the original: edits on top of edits.rs, each behind a switch. `mutant(n)` is
//! true when number n is switched on. Numbers 100 to 199 and from 300 on stand in
//! core/wrong_readings.rs.

mod cache;
mod depths;
mod evaluation;
mod lookups;
mod parents;
mod rebasing;
mod reruns;
mod values;

use crate::Edit;
use crate::apply::edit;

pub struct Topic {
    /// Each wrong reading's number, and what it does.
    pub readings: &'static [(u32, &'static str)],
    pub edits: &'static [Edit],
}

pub const TOPICS: &[Topic] = &[
    Topic { readings: values::READINGS, edits: values::EDITS },
    Topic { readings: depths::READINGS, edits: depths::EDITS },
    Topic { readings: parents::READINGS, edits: parents::EDITS },
    Topic { readings: evaluation::READINGS, edits: evaluation::EDITS },
    Topic { readings: rebasing::READINGS, edits: rebasing::EDITS },
    Topic { readings: lookups::READINGS, edits: lookups::EDITS },
    Topic { readings: reruns::READINGS, edits: reruns::EDITS },
    Topic { readings: cache::READINGS, edits: cache::EDITS },
];
