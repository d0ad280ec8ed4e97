//! Stands inside the original's module: what the wrong readings do, where an edit would be long.

use std::cell::Cell;

use super::*;
use crate::hooks::RUNS;
use crate::mutant;

fn strength(kind: PathKind) -> usize {
    [PathKind::Inductive, PathKind::Unknown, PathKind::Coinductive, PathKind::ForcedAmbiguity]
        .iter()
        .position(|k| *k == kind)
        .expect("one of four")
}

impl PathKind {
    pub(super) fn extended_wrongly(self, rest: PathKind) -> Option<PathKind> {
        let (weaker, stronger) =
            if strength(self) <= strength(rest) { (self, rest) } else { (rest, self) };
        match (weaker, stronger) {
            _ if mutant(5) => Some(weaker),
            (PathKind::Unknown, PathKind::Coinductive) if mutant(6) => Some(PathKind::Unknown),
            _ if mutant(7) => Some(self),
            _ => None,
        }
    }
}

impl HeadUsages {
    fn counters(&mut self) -> [&mut u32; 4] {
        [&mut self.inductive, &mut self.unknown, &mut self.coinductive, &mut self.forced_ambiguity]
    }

    fn of_kind(mut self, kind: PathKind) -> u32 {
        *self.counters()[strength(kind)]
    }

    pub(super) fn at_most_one(mut self) -> HeadUsages {
        self.counters().into_iter().for_each(|counter| *counter = (*counter).min(1));
        self
    }

    pub(super) fn add_whole(&mut self, mut usages: HeadUsages) {
        for (counter, more) in self.counters().into_iter().zip(usages.counters()) {
            *counter += *more;
        }
    }

    fn raise_to(&mut self, mut usages: HeadUsages) {
        for (counter, other) in self.counters().into_iter().zip(usages.counters()) {
            *counter = (*counter).max(*other);
        }
    }

    pub(super) fn single_wrongly(self, kind: PathKind) -> Option<bool> {
        match () {
            _ if mutant(1) && self.is_empty() => Some(false),
            _ if mutant(8) && self.of_kind(kind) > 1 => Some(false),
            _ if mutant(9) => Some(self.of_kind(kind) > 0 || self.is_empty()),
            _ if mutant(10) => Some(true),
            _ => None,
        }
    }
}

impl CandidateHeadUsages {
    pub(super) fn merged_wrongly(&mut self, other: &CandidateHeadUsages) -> bool {
        let Some(usages) = &other.usages else { return false };
        if mutant(12) {
            let own = self.usages.get_or_insert_default();
            for (index, usages) in usages.iter() {
                own.entry(*index).or_default().raise_to(*usages);
            }
        } else if mutant(13) {
            self.usages = Some(usages.clone());
        }
        mutant(12) || mutant(13)
    }

    pub(super) fn add_whole(&mut self, head: StackDepth, usages: HeadUsages) {
        self.usages.get_or_insert_default().entry(head).or_default().add_whole(usages);
    }
}

impl PathsToNested {
    pub(super) fn extended_wrongly(mut self, path: PathKind) -> Option<PathsToNested> {
        let flag = PathsToNested::from(path);
        let weaker = PathsToNested::from_bits_retain(flag.bits() - 1);
        match () {
            _ if mutant(14) && self.intersects(weaker) => self.insert(flag),
            _ if mutant(15) => {
                self.remove(weaker);
                self.insert(flag);
            }
            _ if mutant(16) && path == PathKind::Inductive => {}
            _ => return None,
        }
        Some(self)
    }
}

impl CycleHead {
    pub(super) fn joined_wrongly(&mut self, paths: PathsToNested, usages: HeadUsages) -> bool {
        if !(19..=22).any(mutant) {
            return false;
        }
        match () {
            _ if mutant(19) => self.usages.add_whole(usages),
            _ if mutant(20) => {}
            _ => self.usages.add_usages_from_nested(usages),
        }
        match () {
            _ if mutant(21) => self.paths_to_head = paths,
            _ if mutant(22) => {}
            _ => self.paths_to_head |= paths,
        }
        true
    }
}

impl CycleHeads {
    pub(super) fn handed_wrongly(&self) -> impl Iterator<Item = (StackDepth, CycleHead)> + '_ {
        self.iter().filter(|_| !mutant(238)).map(|(index, mut head)| {
            if mutant(239) {
                head.usages = HeadUsages::default();
            }
            (index, head)
        })
    }
}

impl AvailableDepth {
    /// None where the reading is right, else the allowed depth.
    pub(super) fn allowed_wrongly<D: Delegate>(
        root: AvailableDepth,
        stack: &Stack<D::Cx>,
        lower: LowerAvailableDepth,
    ) -> Option<Option<AvailableDepth>> {
        let Some(last) = stack.last() else {
            return match root.0 {
                0 if mutant(40) => Some(None),
                depth if mutant(41) => Some(depth.checked_sub(1).map(AvailableDepth)),
                _ => None,
            };
        };
        let divided = last.available_depth.0 / D::divide_available_depth_on_overflow();
        match (lower, last.available_depth.0) {
            (LowerAvailableDepth::No, 0) if mutant(30) || mutant(32) => Some(None),
            (LowerAvailableDepth::No, depth) if mutant(30) => {
                Some(Some(AvailableDepth(depth - 1)))
            }
            (LowerAvailableDepth::No, _) if mutant(38) && last.encountered_overflow => {
                Some(Some(AvailableDepth(divided)))
            }
            (LowerAvailableDepth::No, _) | (_, 0) => None,
            (_, 1) if mutant(33) => Some(None),
            (_, depth) => {
                let met = last.encountered_overflow;
                let rounded = depth.div_ceil(D::divide_available_depth_on_overflow());
                let wrong = match () {
                    _ if mutant(31) => depth,
                    _ if mutant(34) => depth - 1,
                    _ if mutant(35) => divided,
                    _ if mutant(36) && met => rounded,
                    _ if mutant(37) && met => divided.saturating_sub(1),
                    _ if mutant(39) && met => divided.min(depth - 1),
                    _ => return None,
                };
                Some(Some(AvailableDepth(wrong)))
            }
        }
    }
}

/// The frame's last run is not counted.
pub(super) fn last_run_uncounted(number: u32) {
    if mutant(number) {
        RUNS.set(RUNS.get() - 1);
    }
}

/// One run more is counted than there was.
pub(super) fn run_counted_twice(number: u32) {
    if mutant(number) {
        RUNS.set(RUNS.get() + 1);
    }
}

thread_local! {
    /// Provisional entries kept so far in this evaluation, for reading 298.
    static KEPT: Cell<usize> = const { Cell::new(0) };
}

impl<D: Delegate<Cx = X>, X: Cx> SearchGraph<D> {
    pub(super) fn overflowed_wrongly(
        &mut self,
        cx: X,
        input: X::Input,
        step: PathKind,
    ) -> Option<X::Result> {
        let depth = AvailableDepth(0);
        match () {
            _ if mutant(42) => self.check_cycle_on_stack(cx, input, step, depth),
            _ if mutant(43) => self
                .lookup_provisional_cache(input, step, depth)
                .or_else(|| self.lookup_global_cache(cx, input, step, depth)),
            _ => None,
        }
    }

    pub(super) fn looked_up_wrongly(
        &mut self,
        cx: X,
        input: X::Input,
        step: PathKind,
        depth: AvailableDepth,
    ) -> Option<X::Result> {
        if self.stack.is_empty() {
            KEPT.set(0);
        }
        match () {
            _ if mutant(80) => self.lookup_global_cache(cx, input, step, depth),
            _ if mutant(81) => self.check_cycle_on_stack(cx, input, step, depth),
            _ => None,
        }
    }

    pub(super) fn counted_wrongly(&self) -> Option<usize> {
        KEPT.set(KEPT.get() + 1);
        mutant(298).then(|| KEPT.get())
    }

    pub(super) fn finished_wrongly(
        usages: HeadUsages,
        result: X::Result,
    ) -> Option<RebaseReason<X>> {
        match D::is_ambiguous_result(result) {
            _ if mutant(264) && usages.is_empty() => Some(RebaseReason::NoCycleUsages),
            Some(kind) if mutant(266) => Some(RebaseReason::Ambiguity(kind)),
            _ if mutant(275) => Some(RebaseReason::ReachedFixpoint(None)),
            _ => None,
        }
    }

    pub(super) fn undecided_wrongly(cx: X, input: X::Input) -> RebaseReason<X> {
        let undecided = D::initial_provisional_result(cx, PathKind::Unknown, input);
        RebaseReason::Ambiguity(D::is_ambiguous_result(undecided).expect("undecided is ambiguous"))
    }
}
