//! Starts at multiples of an alignment.

use super::place::Geometry;
use super::room::Run;
use crate::rules::{AlignmentSlip, Rules, UsedIn};
use AlignmentSlip::*;

/// e5.
pub fn is_taken(rules: &Rules, alignment: u64) -> bool {
    passed_on(rules, alignment).is_some()
}

/// e2: what a start must be a multiple of, by the alignment that the caller states.
fn passed_on(rules: &Rules, alignment: u64) -> Option<u64> {
    let rules = &rules.gpt.alignment;
    let judged = alignment & rules.judged_bits;
    rules.taken.iter().find(|(taken, _)| *taken == judged).map(|(_, step)| *step)
}

/// e1: of each run the part from its lowest multiple on, where it has one.
/// Under an alignment that is refused it is the whole run; no row after that one is asked.
pub fn parts(geometry: Geometry, rule: UsedIn, alignment: u64, runs: &[Run]) -> Vec<Run> {
    let rules = geometry.rules;
    let slip = rules.gpt.alignment.slip.filter(|(at, _)| *at == alignment).map(|(_, slip)| slip);
    let Some(step) =
        passed_on(rules, alignment).filter(|_| slip != Some(RowByRuns) || rule != UsedIn::NoRoom)
    else {
        return runs.to_vec();
    };
    let multiples = Multiples { geometry, step: in_blocks(geometry, slip, step), slip };
    let part = |(place, run): (usize, &Run)| match (slip, place) {
        (Some(FirstRunAlone), 1..) | (Some(LaterRunsAlone), 0) => Some(*run),
        _ => multiples.part(*run),
    };
    runs.iter().enumerate().filter_map(part).collect()
}

fn in_blocks(geometry: Geometry, slip: Option<AlignmentSlip>, step: u64) -> u64 {
    match slip {
        Some(BlocksOf(len)) => (step * len as u64 / geometry.shape.block_len as u64).max(1),
        _ => step,
    }
}

/// Multiples of `step`.
struct Multiples<'a> {
    geometry: Geometry<'a>,
    step: u64,
    slip: Option<AlignmentSlip>,
}

impl Multiples<'_> {
    /// e1, e4: the lowest multiple in the run, and the free blocks from it on.
    fn part(&self, run: Run) -> Option<Run> {
        let first = self.rounded(run.first)?;
        let to_end = (run.first + run.len).checked_sub(first)?;
        let len = match self.slip {
            Some(OneMore) => to_end + 1,
            Some(OneLess) => to_end.saturating_sub(1),
            Some(WholeRun) => run.len,
            Some(LeastOfRun) => run.len.saturating_sub(self.step - 1),
            _ => to_end,
        };
        Some(Run { first, len }).filter(|part| part.len > 0)
    }

    fn rounded(&self, block: u64) -> Option<u64> {
        let Geometry { shape, .. } = self.geometry;
        let origin =
            if self.slip == Some(FromFirstUsable) { self.geometry.block(shape.usable_first) } else { 0 };
        let past = match self.slip {
            Some(NextMultiple) => self.step,
            Some(RoundedDown) => 0,
            _ => self.step - 1,
        };
        let bits = if self.slip == Some(RoundedIn32Bits) { 0xFFFF_FFFF } else { u128::MAX };
        let sum = (u128::from(block - origin) + u128::from(past)) & bits;
        u64::try_from(sum).ok().map(|sum| origin + sum / self.step * self.step)
    }
}
