use super::entry::Entry;
use super::place::Geometry;
use crate::rules::{Longest, Rules, Start};

/// Consecutive free blocks.
#[derive(Clone, Copy, Debug, PartialEq, Eq)]
pub struct Run {
    pub first: u64,
    pub len: u64,
}

/// D21: the runs of usable blocks in none of the partitions, in ascending order.
pub fn runs(geometry: Geometry, used: &[Entry]) -> Vec<Run> {
    let mut ranges: Vec<_> = used.iter().map(|entry| (entry.first, entry.last)).collect();
    ranges.sort();
    let mut runs = Vec::new();
    let mut next = geometry.block(geometry.shape.usable_first);
    for (first, last) in ranges {
        push(&mut runs, next, first);
        next = next.max(last.saturating_add(1));
    }
    push(&mut runs, next, geometry.block(geometry.shape.usable_last).saturating_add(1));
    runs
}

fn push(runs: &mut Vec<Run>, first: u64, end: u64) {
    if first < end {
        runs.push(Run { first, len: end - first });
    }
}

pub fn total(runs: &[Run]) -> u64 {
    runs.iter().map(|run| run.len).sum()
}

/// D12: the longest run, 0 if there is none.
pub fn longest(rule: Longest, runs: &[Run]) -> u64 {
    let found = match rule {
        Longest::Run => runs.iter().map(|run| run.len).max(),
        Longest::AllRuns => Some(total(runs)),
        Longest::FirstRun => runs.first().map(|run| run.len),
        Longest::LastRun => runs.last().map(|run| run.len),
    };
    found.unwrap_or(0)
}

/// R13: whether none of the runs, or of parts of them, has room.
pub fn none_fits(rules: &Rules, runs: &[Run], size: u64) -> bool {
    match rules.gpt.room {
        Longest::Run => !runs.iter().any(|run| fits(rules, run, size)),
        other => longest(other, runs) < size,
    }
}

fn fits(rules: &Rules, run: &Run, size: u64) -> bool {
    let end = (u128::from(run.first) + u128::from(size)) & rules.gpt.room_bits;
    end <= u128::from(run.first) + u128::from(run.len)
}

/// D15, e1: where a new partition of `size` blocks starts in these runs, or parts of runs.
pub fn start(rules: &Rules, runs: &[Run], size: u64) -> Option<u64> {
    let mut fitting = runs.iter().filter(|run| fits(rules, run, size));
    Some(match rules.gpt.start {
        Start::Lowest => fitting.next()?.first,
        Start::InHighestRun => fitting.next_back()?.first,
        Start::Highest => fitting.next_back().map(|run| run.first + run.len - size)?,
        Start::InShortestRun => fitting.min_by_key(|run| run.len)?.first,
        Start::InLongestRun => fitting.max_by_key(|run| run.len)?.first,
    })
}
