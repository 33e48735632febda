//! A disk may have a table for the other block size: instead of its own, or beside a copy of its own.

use super::why;
use super::words::copies;
use crate::block::{as_device, By};
use crate::disk::{self, Ends};
use crate::failure::Failure;
use crate::paths::shown;
use crate::report::Report;
use crate::storage::Opened;
use std::path::Path;
use usigrambal::{BlockSize, Refusal, State};

/// Reads a disk and tells of it and of its state. A file for which no block size is asked, and which reads with the
/// other one alone, is told of with that.
pub fn read(
    path: &Path,
    asked: Option<BlockSize>,
    tell: impl Fn(&mut Ends) -> Result<(State, Report), Failure>,
) -> Result<Report, Failure> {
    let (opened, mut ends) = disk::read(path, asked)?;
    match tell(&mut ends) {
        Ok((state, report)) => {
            let beside = beside(path, &opened, &ends, state);
            Ok(report.warn(beside.map(|table| format!("{} has another table too, {table}", shown(path)))))
        }
        Err(failure) if unread(&failure) => match whole_otherwise(path, &opened, &ends) {
            Some(mut other) if ends.by == By::Default && reads(&other) => tell(&mut other).map(|told| told.1),
            Some(other) => Err(hinted(failure, path, ends, other)),
            None => Err(failure),
        },
        Err(failure) => Err(failure),
    }
}

/// Whether it is clear which table of a file is to be written, where two have a good copy.
pub fn decided(path: &Path, opened: &Opened, ends: &Ends) -> Result<(), Failure> {
    let state = ends.clone().disk().state()?;
    match beside(path, opened, ends, state).filter(|_| ends.by == By::Default) {
        Some(table) => {
            let own = format!("{} has a copy of a table for blocks of {} bytes", shown(path), ends.block);
            Err(Failure::usage(format!("{own}, and {table}")).hint("--block says which one is meant"))
        }
        None => Ok(()),
    }
}

/// A table for the other block size of which a copy is good too. Two good copies of a disk's own leave it no room.
fn beside(path: &Path, opened: &Opened, ends: &Ends, state: State) -> Option<String> {
    if matches!(state, State::Same | State::Different) {
        return None;
    }
    let mut other = whole_otherwise(path, opened, ends)?;
    let state = other.disk().state().ok()?;
    Some(format!("one for blocks of {} bytes ({})", other.block, copies(state)))
}

/// The failure of an edit, with what the other block size finds where it does not read.
pub fn advised(failure: Failure, path: &Path, asked: Option<BlockSize>) -> Failure {
    if !unread(&failure) {
        return failure;
    }
    let Ok((opened, ends)) = disk::read(path, asked) else { return failure };
    match whole_otherwise(path, &opened, &ends) {
        Some(other) => hinted(failure, path, ends, other),
        None => failure,
    }
}

/// Whether it was reading that was refused.
fn unread(failure: &Failure) -> bool {
    matches!(failure.refusal(), Some(Refusal::BlockCount | Refusal::NeitherGood))
}

fn reads(ends: &Ends) -> bool {
    ends.clone().disk().state().is_ok()
}

fn whole_otherwise(path: &Path, opened: &Opened, ends: &Ends) -> Option<Ends> {
    match opened.facts.ragged(ends.block.other()) {
        Some(_) => None,
        None => ends.otherwise(path, opened).ok(),
    }
}

fn hinted(failure: Failure, path: &Path, mut ends: Ends, mut other: Ends) -> Failure {
    let (own, found, by) = (ends.block, other.block, ends.by);
    let (held, holds) = (ends.disk(), other.disk());
    match holds.state() {
        Ok(state) if by == By::Device => failure.hint(format!(
            "a table for blocks of {found} bytes is there ({}), but the device has blocks of {own}; {}",
            copies(state),
            as_device(path, found)
        )),
        Ok(state) => failure.hint(format!("with --block {found} it reads: {}", copies(state))),
        Err(_) if why::signed(&holds) && !why::signed(&held) => failure.hint(format!(
            "a GPT for blocks of {found} bytes is there, and is not good ({})",
            why::both(&holds)
        )),
        Err(_) => failure,
    }
}
