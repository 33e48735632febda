//! The verb that writes an empty table, and what every verb that writes one anew looks at.

use super::edits::{guid, mode, told};
use super::found::{self, Found};
use super::hints::advised;
use crate::arguments::Given;
use crate::block::is_file;
use crate::disk::{self, Edited, Ends, Mode};
use crate::failure::{Failure, On};
use crate::paths::shown;
use crate::report::Report;
use crate::sizes::of_blocks;
use crate::storage::{needed, Opened};
use std::cell::RefCell;
use usigrambal::Disk;

pub fn format(given: &Given) -> Result<Report, Failure> {
    let (path, mode) = (given.path(0), mode(given, true)?);
    let guid = guid(given)?;
    let call = |disk: &mut Disk| {
        disk.format(guid).map_err(|refused| advised(refused, path, disk))?;
        Ok((disk.n, disk.usable()?))
    };
    let (edit, replaced) = anew(given, mode, call, "an empty table")?;
    let what = replaced.as_ref().map(|found| found.what.clone());
    let report = told(given, edit, |(n, usable), how| {
        let text = format!(
            "{} {}: {} of {} bytes, usable {} to {}, disk GUID {guid}{}\n",
            how.word("formatted", "would format"),
            shown(path),
            of_blocks(*n, how.block),
            how.block,
            usable.first,
            usable.last,
            over(&what)
        );
        let json = vec![
            ("guid", guid.to_string().into()),
            ("blocks", (*n).into()),
            ("first_usable", usable.first.into()),
            ("last_usable", usable.last.into()),
            ("replaced", what.clone().into()),
        ];
        (text, json)
    });
    Ok(report.warn(boot_code(&replaced, mode)))
}

/// Writes a table anew, and tells over what. In use is judged first, then what is there.
pub fn anew<T>(
    given: &Given,
    mode: Mode,
    call: impl Fn(&mut Disk) -> Result<T, Failure>,
    table: &str,
) -> Result<(Edited<T>, Option<Found>), Failure> {
    let path = given.path(0);
    let replaced: RefCell<Option<Found>> = RefCell::new(None);
    let look = |opened: &Opened, ends: &Ends| {
        let found = found::look(path, opened, ends)?;
        if let Some(found) = &found {
            if !given.has("--replace") {
                return Err(kept(given, found, table));
            }
        }
        replaced.replace(found);
        Ok(())
    };
    let edit = disk::edit(path, mode, call, look).on("disk", path)?;
    Ok((edit, replaced.into_inner()))
}

/// What the new table was written over, as the end of a sentence.
pub fn over(what: &Option<String>) -> String {
    what.iter().map(|what| format!(", over {what}")).collect()
}

/// A warning where block 0 had boot code.
pub fn boot_code(replaced: &Option<Found>, mode: Mode) -> Option<String> {
    let gone = if mode.dry_run { "would be gone" } else { "is gone" };
    let boot_code = replaced.as_ref().filter(|found| found.boot_code);
    boot_code.map(|_| format!("the boot code in block 0 {gone}"))
}

/// What is there stays.
fn kept(given: &Given, found: &Found, table: &str) -> Failure {
    let path = given.path(0);
    let boot_code =
        found.boot_code.then(|| "block 0 has boot code, which a new table overwrites".to_string());
    let hint = match found.other.filter(|_| is_file(path)) {
        Some(other) => format!(
            "--replace writes {table} for blocks of {} bytes over it, with --block {other} one for {other}",
            other.other()
        ),
        None => format!("--replace writes {table} over it"),
    };
    needed(path, &format!("holds {}; nothing was written", found.what)).hint(hint).warn(boot_code)
}
