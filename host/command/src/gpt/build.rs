//! The verb that builds a table from a layout string.

use super::edits::{alignment, mode, told};
use super::format::{anew, over};
use super::look::BAR_WIDTH;
use super::strings::{self, Asked};
use super::words::{described, drawing, partition_table, run_table, runs_json};
use crate::arguments::Given;
use crate::block::is_file;
use crate::failure::Failure;
use crate::json::Json;
use crate::paths::shown;
use crate::report::Report;
use crate::sizes::{of_blocks, plural};
use std::fs::File;
use std::os::unix::fs::FileExt;
use std::path::Path;
use usigrambal::{Disk, Free, Guid, Partition, Refused, Run};

const BEGINS: [u8; 10] = *b"uuid_disk=";

/// A disk as it is built.
struct Built {
    n: u64,
    guid: Guid,
    usable: Run,
    free: Free,
    partitions: Vec<Partition>,
    runs: Vec<Run>,
}

impl Built {
    fn of(disk: &Disk) -> Result<Built, Refused> {
        Ok(Built {
            n: disk.n,
            guid: disk.guid()?,
            usable: disk.usable()?,
            free: disk.free()?,
            partitions: disk.partitions()?,
            runs: disk.free_runs()?,
        })
    }
}

pub fn build(given: &Given) -> Result<Report, Failure> {
    let path = given.path(0);
    let (mode, alignment) = (mode(given, true)?, alignment(given)?);
    let source = strings::given(given)?;
    changed_places(path)?;
    let asked = Asked { path, source: &source, alignment };
    let call = |disk: &mut Disk| {
        disk.build(alignment, &source.text).map_err(|refused| strings::refused(refused, &asked, disk))?;
        Ok(Built::of(disk)?)
    };
    let (edit, replaced) = anew(given, mode, call, "the string's table")?;
    let what = replaced.as_ref().map(|found| found.what.clone());
    let report = told(given, edit, |built, how| {
        let drawing = drawing(&built.partitions, &built.runs, BAR_WIDTH as usize);
        let mut text = format!(
            "{} {}: {} of {} bytes, usable {} to {}, disk GUID {}, {}{}\n",
            how.word("built", "would build"),
            shown(path),
            of_blocks(built.n, how.block),
            how.block,
            built.usable.first,
            built.usable.last,
            built.guid,
            plural(built.partitions.len() as u64, "partition"),
            over(&what),
        );
        text += &format!("\n{}", partition_table(&built.partitions, how.block));
        text += &format!("\n{}\n{drawing}\n", run_table(&built.runs, how.block));
        let json = vec![
            ("layout", source.path.map_or(Json::Null, Json::from)),
            ("alignment", alignment.into()),
            ("guid", built.guid.to_string().into()),
            ("blocks", built.n.into()),
            ("first_usable", built.usable.first.into()),
            ("last_usable", built.usable.last.into()),
            ("free_blocks", built.free.blocks.into()),
            ("longest_run", built.free.longest_run.into()),
            (
                "partitions",
                built.partitions.iter().map(|held| Json::Object(described(held, how.block))).collect(),
            ),
            ("free_runs", runs_json(&built.runs, how.block)),
            ("drawing", drawing.into()),
            ("replaced", what.clone().into()),
        ];
        (text, json)
    });
    Ok(report.warn(strings::unfilled_names(&source)).warn(super::format::boot_code(&replaced, mode)))
}

/// A layout string where the disk is due: no file that begins so is one.
fn changed_places(path: &Path) -> Result<(), Failure> {
    let mut begins = [0; BEGINS.len()];
    let mut read = |file: File| file.read_exact_at(&mut begins, 0);
    let there = is_file(path) && File::open(path).and_then(&mut read).is_ok();
    match there && begins == BEGINS {
        true => {
            let what = format!("{} holds a layout string, and stands where the disk is due", shown(path));
            Err(Failure::usage(what).hint("DISK comes first, then LAYOUT"))
        }
        false => Ok(()),
    }
}
