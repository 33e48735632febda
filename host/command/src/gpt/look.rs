//! The verbs that only read.

use super::hints::advised;
use super::words::{copies, described, drawing, partition_table, run_table, runs_json, stale};
use super::{names, otherwise, strings};
use crate::arguments::Given;
use crate::block::{self, as_device, is_file, note, operand};
use crate::disk::Ends;
use crate::failure::Failure;
use crate::json::Json;
use crate::paths::{quoted, shown};
use crate::report::Report;
use crate::sizes::{self, of_blocks};
use std::path::Path;
use usigrambal::{BlockSize, State};

const NO_RECORD: &str =
    "block 0 has no protective record (EE at byte 450, 55 AA at byte 510): other systems see no table";

/// Columns of a drawing, where nothing else is said.
pub const BAR_WIDTH: u64 = 64;
const BAR_MAX: u64 = 10_000;

pub fn show(given: &Given) -> Result<Report, Failure> {
    let width = given.text("--width")?.map_or(Ok(BAR_WIDTH), sizes::number)?;
    if !(1..=BAR_MAX).contains(&width) {
        return Err(Failure::usage(format!("--width must be 1 to {BAR_MAX}")));
    }
    otherwise::read(given.path(0), block::asked(given)?, |ends| shown_disk(given, ends, width as usize))
}

fn shown_disk(given: &Given, ends: &mut Ends, width: usize) -> Result<(State, Report), Failure> {
    let (path, block, by) = (given.path(0), ends.block, ends.by);
    let unprotected = (!ends.protected()).then(|| NO_RECORD.to_string());
    let disk = ends.disk();
    let state = disk.state().map_err(|refused| advised(refused, path, &disk))?;
    let (partitions, runs) = (disk.partitions()?, disk.free_runs()?);
    let (slots, shared) = (disk.stale_slots()?, disk.shared_names()?);
    let (guid, free, usable) = (disk.guid()?, disk.free()?, disk.usable()?);
    let drawing = drawing(&partitions, &runs, width);
    let string = given.has("--layout").then(|| strings::of_disk(path, &disk)).transpose()?;
    if given.has("--json") {
        let described = |partition| Json::Object(described(partition, block));
        let mut json = vec![
            ("disk", path.into()),
            ("blocks", disk.n.into()),
            ("block_bytes", block.bytes().into()),
            ("block_by", by.name().into()),
            ("guid", guid.to_string().into()),
            ("state", (state as u64).into()),
            ("copies", copies(state).into()),
            ("first_usable", usable.first.into()),
            ("last_usable", usable.last.into()),
            ("free_blocks", free.blocks.into()),
            ("longest_run", free.longest_run.into()),
            ("partitions", partitions.iter().map(described).collect()),
            ("shared_names", names::shared_json(&shared)),
            ("stale_slots", slots.into_iter().collect()),
            ("free_runs", runs_json(&runs, block)),
            ("drawing", drawing.into()),
        ];
        json.extend(string.map(|string| ("layout_string", string.into())));
        return Ok((state, Report::new("", json).warn(unprotected)));
    }
    if let Some(string) = string {
        return Ok((state, Report::new(string + "\n", Vec::new()).warn(unprotected)));
    }
    let mut text = format!("{}: {} of {block} bytes\n", shown(path), of_blocks(disk.n, block));
    text += &note(block, by);
    text += &format!("disk GUID:     {guid}\n");
    text += &format!("table:         {}\n", copies(state));
    text += &format!("usable blocks: {} to {}\n", usable.first, usable.last);
    text += &format!(
        "free:          {}, longest run {}\n",
        of_blocks(free.blocks, block),
        of_blocks(free.longest_run, block)
    );
    text.extend(stale(&slots).map(|words| format!("stale:         {words}\n")));
    text.extend(shared.iter().map(|name| format!("same name:     {}\n", names::shared(name))));
    text += "\n";
    text += &match partitions.is_empty() {
        true => "no partitions\n".to_string(),
        false => partition_table(&partitions, block),
    };
    text += &format!("\n{}\n{drawing}\n", run_table(&runs, block));
    Ok((state, Report::new(text, Vec::new()).warn(unprotected)))
}

pub fn free(given: &Given) -> Result<Report, Failure> {
    otherwise::read(given.path(0), block::asked(given)?, |ends| counted(given.path(0), ends))
}

fn counted(path: &Path, ends: &mut Ends) -> Result<(State, Report), Failure> {
    let (block, by) = (ends.block, ends.by);
    let disk = ends.disk();
    let state = disk.state().map_err(|refused| advised(refused, path, &disk))?;
    let free = disk.free()?;
    let runs = disk.free_runs()?;
    let mut text = format!("{}:\n{}", shown(path), note(block, by));
    text += &format!("free:        {}\n", of_blocks(free.blocks, block));
    text += &format!("longest run: {}\n", of_blocks(free.longest_run, block));
    if !runs.is_empty() {
        text += &format!("\n{}", run_table(&runs, block));
    }
    let json = vec![
        ("disk", path.into()),
        ("block_bytes", block.bytes().into()),
        ("block_by", by.name().into()),
        ("free_blocks", free.blocks.into()),
        ("longest_run", free.longest_run.into()),
        ("free_runs", runs_json(&runs, block)),
    ];
    Ok((state, Report::new(text, json)))
}

pub fn verify(given: &Given) -> Result<Report, Failure> {
    otherwise::read(given.path(0), block::asked(given)?, |ends| verified(given.path(0), ends))
}

fn verified(path: &Path, ends: &mut Ends) -> Result<(State, Report), Failure> {
    let (block, by, protected) = (ends.block, ends.by, ends.protected());
    let disk = ends.disk();
    let state = disk.state().map_err(|refused| advised(refused, path, &disk))?;
    let (slots, shared) = (disk.stale_slots()?, disk.shared_names()?);
    let alike = state == State::Same;
    let mut text = format!("{}: {}\n{}", shown(path), copies(state), note(block, by));
    text.extend(
        stale(&slots).map(|words| format!("note: {words}; that is no fault, and adding overwrites them\n")),
    );
    if !protected {
        text += &format!("{}: {NO_RECORD}\n", shown(path));
    }
    let empty = disk.partitions().is_ok_and(|partitions| partitions.is_empty());
    let record = record(path, block, empty);
    let repair = format!("usigrambal gpt repair {} makes both copies alike", operand(path, block));
    let hint = match (alike, protected) {
        (true, true) => None,
        (false, true) => Some(repair),
        (false, false) => Some(format!("{repair}; {record}")),
        (true, false) => Some(record),
    };
    text.extend(hint.iter().map(|hint| format!("hint: {hint}\n")));
    let json = vec![
        ("disk", path.into()),
        ("block_bytes", block.bytes().into()),
        ("block_by", by.name().into()),
        ("verified", (alike && protected).into()),
        ("state", (state as u64).into()),
        ("copies", copies(state).into()),
        ("protective_record", protected.into()),
        ("shared_names", names::shared_json(&shared)),
        ("stale_slots", slots.into_iter().collect()),
        ("hint", hint.into()),
    ];
    let report = Report::new(text, json).warn(shared.iter().map(|name| names::warning(path, block, name)));
    Ok((state, if alike && protected { report } else { report.found() }))
}

/// How the record of block 0 is written. sgdisk takes every file with 512.
fn record(path: &Path, block: BlockSize, empty: bool) -> String {
    if empty {
        let operand = operand(path, block);
        return format!("usigrambal gpt format {operand} --replace writes the record, with an empty table");
    }
    let kept = "gpt repair leaves block 0 as it is";
    match is_file(path) && block != BlockSize::Bytes512 {
        true => format!("{kept}; {}, on which sgdisk -e writes the record", as_device(path, block)),
        false => format!("{kept}; sgdisk -e {} writes the record", quoted(path)),
    }
}
