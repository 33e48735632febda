//! The verbs that edit a table.

use super::hints::{advised, no_guid, of_add, of_rename, of_resize, of_slot, slot};
use super::words::{copies, described, in_words};
use super::{attributes, otherwise, random_guid};
use crate::arguments::Given;
use crate::block::{self, operand};
use crate::disk::{self, Edited, Ends, Mode};
use crate::failure::{Failure, On};
use crate::json::Json;
use crate::paths::shown;
use crate::report::Report;
use crate::sizes::{self, of_blocks, Size};
use crate::storage::Opened;
use usigrambal::{BlockSize, Disk, Guid, Name, NewPartition, Partition, State};

/// Where `--align` is not given, in blocks.
const ALIGNMENT: u64 = 2048;

pub fn add(given: &Given) -> Result<Report, Failure> {
    let (path, mode) = (given.path(0), mode(given, false)?);
    let kind = given.text("--type")?.unwrap_or("linux");
    let kind = Guid::parse_type(kind).map_err(|refused| no_guid(refused, path, "--type", kind))?;
    let size = Size::parse(given.text("--size")?.unwrap_or_default())?;
    let alignment = alignment(given)?;
    let unique = guid(given)?;
    let (attributes, rule) = (attributes::asked(given)?, attributes::rule(given)?);
    let name = name(given.text("--name")?.unwrap_or_default())?;
    let call = |disk: &mut Disk| {
        let size = size.blocks(disk.block)?;
        let new = NewPartition { kind, unique, size, alignment, attributes, rule, name };
        let placed = disk.add(&new).map_err(|refused| of_add(refused, path, disk, &new))?;
        partition(disk, placed.slot)
    };
    edited(given, mode, call, |added, how| {
        let set = attributes::listed(added.attributes).map(|bits| format!("; attributes {bits}"));
        let told = in_words(added, how.block) + &set.unwrap_or_default();
        let text = format!("{} {told}\n", how.word("added", "would add"));
        let mut json = described(added, how.block);
        json.extend([("alignment", alignment.into()), ("rule", rule.name().into())]);
        (text, json)
    })
}

/// What `--align` says, else what other tools take for disks with blocks of 512 bytes: 1 MiB. Another number than the
/// three is the library's to refuse.
pub fn alignment(given: &Given) -> Result<u64, Failure> {
    let Some(text) = given.text("--align")? else { return Ok(ALIGNMENT) };
    sizes::number(text)
        .map_err(|sentence| Failure::usage(sentence).hint("--align is 1, 8 or 2048, in blocks"))
}

pub fn delete(given: &Given) -> Result<Report, Failure> {
    let (path, mode) = (given.path(0), mode(given, false)?);
    let text = given.word(1, "PARTITION")?;
    let call = |disk: &mut Disk| {
        let slot = slot(disk, path, text)?;
        let held = partition(disk, slot);
        disk.delete(slot).map_err(|refused| of_slot(refused, path, disk, slot))?;
        held
    };
    edited(given, mode, call, |deleted, how| {
        let text = format!("{} {}\n", how.word("deleted", "would delete"), in_words(deleted, how.block));
        (text, described(deleted, how.block))
    })
}

pub fn resize(given: &Given) -> Result<Report, Failure> {
    let (path, mode) = (given.path(0), mode(given, false)?);
    let text = given.word(1, "PARTITION")?;
    let size = Size::parse(given.word(2, "SIZE")?)?;
    let call = |disk: &mut Disk| {
        let size = size.blocks(disk.block)?;
        let slot = slot(disk, path, text)?;
        let held = partition(disk, slot);
        disk.resize(slot, size).map_err(|refused| of_resize(refused, path, disk, slot))?;
        Ok((held?, partition(disk, slot)?))
    };
    edited(given, mode, call, |(before, after), how| {
        let was = of_blocks(before.run().blocks(), how.block);
        let told = in_words(after, how.block);
        let text = format!("{} {told}; before: {was}\n", how.word("resized", "would resize"));
        let mut json = described(after, how.block);
        json.push(("blocks_before", before.run().blocks().into()));
        (text, json)
    })
}

pub fn rename(given: &Given) -> Result<Report, Failure> {
    let (path, mode) = (given.path(0), mode(given, false)?);
    let text = given.word(1, "PARTITION")?;
    let name = name(given.word(2, "NAME")?)?;
    let call = |disk: &mut Disk| {
        let slot = slot(disk, path, text)?;
        let held = partition(disk, slot);
        disk.rename(slot, &name).map_err(|refused| of_rename(refused, path, disk, slot, &name))?;
        Ok((held?, partition(disk, slot)?))
    };
    edited(given, mode, call, |(before, after), how| {
        let told = in_words(after, how.block);
        let text = format!("{} {told}; before: \"{}\"\n", how.word("renamed", "would rename"), before.name);
        let mut json = described(after, how.block);
        json.push(("name_before", before.name.to_text().into()));
        (text, json)
    })
}

pub fn repair(given: &Given) -> Result<Report, Failure> {
    let (path, mode) = (given.path(0), mode(given, false)?);
    let call = |disk: &mut Disk| disk.repair().map_err(|refused| advised(refused, path, disk));
    let look = |opened: &Opened, ends: &Ends| otherwise::decided(path, opened, ends);
    edited_if(given, mode, look, call, |state, how| {
        let was = how.word("was", "would be");
        let what = match state {
            State::Same => "nothing to repair".to_string(),
            State::BackupOnly => format!("the primary {was} written from the backup"),
            State::Different | State::PrimaryOnly => format!("the backup {was} written from the primary"),
        };
        let text = format!("found: {}\n{what}\n", copies(*state));
        (text, vec![("state_found", (*state as u64).into()), ("copies_found", copies(*state).into())])
    })
}

/// The GUID that is given, or a random one.
pub fn guid(given: &Given) -> Result<Guid, Failure> {
    match given.text("--guid")? {
        Some(text) => Guid::parse(text).map_err(|refused| no_guid(refused, given.path(0), "--guid", text)),
        None => random_guid(),
    }
}

/// How an edit is told.
pub struct How {
    dry_run: bool,
    pub block: BlockSize,
}

impl How {
    /// Chooses between what was done and what would be.
    pub fn word(&self, done: &'static str, would: &'static str) -> &'static str {
        if self.dry_run {
            would
        } else {
            done
        }
    }
}

/// Makes an edit and tells of it.
fn edited<T>(
    given: &Given,
    mode: Mode,
    call: impl Fn(&mut Disk) -> Result<T, Failure>,
    tell: impl Fn(&T, &How) -> (String, Vec<(&'static str, Json)>),
) -> Result<Report, Failure> {
    edited_if(given, mode, |_, _| Ok(()), call, tell)
}

/// The same, after a look at what is open.
fn edited_if<T>(
    given: &Given,
    mode: Mode,
    look: impl Fn(&Opened, &Ends) -> Result<(), Failure>,
    call: impl Fn(&mut Disk) -> Result<T, Failure>,
    tell: impl Fn(&T, &How) -> (String, Vec<(&'static str, Json)>),
) -> Result<Report, Failure> {
    let path = given.path(0);
    let edit = disk::edit(path, mode, call, look).on("disk", path);
    Ok(told(given, edit.map_err(|failure| otherwise::advised(failure, path, mode.block))?, tell))
}

pub fn mode(given: &Given, anew: bool) -> Result<Mode, Failure> {
    let block = block::asked(given)?;
    Ok(Mode { dry_run: given.has("--dry-run"), force: given.has("--force"), anew, block })
}

pub fn told<T>(
    given: &Given,
    edit: Edited<T>,
    tell: impl Fn(&T, &How) -> (String, Vec<(&'static str, Json)>),
) -> Report {
    let (path, block) = (given.path(0), edit.block);
    let how = How { dry_run: given.has("--dry-run"), block };
    let (text, told) = tell(&edit.answer, &how);
    let mut json = vec![
        ("disk", path.into()),
        ("block_bytes", block.bytes().into()),
        ("dry_run", how.dry_run.into()),
        ("changed", edit.changed.into()),
    ];
    json.extend(told);
    let written = (edit.changed && !how.dry_run).then(|| {
        format!(
            "{} was written, both copies; usigrambal gpt show {} shows the table",
            shown(path),
            operand(path, block)
        )
    });
    Report::new(text, json).warn(edit.warning).written(written)
}

fn partition(disk: &Disk, slot: u64) -> Result<Partition, Failure> {
    let found = disk.partitions()?.into_iter().find(|partition| partition.slot == slot);
    found.ok_or_else(|| Failure::usage(format!("partition {slot} is not there")))
}

fn name(text: &str) -> Result<Name, Failure> {
    Name::new(text).ok_or_else(|| {
        let units = text.encode_utf16().count();
        Failure::usage(format!("the name has {units} UTF-16 units; a partition's name has at most 36"))
    })
}
