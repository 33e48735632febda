//! A disk by its head and tail: read, changed in memory, and written back.

use crate::block::{self, operand, By};
use crate::failure::{Failure, On};
use crate::sizes::plural;
use crate::storage::{about, attached, in_use, open, put, unusable, Access, Opened, Unwritten};
use std::fs::File;
use std::os::unix::fs::FileExt;
use std::path::Path;
use usigrambal::{BlockSize, Disk};

/// On the heap: the stack may be small.
#[derive(Clone, PartialEq, Eq)]
pub struct Ends {
    head: Box<[u8]>,
    tail: Box<[u8]>,
    pub n: u64,
    pub block: BlockSize,
    pub by: By,
}

/// How a disk is to be written.
#[derive(Clone, Copy)]
pub struct Mode {
    pub dry_run: bool,
    pub force: bool,
    /// A new table, not an edit of one that is there.
    pub anew: bool,
    /// The block size that is asked for.
    pub block: Option<BlockSize>,
}

/// What an edit answered, and whether a byte changed.
pub struct Edited<T> {
    pub answer: T,
    pub block: BlockSize,
    pub changed: bool,
    pub warning: Option<String>,
}

impl Ends {
    pub fn disk(&mut self) -> Disk<'_> {
        Disk { head: &mut self.head, tail: &mut self.tail, n: self.n, block: self.block }
    }

    pub fn bytes(&self) -> u64 {
        self.n * self.block.bytes()
    }

    /// The bytes of block 0 that mean something, with either block size.
    pub fn block_0(&self) -> &[u8] {
        &self.head[..512]
    }

    pub fn tail(&self) -> &[u8] {
        &self.tail
    }

    /// Without its record other systems see no table: type EE at byte 450, 55 AA at byte 510.
    pub fn protected(&self) -> bool {
        self.head[450] == 0xEE && self.head[510..512] == [0x55, 0xAA]
    }

    fn read(path: &Path, opened: &Opened, asked: Option<BlockSize>) -> Result<Ends, Failure> {
        let (block, by) = block::of(path, &opened.facts, asked)?;
        let (ragged, other) = (opened.facts.ragged(block), block.other());
        match ragged.map(|fault| about(path, &fault)) {
            Some(failure) if by == By::Option && opened.facts.ragged(other).is_none() => {
                let blocks = plural(opened.facts.bytes / other.bytes(), "block");
                Err(failure.hint(format!("with --block {other} it has {blocks}")))
            }
            Some(failure) => Err(failure),
            None => Ends::with(path, opened, block, by),
        }
    }

    /// A file that is too short for head and tail is taken as zeros: the library refuses its number of blocks.
    fn with(path: &Path, opened: &Opened, block: BlockSize, by: By) -> Result<Ends, Failure> {
        let n = opened.facts.bytes / block.bytes();
        let zeros = |len: usize| vec![0; len].into_boxed_slice();
        let mut ends = Ends { head: zeros(block.head_len()), tail: zeros(block.tail_len()), n, block, by };
        if ends.bytes() >= (ends.head.len() + ends.tail.len()) as u64 {
            let tail_at = ends.tail_at();
            let read = opened.file.read_exact_at(&mut ends.head, 0);
            let read = read.and_then(|()| opened.file.read_exact_at(&mut ends.tail, tail_at));
            read.map_err(|error| unusable(path, "cannot be read", &error))?;
        }
        Ok(ends)
    }

    /// The same disk, or as much of it as are whole blocks, with the other block size.
    pub fn otherwise(&self, path: &Path, opened: &Opened) -> Result<Ends, Failure> {
        Ends::with(path, opened, self.block.other(), By::Table)
    }

    fn tail_at(&self) -> u64 {
        self.bytes() - self.tail.len() as u64
    }
}

/// Opens a disk for reading, and reads it.
pub fn read(path: &Path, asked: Option<BlockSize>) -> Result<(Opened, Ends), Failure> {
    let opened = open(path, Access::Read).on("disk", path)?;
    let ends = Ends::read(path, &opened, asked).on("disk", path)?;
    Ok((opened, ends))
}

/// Makes an edit. It is first tried on a disk that is open for reading only: so a refusal, a dry run and an edit
/// without effect open nothing for writing. Before a new table is written, what is open is looked at.
pub fn edit<T>(
    path: &Path,
    mode: Mode,
    call: impl Fn(&mut Disk) -> Result<T, Failure>,
    look: impl Fn(&Opened, &Ends) -> Result<(), Failure>,
) -> Result<Edited<T>, Failure> {
    let (opened, before) = read(path, mode.block)?;
    let block = before.block;
    let mut after = before.clone();
    let answer = call(&mut after.disk())?;
    let changed = after != before;
    if mode.dry_run {
        let tried = tried(path, mode, &opened, &before, look);
        return tried.map(|warning| Edited { answer, block, changed, warning });
    }
    drop(opened);
    if !changed && !mode.anew {
        return Ok(Edited { answer, block, changed, warning: None });
    }
    let opened = open(path, Access::Write { force: mode.force })?;
    let before = Ends::read(path, &opened, mode.block)?;
    if mode.anew && !mode.force {
        attached(path).map_or(Ok(()), Err)?;
    }
    look(&opened, &before)?;
    let mut after = before.clone();
    let answer = call(&mut after.disk())?;
    write(path, &opened.file, &before, &after, mode.anew)?;
    Ok(Edited { answer, block: before.block, changed: after != before, warning: opened.reread() })
}

/// A dry run: a new table is refused as it would be; an edit tells that the disk is in use.
fn tried(
    path: &Path,
    mode: Mode,
    opened: &Opened,
    before: &Ends,
    look: impl Fn(&Opened, &Ends) -> Result<(), Failure>,
) -> Result<Option<String>, Failure> {
    let used = if mode.force { None } else { in_use(path, opened) };
    match used {
        Some(failure) if mode.anew => return Err(failure),
        _ => look(opened, before)?,
    }
    Ok(used.map(|failure| failure.sentence().to_string()))
}

/// The backup first, then the primary, each flushed: at every moment one copy is whole.
fn write(path: &Path, file: &File, before: &Ends, after: &Ends, anew: bool) -> Result<(), Failure> {
    let (tail_changed, head_changed) = (before.tail != after.tail, before.head != after.head);
    let next = if anew {
        "the same call with --replace writes both copies anew".to_string()
    } else {
        format!(
            "usigrambal gpt repair {} makes both copies alike, gpt show then tells which table holds",
            operand(path, after.block)
        )
    };
    let failed = |copy, other, first: bool, unwritten: Unwritten| match first && unwritten.written == 0 {
        true => about(path, &format!("could not be written, and no byte was: {}", unwritten.words()))
            .hint("the disk is as it was; the same call can be made again"),
        false => about(path, &told(copy, other, &unwritten)).hint(&next),
    };
    if tail_changed {
        let written = put(file, &after.tail, after.tail_at(), &[(0, after.tail.len())]);
        written.map_err(|unwritten| {
            failed("the backup copy", "the primary copy was not touched", true, unwritten)
        })?;
    }
    if head_changed {
        let written = put(file, &after.head, 0, &[(0, after.head.len())]);
        let backup =
            if tail_changed { "the backup copy was written" } else { "the backup copy was not touched" };
        written.map_err(|unwritten| failed("the primary copy", backup, !tail_changed, unwritten))?;
    }
    Ok(())
}

/// What was written, and what was not.
fn told(copy: &str, other: &str, unwritten: &Unwritten) -> String {
    let was = if unwritten.written == 0 { "was not" } else { "was not wholly" };
    format!("could not be written: {other}, {copy} {was}: {}", unwritten.words())
}
