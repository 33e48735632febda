//! Why a layout string is refused. The library's number decides. Which partition it is about, the library tells too: it is the
//! first with which the string up to there is refused. The rest is read from the string and from the table that those before
//! it make.

use super::fields::Part;
use super::numbers::{self, Amount};
use super::reading::{self, Kind};
use super::Source;
use crate::block::operand;
use crate::failure::Failure;
use crate::gpt::hints::{advised, alignments, free_blocks, TYPES};
use crate::json::Json;
use crate::paths::quoted;
use crate::show::printable;
use crate::sizes::{of_blocks, plural};
use std::path::Path;
use usigrambal::{BlockSize, Disk, Guid, Partition, Refusal, Refused, Run, ALIGNMENTS};

const SLOTS: usize = 128;

/// What a build is asked for.
pub struct Asked<'a> {
    pub path: &'a Path,
    pub source: &'a Source<'a>,
    pub alignment: u64,
}

/// A refused build of a disk, with its cause.
pub fn of(refused: Refused, asked: &Asked, disk: &Disk) -> Failure {
    match refused.refusal {
        Refusal::StringForm => form(refused, asked, disk),
        Refusal::NoDiskGuid => advised(refused, asked.path, disk)
            .hint("uuid_disk is all zero; uuidgen prints a GUID that is not"),
        Refusal::WrongLength | Refusal::BlockCount | Refusal::BlockSize => advised(refused, asked.path, disk),
        _ => match reading::read(&asked.source.text) {
            Ok(parts) => Found::of(asked, disk, &parts).failure(refused),
            Err(_) => Failure::from(refused).on("disk", asked.path),
        },
    }
}

/// The string itself is at fault.
fn form(refused: Refused, asked: &Asked, disk: &Disk) -> Failure {
    let failure = Failure::from(refused);
    let failure = match asked.source.path {
        Some(path) => failure.on("layout", path),
        None => failure.on("disk", asked.path),
    };
    let Err(fault) = reading::read(&asked.source.text) else { return failure };
    let number = |name, value: Option<usize>| value.map(|value| (name, Json::from(value as u64)));
    let fields: Vec<(&'static str, Json)> =
        [number("partition", fault.partition), number("byte", fault.byte)].into_iter().flatten().collect();
    let advice = advice(fault.kind, asked, disk.block).map_or(String::new(), |advice| format!("; {advice}"));
    failure.hint(fault.sentence() + &advice).with(&fields)
}

/// How a string gets into form, where a program does it.
fn advice(kind: Kind, asked: &Asked, block: BlockSize) -> Option<String> {
    let (program, does) = match kind {
        Kind::Unfilled => ("envsubst", "fills in what the environment has (fw_printenv prints U-Boot's)"),
        Kind::Blank => ("tr -d '[:space:]'", "takes blanks and line ends out"),
        Kind::Other => return None,
    };
    Some(match asked.source.path.filter(|path| *path != Path::new("-")) {
        Some(path) => {
            let build = format!("usigrambal gpt build {} -", operand(asked.path, block));
            format!("{program} <{} | {build} {does}", quoted(path))
        }
        None => format!("{program} {does}"),
    })
}

/// A table in memory.
struct Scratch {
    head: Vec<u8>,
    tail: Vec<u8>,
    n: u64,
    block: BlockSize,
}

impl Scratch {
    fn disk(&mut self) -> Disk<'_> {
        Disk { head: &mut self.head, tail: &mut self.tail, n: self.n, block: self.block }
    }
}

/// The partition that is at fault, and what those before it leave.
struct Found<'a> {
    asked: &'a Asked<'a>,
    block: BlockSize,
    /// How many partitions the string has.
    count: usize,
    number: usize,
    part: &'a Part<'a>,
    n: u64,
    before: Vec<Partition>,
    /// The free runs, in order, and how many blocks they have in words.
    runs: Vec<Run>,
    room: Option<String>,
}

impl<'a> Found<'a> {
    fn of(asked: &'a Asked, disk: &Disk, parts: &'a [Part]) -> Found<'a> {
        let block = disk.block;
        let (head, tail) = (vec![0; block.head_len()], vec![0; block.tail_len()]);
        let mut scratch = Scratch { head, tail, n: disk.n, block };
        // The GUID is another one than the string's, which does not matter here.
        let _ = scratch.disk().format(Guid([1; 16]));
        let unfit = |(_, part): &(usize, &Part)| {
            let upto = &asked.source.text[..part.end];
            let open = part.size.bytes == 0 && part.end != parts[parts.len() - 1].end;
            open || scratch.disk().build(asked.alignment, upto).is_err()
        };
        let (number, part) = (1..).zip(parts).find(unfit).unwrap_or((parts.len(), &parts[parts.len() - 1]));
        let left = scratch.disk();
        let (before, runs) = (left.partitions().unwrap_or_default(), left.free_runs().unwrap_or_default());
        let room = free_blocks(&left);
        Found { asked, block, count: parts.len(), number, part, n: disk.n, before, runs, room }
    }

    fn failure(&self, refused: Refused) -> Failure {
        let part = format!("partition {} \"{}\"", self.number, printable(self.part.name));
        let words = match refused.refusal {
            Refusal::Alignment => refused.sentence(),
            _ => format!("{}: {part}", refused.words()),
        };
        let number = [("partition", Json::from(self.number as u64))];
        let failure = Failure::refused(refused.refusal, words).on("disk", self.asked.path);
        failure.hint_if(self.hint(refused.refusal)).with(&number)
    }

    fn hint(&self, refusal: Refusal) -> Option<String> {
        match refusal {
            Refusal::NotWholeBlocks => Some(self.uneven()),
            Refusal::StartTaken => Some(self.taken()),
            Refusal::NoSize => Some(format!(
                "size 0 is the rest of a free run in the last partition alone, and this is number {} of {}",
                self.number, self.count
            )),
            Refusal::Alignment => Some(alignments(self.block)),
            Refusal::NoType => {
                Some(format!("type is a GUID that is not zero, or one of {TYPES}; without it data"))
            }
            Refusal::BadUniqueGuid => Some(self.guid_taken()),
            Refusal::PartitionNameTaken => {
                let other = self.before.iter().find(|other| other.name.to_text() == self.part.name)?;
                Some(format!("partition {} has the name too", other.slot))
            }
            Refusal::NoUnusedSlot => {
                Some(format!("a table has {SLOTS} partitions, and the string has {}", self.count))
            }
            Refusal::NoRoom => Some(self.no_room()),
            _ => None,
        }
    }

    fn blocks(&self, blocks: u64) -> String {
        of_blocks(blocks, self.block)
    }

    /// Start and size, those that are no whole blocks, with what would be.
    fn uneven(&self) -> String {
        let block = self.block.bytes();
        let amounts = [("start", self.part.start), ("size", Some(self.part.size))];
        let told = |(key, amount): (&str, Option<Amount>)| {
            let amount = amount.filter(|amount| !amount.bytes.is_multiple_of(block))?;
            let below = amount.bytes - amount.bytes % block;
            let near: Vec<String> = [Some(below).filter(|below| *below > 0), below.checked_add(block)]
                .into_iter()
                .flatten()
                .map(|bytes| format!("{key}={}", numbers::text(bytes)))
                .collect();
            Some(format!("{key}={} is not; {} would be", amount.shown(), near.join(" or ")))
        };
        let uneven: Vec<String> = amounts.into_iter().filter_map(told).collect();
        format!("a block has {block} bytes, of which both must be multiples: {}", uneven.join("; "))
    }

    /// Who has the block at the start, and which starts are free.
    fn taken(&self) -> String {
        let Some(start) = self.part.start else { return String::new() };
        let block = start.bytes / self.block.bytes();
        let (first, tail) = (self.block.first_usable(), self.block.tail_blocks());
        let holder = self.before.iter().find(|held| (held.first..=held.last).contains(&block));
        let whose = match holder {
            Some(held) => {
                let Partition { slot, name, first, last, .. } = held;
                format!("partition {slot} \"{name}\" has blocks {first} to {last}")
            }
            None if block < first => format!("blocks 0 to {} are the primary copy's", first - 1),
            None if block < self.n => {
                format!("blocks {} to {} are the backup copy's", self.n - tail, self.n - 1)
            }
            None => format!("the disk's last block is {}", self.n - 1),
        };
        format!("start={} is block {block}: {whose}; {}", start.shown(), self.free_starts(block))
    }

    /// The lowest free start, and the lowest behind a block.
    fn free_starts(&self, block: u64) -> String {
        let told =
            |block: u64| format!("start={} (block {block})", numbers::text(block * self.block.bytes()));
        let behind = self.runs.iter().find(|run| run.first > block);
        match (self.runs.first(), behind) {
            (None, _) => "no block is free".into(),
            (Some(lowest), Some(next)) if next.first != lowest.first => {
                format!(
                    "the lowest free one is {}, the next behind it {}",
                    told(lowest.first),
                    told(next.first)
                )
            }
            (Some(lowest), _) => format!("the lowest free one is {}", told(lowest.first)),
        }
    }

    fn guid_taken(&self) -> String {
        let unique = self.part.unique;
        let whose = match self.before.iter().find(|other| other.unique == unique) {
            Some(other) => format!("partition {} has the uuid {unique} too", other.slot),
            None => "its uuid is all zero".into(),
        };
        format!("{whose}; uuidgen prints a new one")
    }

    fn no_room(&self) -> String {
        let size = self.part.size.bytes / self.block.bytes();
        if let Some(start) = self.part.start {
            let block = start.bytes / self.block.bytes();
            let run = self.runs.iter().find(|run| (run.first..=run.last).contains(&block));
            let free = self.blocks(run.map_or(0, |run| run.last - block + 1));
            return format!("its size is {}, and from block {block} on {free} are free", self.blocks(size));
        }
        let asked = match size {
            0 => "it takes what is left".into(),
            size => format!("its size is {}", self.blocks(size)),
        };
        let room = self.room.clone().unwrap_or_default();
        let aligned = match self.asked.alignment {
            1 => String::new(),
            alignment => format!(" at a multiple of {}", plural(alignment, "block")),
        };
        match self.with_less_alignment() {
            Some(hint) => format!("{asked}, and no run has that room{aligned}; {hint}"),
            None => format!("{asked}, and {room}"),
        }
    }

    /// The largest alignment below the one that is asked for which the whole string is built.
    fn with_less_alignment(&self) -> Option<String> {
        let mut less = ALIGNMENTS.into_iter().rev().filter(|alignment| *alignment < self.asked.alignment);
        less.find_map(|alignment| {
            let (head, tail) = (vec![0; self.block.head_len()], vec![0; self.block.tail_len()]);
            let mut scratch = Scratch { head, tail, n: self.n, block: self.block };
            scratch.disk().build(alignment, &self.asked.source.text).ok()?;
            Some(format!("with --align {alignment} the string has room"))
        })
    }
}
