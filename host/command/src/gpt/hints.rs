//! What would help against a refusal of a call on a disk.

use super::words::{copies, numbers};
use super::{attributes, names, why};
use crate::block::{is_file, operand};
use crate::failure::Failure;
use crate::show::printable;
use crate::sizes::{human, of_blocks, plural};
use std::path::Path;
use usigrambal::{BlockSize, Disk, Guid, Name, NewPartition, Partition, Refusal, Refused, State, ALIGNMENTS};

pub const TYPES: &str = "system, msft, data, linux, swap";

/// A refusal of reading, and of every edit.
pub fn advised(refused: Refused, path: &Path, disk: &Disk) -> Failure {
    let hint = match refused.refusal {
        Refusal::BlockCount => Some(block_count(path, disk)),
        Refusal::NoDiskGuid => Some("without --guid a random one is taken".into()),
        Refusal::NeitherGood => Some(format!(
            "{}; usigrambal gpt format {} --dry-run tells what is there",
            why::both(disk),
            operand(path, disk.block)
        )),
        Refusal::NotTheSame => disk.state().ok().map(|state| repairable(state, path, disk.block)),
        Refusal::NoSuchSlot | Refusal::SlotUnused => disk.partitions().ok().map(|held| used(&held)),
        Refusal::NoSize => Some(format!("the least is {}", of_blocks(1, disk.block))),
        Refusal::NoType => Some(format!("a type is a GUID that is not zero, or one of {TYPES}")),
        Refusal::Alignment => Some(alignments(disk.block)),
        Refusal::BadPartitionName => Some("a name ends at its first zero".into()),
        Refusal::NoUnusedSlot => Some(format!(
            "all numbers are in use; usigrambal gpt delete {} NUMBER frees one",
            operand(path, disk.block)
        )),
        _ => None,
    };
    Failure::from(refused).on("disk", path).hint_if(hint)
}

fn block_count(path: &Path, disk: &Disk) -> String {
    let (least, most) = (disk.block.least_blocks(), BlockSize::MOST_BLOCKS);
    let bytes = |blocks: u64, block: BlockSize| human(blocks * block.bytes());
    let (from, to) = (bytes(least, disk.block), bytes(most, disk.block));
    let limits = format!("a disk has {least} to {most} blocks of {} bytes ({from} to {to})", disk.block);
    let longer = BlockSize::Bytes4096;
    match disk.n > most && disk.block != longer && is_file(path) {
        true => format!("{limits}; with --block {longer} a file has up to {}", bytes(most, longer)),
        false => limits,
    }
}

/// What can be chosen, and how many bytes each is.
pub fn alignments(block: BlockSize) -> String {
    let [one, some, most] = ALIGNMENTS.map(|blocks| of_blocks(blocks, block));
    format!("--align is {one}, {some} or {most}")
}

fn repairable(state: State, path: &Path, block: BlockSize) -> String {
    let (to, from) = match state {
        State::BackupOnly => ("primary", "backup"),
        _ => ("backup", "primary"),
    };
    let repair = format!("usigrambal gpt repair {}", operand(path, block));
    format!("{}; {repair} writes the {to} from the {from}", copies(state))
}

fn used(partitions: &[Partition]) -> String {
    let slots: Vec<u64> = partitions.iter().map(|partition| partition.slot).collect();
    match slots[..] {
        [] => "the table has no partitions".to_string(),
        [one] => format!("the one partition has number {one}"),
        _ => format!("the numbers in use are {}", numbers(&slots)),
    }
}

/// The partitions with their names, where they are few.
fn named(partitions: &[Partition]) -> String {
    let named = |partition: &Partition| format!("{} \"{}\"", partition.slot, partition.name);
    match partitions.len() {
        0 | 9.. => used(partitions),
        _ => format!("there are {}", partitions.iter().map(named).collect::<Vec<_>>().join(", ")),
    }
}

/// A refused add.
pub fn of_add(refused: Refused, path: &Path, disk: &Disk, new: &NewPartition) -> Failure {
    let hint = match refused.refusal {
        Refusal::NoRoom => with_less_alignment(disk, new).or_else(|| free_blocks(disk)),
        Refusal::BadUniqueGuid => disk.partitions().ok().map(|held| another_guid(&held, new.unique)),
        Refusal::PartitionNameTaken => names::of_add(path, disk, &new.name),
        Refusal::AttributeBits => Some(attributes::of_add(new)),
        _ => None,
    };
    advised(refused, path, disk).hint_if(hint)
}

/// Where the largest alignment below the one that has no room would place the partition, tried on a copy.
fn with_less_alignment(disk: &Disk, new: &NewPartition) -> Option<String> {
    let mut less = ALIGNMENTS.into_iter().rev().filter(|alignment| *alignment < new.alignment);
    less.find_map(|alignment| {
        let (mut head, mut tail) = (disk.head.to_vec(), disk.tail.to_vec());
        let mut copy = Disk { head: &mut head, tail: &mut tail, n: disk.n, block: disk.block };
        let placed = copy.add(&NewPartition { alignment, ..*new }).ok()?;
        Some(format!("--align {alignment} would place it at block {}", placed.first))
    })
}

/// How many blocks are free, and how many in a row.
pub fn free_blocks(disk: &Disk) -> Option<String> {
    let (free, runs) = (disk.free().ok()?, disk.free_runs().ok()?);
    let longest = of_blocks(free.longest_run, disk.block);
    Some(match runs.len() {
        0 => "no block is free".to_string(),
        1 => format!("the one free run has {longest}"),
        many => {
            let blocks = of_blocks(free.blocks, disk.block);
            format!("the longest free run has {longest}; {blocks} are free in {many} runs")
        }
    })
}

/// Who has the unique GUID, if one has it.
fn another_guid(held: &[Partition], unique: Guid) -> String {
    let holder = held.iter().find(|partition| partition.unique == unique);
    let whose = holder.map_or(String::new(), |holder| format!("partition {} has it; ", holder.slot));
    format!("{whose}without --guid a random one is taken")
}

/// A refused edit of a slot.
pub fn of_slot(refused: Refused, path: &Path, disk: &Disk, slot: u64) -> Failure {
    let failure = advised(refused, path, disk);
    match (refused.refusal, disk.stale_slots(), disk.partitions()) {
        (Refusal::SlotUnused, Ok(stale), Ok(held)) if stale.contains(&slot) => failure.hint(format!(
            "slot {slot} still holds bytes of a deleted partition, which delete does not clear; \
             an add that takes the slot overwrites them all; {}",
            used(&held)
        )),
        _ => failure,
    }
}

/// A refused rename.
pub fn of_rename(refused: Refused, path: &Path, disk: &Disk, slot: u64, name: &Name) -> Failure {
    let hint = match refused.refusal {
        Refusal::PartitionNameTaken => names::of_rename(path, disk, slot, name),
        _ => None,
    };
    of_slot(refused, path, disk, slot).hint_if(hint)
}

/// A refused resize.
pub fn of_resize(refused: Refused, path: &Path, disk: &Disk, slot: u64) -> Failure {
    let failure = of_slot(refused, path, disk, slot);
    if refused.refusal != Refusal::NoRoom {
        return failure;
    }
    match (disk.partitions(), disk.free_runs()) {
        (Ok(held), Ok(runs)) => match held.iter().find(|partition| partition.slot == slot) {
            Some(own) => {
                let behind = runs.iter().find(|run| run.first == own.last + 1);
                let last = behind.map_or(own.last, |run| run.last);
                let most = of_blocks(last - own.first + 1, disk.block);
                failure.hint(format!(
                    "partition {slot} begins at block {} and can have at most {most}",
                    own.first
                ))
            }
            None => failure,
        },
        _ => failure,
    }
}

/// What stands for a GUID and is none: the option, the text and what would be one.
pub fn no_guid(refused: Refused, path: &Path, option: &str, text: &str) -> Failure {
    let words = format!("{}: {option} \"{}\"", refused.sentence(), printable(text));
    let digits = "32 hex digits in groups of 8, 4, 4, 4 and 12";
    let hint = match option {
        "--type" => format!("a type is one of {TYPES} in lower case, or a GUID: {digits}"),
        _ => format!("a GUID is {digits} ({TYPES} are types); without {option} a random one is taken"),
    };
    Failure::refused(refused.refusal, words).hint(hint).on("disk", path)
}

/// A partition that is asked for by its number, its unique GUID or its name.
pub fn slot(disk: &Disk, path: &Path, text: &str) -> Result<u64, Failure> {
    if let Ok(number) = crate::sizes::number(text) {
        return Ok(number);
    }
    let held = disk.partitions().map_err(|refused| advised(refused, path, disk))?;
    let unique = Guid::parse(text).ok();
    let alike: Vec<&Partition> = held
        .iter()
        .filter(|partition| Some(partition.unique) == unique || partition.name.to_text() == text)
        .collect();
    let told = printable(text);
    match alike[..] {
        [one] => Ok(one.slot),
        [] => Err(Failure::usage(format!(
            "no partition has the number, the name or the unique GUID \"{told}\""
        ))
        .hint(named(&held))),
        _ => {
            let numbers: Vec<String> = alike.iter().map(|partition| partition.slot.to_string()).collect();
            Err(Failure::usage(format!("{} are called \"{told}\"", plural(alike.len() as u64, "partition")))
                .hint(format!("the numbers {} tell them apart", numbers.join(", "))))
        }
    }
}

#[cfg(test)]
mod tests {
    use super::*;

    #[test]
    fn the_short_names_are_types() {
        assert!(TYPES.split(", ").all(|name| Guid::parse_type(name).is_ok()));
        assert_eq!(TYPES.split(", ").count(), 5);
    }

    #[test]
    fn numbers_in_use() {
        let one = |slot| Partition {
            slot,
            kind: Guid([1; 16]),
            unique: Guid([1; 16]),
            first: 34,
            last: 34,
            attributes: 0,
            name: Name::EMPTY,
        };
        let told = |slots: &[u64]| used(&slots.iter().map(|slot| one(*slot)).collect::<Vec<_>>());
        assert_eq!(told(&[]), "the table has no partitions");
        assert_eq!(told(&[7]), "the one partition has number 7");
        assert_eq!(told(&[1, 2, 4]), "the numbers in use are 1, 2, 4");
    }
}
