//! A disk as a layout string, which builds the same table again.

use super::numbers;
use crate::block::operand;
use crate::failure::Failure;
use crate::gpt::{attributes, words};
use crate::storage::about;
use std::path::Path;
use usigrambal::{BlockSize, Disk, Name, Partition, Refused, STRING_MAX};

/// The attributes that `bootable` says.
const BOOTABLE: u64 = 4;

/// Of more the first are told.
const TOLD: usize = 4;

/// The string, or what it cannot say.
pub fn of_disk(path: &Path, disk: &Disk) -> Result<String, Failure> {
    let partitions = disk.partitions()?;
    let mut faults = unsaid(&partitions);
    let string = string(disk, &partitions)?;
    if string.len() > STRING_MAX {
        faults.push(format!("it would have {} bytes, of at most {STRING_MAX}", string.len()));
    }
    if faults.is_empty() {
        faults.extend(not_the_same(disk, &partitions, &string)?);
    }
    match faults.is_empty() {
        true => Ok(string),
        false => {
            let more = faults.len().saturating_sub(TOLD);
            faults.truncate(TOLD);
            faults.extend((more > 0).then(|| format!("and {more} more")));
            let failure = about(path, &format!("cannot be told as a layout string: {}", faults.join("; ")));
            Err(failure.on("disk", path).hint_if(renamed(path, disk.block, &partitions)))
        }
    }
}

/// Starts as they stand, sizes in bytes, types by their short names where they have one.
fn string(disk: &Disk, partitions: &[Partition]) -> Result<String, Refused> {
    let part = |partition: &Partition| {
        let bytes = |blocks: u64| numbers::text(blocks * disk.block.bytes());
        let bootable = if partition.attributes == BOOTABLE { ",bootable" } else { "" };
        format!(
            ";name={},start={},size={},type={},uuid={}{bootable}",
            partition.name.to_text(),
            bytes(partition.first),
            bytes(partition.run().blocks()),
            words::kind(partition.kind),
            partition.unique
        )
    };
    Ok(format!("uuid_disk={}{}", disk.guid()?, partitions.iter().map(part).collect::<String>()))
}

/// What a layout string has no words for.
fn unsaid(partitions: &[Partition]) -> Vec<String> {
    let Some(last) = partitions.last() else {
        return vec!["it has no partition, and a layout string has at least one".into()];
    };
    let unused: Vec<u64> =
        (1..last.slot).filter(|slot| partitions.iter().all(|partition| partition.slot != *slot)).collect();
    let slots = match unused[..] {
        [] => None,
        [one] => Some(format!("slot {one} is unused")),
        _ => Some(format!("slots {} are unused", words::numbers(&unused))),
    };
    let gap = slots.map(|slots| format!("{slots}, and a layout string fills them from 1 on without a gap"));
    let of_partition = |partition: &Partition| {
        let Partition { slot, name, .. } = partition;
        let name = (!sayable(name)).then(|| {
            format!("the name of partition {slot}, \"{name}\", is not 1 to 36 bytes of 21 to 7E hex without comma and semicolon")
        });
        let set = partition.attributes;
        let bits = (set != 0 && set != BOOTABLE).then(|| {
            let set = attributes::listed(set).unwrap_or_default();
            format!("partition {slot} has the attributes {set}, and a layout string says none or legacy-boot")
        });
        name.into_iter().chain(bits)
    };
    gap.into_iter().chain(partitions.iter().flat_map(of_partition)).collect()
}

/// Rule b5: 1 to 36 bytes of 21 to 7E hex without comma and semicolon; zeros follow.
fn sayable(name: &Name) -> bool {
    let text = name.to_text();
    let plain = |byte: u8| byte.is_ascii_graphic() && byte != b',' && byte != b';';
    !text.is_empty() && text.bytes().all(plain) && Name::new(&text) == Some(*name)
}

/// The library decides: what it builds of the string must be the table that is there.
fn not_the_same(disk: &Disk, partitions: &[Partition], string: &str) -> Result<Option<String>, Refused> {
    let (mut head, mut tail) = (vec![0; disk.head.len()], vec![0; disk.tail.len()]);
    let mut built = Disk { head: &mut head, tail: &mut tail, n: disk.n, block: disk.block };
    if let Err(refused) = built.build(1, string.as_bytes()) {
        return Ok(Some(format!("a build of it would be refused, {refused}")));
    }
    let same = built.guid()? == disk.guid()? && built.partitions()? == partitions;
    Ok((!same).then(|| "a build of it would make another table".into()))
}

/// How a partition gets a name that a layout string has, where that is what is missing.
fn renamed(path: &Path, block: BlockSize, partitions: &[Partition]) -> Option<String> {
    let nameless = partitions.iter().find(|partition| !sayable(&partition.name))?;
    let disk = operand(path, block);
    Some(format!("usigrambal gpt rename {disk} {} NAME gives that partition another name", nameless.slot))
}
