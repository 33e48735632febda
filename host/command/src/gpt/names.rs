//! Names that more than one partition has, and a name that is taken.

use super::words::{name_fields, numbers};
use crate::block::operand;
use crate::json::Json;
use crate::paths::shown;
use std::path::Path;
use usigrambal::{BlockSize, Disk, Name, SharedName};

/// `partitions 1, 3: "scratch"`.
pub fn shared(SharedName { name, slots }: &SharedName) -> String {
    format!("partitions {}: \"{name}\"", numbers(slots))
}

/// Why that matters, and what would help.
pub fn warning(path: &Path, block: BlockSize, SharedName { name, slots }: &SharedName) -> String {
    format!(
        "{}: partitions {} have one name, \"{name}\": a boot loader that goes by names finds only one of them; \
         usigrambal gpt rename {} NUMBER NAME tells them apart",
        shown(path),
        numbers(slots),
        operand(path, block)
    )
}

pub fn shared_json(names: &[SharedName]) -> Json {
    let described = |shared: &SharedName| {
        let mut fields = name_fields(shared.name);
        fields.push(("numbers", shared.slots.iter().copied().collect()));
        Json::Object(fields)
    };
    names.iter().map(described).collect()
}

/// Who has the name that an add was refused for, and what would help.
pub fn of_add(path: &Path, disk: &Disk, name: &Name) -> Option<String> {
    let others = holders(disk, name)?;
    Some(format!("{}; choose another --name, or {}", have(&others), freed(path, disk.block, &others)))
}

/// The same of a rename. Its own name is refused to a partition where another one has it too (rule a1).
pub fn of_rename(path: &Path, disk: &Disk, slot: u64, name: &Name) -> Option<String> {
    let all = holders(disk, name)?;
    let others: Vec<u64> = all.iter().copied().filter(|holder| *holder != slot).collect();
    let (held, freed) = (have(&others), freed(path, disk.block, &others));
    Some(match others.len() < all.len() {
        true => format!("partition {slot} has it already, but {held} too; choose another NAME, or {freed}"),
        false => format!("{held}; choose another NAME, or {freed}"),
    })
}

/// The partitions that have the name, all 72 bytes of it.
fn holders(disk: &Disk, name: &Name) -> Option<Vec<u64>> {
    let held = disk.partitions().ok()?;
    Some(held.iter().filter(|partition| partition.name == *name).map(|partition| partition.slot).collect())
}

fn have(slots: &[u64]) -> String {
    match slots {
        [one] => format!("partition {one} has it"),
        many => format!("partitions {} have it", numbers(many)),
    }
}

/// How they get another one. A delete would free the name too; it is not advised, since it gives up blocks.
fn freed(path: &Path, block: BlockSize, slots: &[u64]) -> String {
    let disk = operand(path, block);
    match slots {
        [one] => format!("usigrambal gpt rename {disk} {one} NAME gives that one another"),
        _ => format!("usigrambal gpt rename {disk} NUMBER NAME gives each of them another"),
    }
}
