//! Layout strings of the boot loader for the tests: drawn ones, spelled in any of their ways, where their partitions stand,
//! and strings changed from them.

mod changed;
mod placed;
mod samples;
mod spelled;

pub use changed::{changed_bytes, changed_fields, changed_numbers};
pub use placed::Free;
pub use samples::{as_printed, samples, Sample};
pub use spelled::{number, plain_number};

use crate::disk::Shape;
use crate::random::Random;
use std::collections::BTreeSet;

/// The most bytes of a layout string.
pub const TEXT_MAX: usize = 8192;

/// The short names of types, and the type of a partition for which none is given.
pub const SHORT_NAMES: [(&str, &str); 5] = [
    ("system", "C12A7328-F81F-11D2-BA4B-00A0C93EC93B"),
    ("msft", "E3C9E316-0B5C-4DB8-817D-F92DF00215AE"),
    ("data", "EBD0A0A2-B9E5-4433-87C0-68B6B72699C7"),
    ("linux", "0FC63DAF-8483-4772-8E79-3D69D8477DE4"),
    ("swap", "0657FD6D-A4AB-43C4-84E5-0933C84B4F4F"),
];
pub const NO_TYPE: &str = SHORT_NAMES[2].1;

/// The attributes of a bootable partition.
pub const BOOTABLE: u64 = 1 << 2;

/// A partition of a layout string; start and size are in bytes.
#[derive(Clone, Debug, PartialEq, Eq)]
pub struct Partition {
    pub name: String,
    pub size: u64,
    pub unique: String,
    pub start: Option<u64>,
    /// A GUID or a short name.
    pub kind: Option<String>,
    pub bootable: bool,
}

impl Partition {
    /// The GUID of its type.
    pub fn kind_guid(&self) -> &str {
        let kind = self.kind.as_deref().unwrap_or(NO_TYPE);
        SHORT_NAMES.iter().find(|(name, _)| *name == kind).map_or(kind, |(_, guid)| guid)
    }

    pub fn attributes(&self) -> u64 {
        if self.bootable {
            BOOTABLE
        } else {
            0
        }
    }
}

#[derive(Clone, Debug, PartialEq, Eq)]
pub struct LayoutString {
    pub disk_guid: String,
    pub partitions: Vec<Partition>,
}

/// What a drawn string is for.
#[derive(Clone, Copy)]
pub struct Wanted {
    pub shape: Shape,
    /// The blocks of the disk.
    pub n: u64,
    pub alignment: u64,
    /// 1 to 128.
    pub partitions: usize,
}

impl LayoutString {
    /// A string in form, whose names and GUIDs differ and whose starts and sizes are whole blocks, in free runs most often;
    /// where a partition finds no room the disk is too small for those before it.
    pub fn random(wanted: Wanted, random: &mut Random) -> LayoutString {
        let mut free = Free::new(wanted.shape, wanted.n);
        let names = names(wanted.partitions, random);
        let mut partitions = Vec::new();
        for (place, name) in names.into_iter().enumerate() {
            let is_last = place + 1 == wanted.partitions;
            let (start, blocks) = free.drawn(wanted.alignment, is_last, random);
            free.take(wanted.alignment, start, blocks);
            let block = wanted.shape.block;
            partitions.push(Partition {
                name,
                size: blocks.saturating_mul(block),
                unique: guid(random),
                start: start.map(|start| start * block),
                kind: kind(random),
                bootable: random.below(4) == 0,
            });
        }
        LayoutString { disk_guid: guid(random), partitions }
    }

    /// Where each partition stands, by its first block and its blocks, or the number that refuses the first one that
    /// stands nowhere; nothing else of the string is judged.
    pub fn places(&self, wanted: Wanted) -> Result<Vec<(u64, u64)>, u32> {
        let mut free = Free::new(wanted.shape, wanted.n);
        let block = wanted.shape.block;
        let mut places = Vec::new();
        for (place, partition) in self.partitions.iter().enumerate() {
            let is_last = place + 1 == self.partitions.len();
            let (start, blocks) = (partition.start.map(|start| start / block), partition.size / block);
            if start.is_some_and(|start| !free.is_free(start)) {
                return Err(72);
            }
            if blocks == 0 && !is_last {
                return Err(20);
            }
            places.push(free.take(wanted.alignment, start, blocks).ok_or(25_u32)?);
        }
        Ok(places)
    }
}

/// Names that differ from each other, some by little.
fn names(count: usize, random: &mut Random) -> Vec<String> {
    let mut names: Vec<String> = Vec::new();
    let mut taken = BTreeSet::new();
    while names.len() < count {
        let found = match random.below(4) {
            0 if !names.is_empty() => near(&names[random.below(names.len())], random),
            _ => name(count, random),
        };
        if !found.is_empty() && taken.insert(found.clone()) {
            names.push(found);
        }
    }
    names
}

/// A byte less, or a letter in the other case.
fn near(name: &str, random: &mut Random) -> String {
    match random.below(2) {
        0 => name[..name.len() - 1].to_string(),
        _ => name.chars().map(|c| if c.is_lowercase() { c.to_ascii_uppercase() } else { c }).collect(),
    }
}

/// 1 to 36 bytes that can stand in a name; 1 to 3 where there are many, so that the string is not too long.
fn name(count: usize, random: &mut Random) -> String {
    let most = if count > 60 { 3 } else { 36 };
    let any = 1 + random.below(most);
    let len = random.pick(&[any, 1.max(most / 6), most]);
    let byte = |_| loop {
        let any = 0x21 + random.below(0x5E) as u8;
        let byte = random.pick(&[b'a', b'b', b'=', b'0', 0x21, 0x7E, any, any]);
        if !b",;".contains(&byte) {
            return char::from(byte);
        }
    };
    (0..len).map(byte).collect()
}

/// A GUID text, in either case.
pub fn guid(random: &mut Random) -> String {
    let hex: String = random.bytes(16).iter().map(|byte| format!("{byte:02X}")).collect();
    let text = [&hex[..8], &hex[8..12], &hex[12..16], &hex[16..20], &hex[20..]].join("-");
    match random.below(3) {
        0 => text.to_ascii_lowercase(),
        _ => text,
    }
}

fn kind(random: &mut Random) -> Option<String> {
    match random.below(4) {
        0 | 1 => None,
        2 => Some(random.pick(&SHORT_NAMES).0.to_string()),
        _ => Some(guid(random)),
    }
}

/// 128 partitions, or as many as are asked for, of one block each, in the fewest bytes.
pub fn many(count: usize, block: u64) -> String {
    let partition = |k: usize| format!(";name={k:X},size={block},uuid={}", numbered_guid(k as u64 + 1));
    let partitions: String = (0..count).map(partition).collect();
    format!("uuid_disk={}{partitions}", numbered_guid(0xD15C))
}

/// A GUID that ends in this number.
pub fn numbered_guid(number: u64) -> String {
    format!("6E0B6FAB-1C46-4B6B-8F25-{number:012X}")
}

/// The string of exactly so many bytes, by leading zeros in its last number; it is one of [`many`].
pub fn lengthened(text: &str, len: usize) -> String {
    let at = text.rfind("size=").map(|at| at + "size=".len()).expect("a size");
    let zeros = "0".repeat(len.checked_sub(text.len()).expect("a shorter string"));
    [&text[..at], &zeros, &text[at..]].concat()
}

#[cfg(test)]
mod tests {
    use super::*;
    use crate::disk::SHAPES;

    #[test]
    fn drawn_strings_stand_somewhere_most_often() {
        let mut random = Random::new(11);
        for shape in SHAPES {
            for alignment in [1, 8, 2048] {
                let mut stand = 0;
                for _ in 0..100 {
                    let partitions = 1 + random.below(8);
                    let wanted = Wanted { shape, n: 20_000, alignment, partitions };
                    let string = LayoutString::random(wanted, &mut random);
                    assert_eq!(string.partitions.len(), partitions);
                    stand += usize::from(string.places(wanted).is_ok());
                }
                assert!((60..=100).contains(&stand), "{shape:?}, {alignment}: {stand}");
            }
        }
    }

    #[test]
    fn strings_of_many_partitions_are_not_too_long() {
        for shape in SHAPES {
            assert!(many(130, shape.block).len() < TEXT_MAX);
            assert_eq!(lengthened(&many(128, shape.block), TEXT_MAX).len(), TEXT_MAX);
            let wanted = Wanted { shape, n: 1 << 20, alignment: 1, partitions: 128 };
            let text = LayoutString::random(wanted, &mut Random::new(5)).plain();
            assert!(text.len() < 2 * TEXT_MAX, "{}", text.len());
        }
    }
}
