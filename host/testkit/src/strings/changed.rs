//! Layout strings changed at random: nearly right, or damaged.

use super::LayoutString;
use crate::random::Random;

/// Bytes that a string may be changed by.
const BYTES: &[u8] = b",;= \t\r\n\0\x1F!~\x7F\x80\xFF0189xXAFKMGikab-_$";

/// Fields that one may be changed by.
const FIELDS: [&str; 40] = [
    "",
    "name",
    "name=",
    "name=a",
    "name=a=b",
    "name==",
    "name=a b",
    "name=thirty-six-bytes-are-in-this-name..",
    "name=thirty-seven-bytes-are-in-this-name..",
    "size=",
    "size=0",
    "size=00KiB",
    "size=1",
    "size=512",
    "size=4096",
    "size=60Mib",
    "size=1GiB",
    "size=18446744073709551615",
    "size=18446744073709551616",
    "size=18014398509481984KiB",
    "start=0",
    "start=17408",
    "start=24KiB",
    "start=24576",
    "start=1MiB",
    "start=-",
    "start",
    "uuid=",
    "uuid=00000000-0000-0000-0000-000000000000",
    "uuid=6E0B6FAB-1C46-4B6B-8F25-00000000000G",
    "type=",
    "type=data",
    "type=Data",
    "type=raid",
    "type=00000000-0000-0000-0000-000000000000",
    "type=C12A7328-F81F-11D2-BA4B-00A0C93EC93B",
    "bootable",
    "bootable=1",
    "uuid_disk=6E0B6FAB-1C46-4B6B-8F25-000000000001",
    "flags=1",
];

/// The string with fields left out, said twice, taken from another partition, exchanged with their neighbours or replaced,
/// or with a partition said twice.
pub fn changed_fields(string: &LayoutString, random: &mut Random) -> Vec<u8> {
    let mut partitions = string.fields(random);
    for _ in 0..1 + random.below(2) {
        let (from, to) = (random.below(partitions.len()), random.below(partitions.len()));
        let (field, at) =
            (random.below(partitions[from].len().max(1)), random.below(partitions[to].len() + 1));
        let taken = partitions[from].get(field).cloned().unwrap_or_default();
        match random.below(6) {
            0 if at < partitions[to].len() => drop(partitions[to].remove(at)),
            1 => partitions[to].insert(at, taken),
            2 => {
                let same_key = |other: &&mut String| other.split('=').next() == taken.split('=').next();
                partitions[to].iter_mut().filter(same_key).for_each(|other| *other = taken.clone());
            }
            3 => partitions[to].insert(at, random.pick(&FIELDS).to_string()),
            4 => {
                let fields = &mut partitions[to];
                if let Some(field) = fields.get_mut(at) {
                    *field = random.pick(&FIELDS).to_string();
                }
            }
            _ => partitions.insert(to, partitions[from].clone()),
        }
    }
    (string.joined(&partitions) + random.pick(&["", ";"])).into_bytes()
}

/// The string with sizes and starts changed: a byte or a block more or less, 0, that of another partition, or any.
pub fn changed_numbers(string: &LayoutString, block: u64, random: &mut Random) -> Vec<u8> {
    let mut string = string.clone();
    for _ in 0..1 + random.below(3) {
        let (at, other) = (random.below(string.partitions.len()), random.below(string.partitions.len()));
        let (size, start) = (string.partitions[other].size, string.partitions[other].start);
        let any = random.number() >> random.below(64);
        let values =
            [0, 1, size, start.unwrap_or(0), any, any / block * block, u64::MAX, u64::MAX - block + 1];
        let value = random.pick(&values);
        let near = [value, value.wrapping_add(1), value.wrapping_add(block), value.wrapping_sub(block)];
        let partition = &mut string.partitions[at];
        match random.below(4) {
            0 => partition.start = None,
            1 => partition.start = Some(random.pick(&near)),
            _ => partition.size = random.pick(&near),
        }
    }
    string.text(random).into_bytes()
}

/// The string with bytes changed.
pub fn changed_bytes(text: &[u8], random: &mut Random) -> Vec<u8> {
    random.changed(text, BYTES)
}
