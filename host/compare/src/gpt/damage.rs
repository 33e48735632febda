//! Damage to a disk: single bytes, whole fields, CRCs made right again.

use super::bits;
use super::call::GUID_LEN;
use super::disk::{Disk, Side, ENTRY_LEN, NAME_AT, SIDES, SLOTS};
use testkit::random::Random;

/// Begin and length of the fields of a header, the CRCs left out.
pub const HEADER_FIELDS: [(usize, usize); 12] = [
    (0, 8),
    (8, 4),
    (12, 4),
    (20, 4),
    (24, 8),
    (32, 8),
    (40, 8),
    (48, 8),
    (56, 16),
    (72, 8),
    (80, 4),
    (84, 4),
];

/// Damages one copy or both, in one of many ways.
pub fn any(disk: &mut Disk, random: &mut Random) {
    let side = random.pick(&SIDES);
    match random.below(16) {
        0 => flip(disk.side(side), random),
        1 => fill(disk.header_tail(side), random),
        2 => fill(disk.block_0(), random),
        3 => sealed(disk, side, |disk| flip(disk.header(side), random)),
        4 => sealed(disk, side, |disk| flip(disk.entries(side), random)),
        5 => sealed(disk, side, |disk| header_field(disk, side, random)),
        6 => crc_field(disk, side, random),
        7 => copy_header(disk, side),
        8 => sealed(disk, side, |disk| disk_guid(disk, &[side], random)),
        9 => entry_damage(disk, &[side], change_entry, random),
        10..=11 => entry_damage(disk, &SIDES, change_entry, random),
        12 => entry_damage(disk, &[side], clear_type, random),
        _ => entry_damage(disk, &SIDES, clear_type, random),
    }
}

fn sealed(disk: &mut Disk, side: Side, damage: impl FnOnce(&mut Disk)) {
    damage(disk);
    disk.seal(side);
}

fn flip(bytes: &mut [u8], random: &mut Random) {
    bytes[random.below(bytes.len())] ^= 1 << random.below(8);
}

fn fill(bytes: &mut [u8], random: &mut Random) {
    bytes.copy_from_slice(&random.bytes(bytes.len()));
}

/// One more, one less, zero, all ones, or the bytes of another field.
fn header_field(disk: &mut Disk, side: Side, random: &mut Random) {
    let (at, len) = random.pick(&HEADER_FIELDS);
    let (from, _) = random.pick(&HEADER_FIELDS);
    let header = disk.header(side);
    let other: Vec<u8> = header[from..from + len.min(8)].to_vec();
    match random.below(5) {
        0 => header[at] = header[at].wrapping_add(1),
        1 => header[at] = header[at].wrapping_sub(1),
        2 => header[at..at + len].fill(0),
        3 => header[at..at + len].fill(0xFF),
        _ => header[at..at + other.len()].copy_from_slice(&other),
    }
}

/// A wrong header CRC, or a wrong CRC of the entries under a right header CRC.
fn crc_field(disk: &mut Disk, side: Side, random: &mut Random) {
    let header = disk.header(side);
    if random.below(2) == 0 {
        flip(&mut header[16..20], random);
        return;
    }
    flip(&mut header[88..92], random);
    header[16..20].fill(0);
    let crc = usigrambal::crc32(header);
    header[16..20].copy_from_slice(&crc.to_le_bytes());
}

/// The other copy's header, unchanged.
fn copy_header(disk: &mut Disk, side: Side) {
    let other = if side == Side::Head { Side::Tail } else { Side::Head };
    let header = disk.header(other).to_vec();
    disk.header(side).copy_from_slice(&header);
}

fn disk_guid(disk: &mut Disk, sides: &[Side], random: &mut Random) {
    let guid = if random.below(2) == 0 { vec![0; GUID_LEN] } else { random.bytes(GUID_LEN) };
    sides.iter().for_each(|side| disk.header(*side)[56..72].copy_from_slice(&guid));
}

/// Changes an entry, given another one and the first and the last usable block.
type Change = fn(&mut [u8], &[u8], (u64, u64), &mut Random);

/// The same change of one entry in each of `sides`, CRCs right.
fn entry_damage(disk: &mut Disk, sides: &[Side], change: Change, random: &mut Random) {
    let used: Vec<usize> = disk.partitions(sides[0]).iter().map(|(index, ..)| *index).collect();
    let index = if used.is_empty() { random.below(SLOTS) } else { random.pick(&used) };
    let other = if used.is_empty() { random.below(SLOTS) } else { random.pick(&used) };
    let mut entry = disk.entry(sides[0], index).to_vec();
    let another = disk.entry(sides[0], other).to_vec();
    let first_usable = disk.shape.first_usable;
    change(&mut entry, &another, (first_usable, disk.n - first_usable), random);
    for side in sides {
        disk.entry(*side, index).copy_from_slice(&entry);
        disk.seal(*side);
    }
}

/// As a tool leaves a slot that clears the type: with the partition's bytes, or else those of another one, or any.
fn clear_type(entry: &mut [u8], another: &[u8], _: (u64, u64), random: &mut Random) {
    match random.below(6) {
        0 => entry.copy_from_slice(another),
        1 => fill(entry, random),
        _ => {}
    }
    entry[..GUID_LEN].fill(0);
}

fn change_entry(entry: &mut [u8], another: &[u8], usable: (u64, u64), random: &mut Random) {
    let number = |entry: &[u8], at: usize| u64::from_le_bytes(entry[at..at + 8].try_into().expect("8"));
    let own_first = number(entry, 32);
    let (first, last) = (number(another, 32), number(another, 40));
    let mut set = |at: usize, value: u64| entry[at..at + 8].copy_from_slice(&value.to_le_bytes());
    match random.below(20) {
        0 => entry[16..32].fill(0),
        1 => entry[16..32].copy_from_slice(&another[16..32]),
        2 => set(32, usable.0 - 1),
        3 => set(32, usable.0),
        4 => set(40, usable.1 + 1),
        5 => set(40, usable.1),
        6 => set(40, own_first.wrapping_sub(1)),
        7 => set(40, first),
        8 => set(40, first.wrapping_sub(1)),
        9 => set(32, last),
        10 => set(32, last.wrapping_add(1)),
        11 => set(32, u64::MAX),
        12 => set(40, u64::MAX),
        13 => set(48, bits::any(random)),
        14 => entry[NAME_AT..].copy_from_slice(&random.bytes(ENTRY_LEN - NAME_AT)),
        15 => entry.copy_from_slice(another),
        16 => entry[NAME_AT..].copy_from_slice(&another[NAME_AT..]),
        // A unit behind a zero one.
        17 => entry[ENTRY_LEN - 4..].copy_from_slice(&[0, 0, 0x7A, 0]),
        18 => {
            entry.fill(0);
            entry[random.below(ENTRY_LEN)] = 1 << random.below(8);
        }
        _ => entry.fill(0),
    }
}
