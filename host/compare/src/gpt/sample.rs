//! Arguments, drawn so that each row and each border is met often.

use super::call::{Call, GUID_LEN};
use super::disk::{Disk, Side, SLOTS};
use super::{bits, name};
use testkit::disk::Shape;
use testkit::random::Random;

pub const N_MAX: u64 = 1 << 32;

/// Every N next to a border or a power of two, then random ones.
pub fn block_counts(shape: Shape, random: &mut Random, drawn: usize) -> Vec<u64> {
    let (first, least, slots) = (shape.first_usable, shape.least_blocks(), SLOTS as u64);
    let near_ends = (least..least + 6).chain(N_MAX - 5..=N_MAX);
    let near_slots = [first + slots - 1, first + slots, least + slots - 1, least + slots];
    let powers = (4..32).flat_map(|k| (1 << k) - 1..=(1 << k) + 1).filter(|n| *n >= least);
    let mut counts: Vec<u64> = near_ends.chain([100]).chain(near_slots).chain(powers).collect();
    counts.extend((0..drawn).map(|_| block_count(shape, random)));
    counts
}

/// Of any magnitude.
pub fn block_count(shape: Shape, random: &mut Random) -> u64 {
    let (least, below) = (shape.least_blocks(), N_MAX >> random.below(26));
    least + random.number_below(below.saturating_sub(least).max(1))
}

/// Outside the range.
pub fn bad_block_counts(shape: Shape) -> [u64; 9] {
    let (first, least) = (shape.first_usable, shape.least_blocks());
    [0, 1, first - 1, first, least - 2, least - 1, N_MAX + 1, 1 << 33, u64::MAX]
}

/// Neither of the two block sizes; some have their low 32 bits.
pub const BAD_BLOCK_SIZES: [u64; 16] = [
    0,
    1,
    256,
    511,
    513,
    1024,
    2048,
    4095,
    4097,
    8192,
    65_536,
    (1 << 32) + 512,
    (1 << 32) + 4096,
    (1 << 63) + 512,
    (1 << 63) + 4096,
    u64::MAX,
];

pub fn guid(random: &mut Random) -> Vec<u8> {
    random.bytes(GUID_LEN)
}

/// All zero but for one byte.
pub fn sparse_guid(random: &mut Random) -> Vec<u8> {
    let place = random.below(GUID_LEN);
    guid_with_one_byte(place, random)
}

pub fn guid_with_one_byte(place: usize, random: &mut Random) -> Vec<u8> {
    let mut guid = vec![0; GUID_LEN];
    guid[place] = 1 << random.below(8);
    guid
}

/// Zero, sparse, or random.
pub fn any_guid(random: &mut Random) -> Vec<u8> {
    match random.below(12) {
        0 => vec![0; GUID_LEN],
        1..=3 => sparse_guid(random),
        _ => guid(random),
    }
}

pub const BAD_SLOTS: [u64; 8] = [0, 129, 130, 255, 256, 257, (1 << 32) + 1, u64::MAX];

/// A used slot more often than others.
pub fn any_slot(disk: &mut Disk, random: &mut Random) -> u64 {
    let [used, stale] = [disk.partitions(Side::Head), disk.stale(Side::Head)];
    let slot = |(index, ..): (usize, u64, u64)| index as u64 + 1;
    match random.below(10) {
        0 => random.pick(&BAD_SLOTS),
        1 => random.pick(&[1, 2, 127, 128]),
        2 => 1 + random.number_below(SLOTS as u64),
        3 if !stale.is_empty() => slot(random.pick(&stale)),
        _ if used.is_empty() => 1,
        _ => slot(random.pick(&used)),
    }
}

/// The partitions by the primary entries; at times the stale entries too, as if they were partitions.
pub fn partitions(disk: &mut Disk, random: &mut Random) -> Vec<(usize, u64, u64)> {
    let stale = if random.below(4) == 0 { disk.stale(Side::Head) } else { Vec::new() };
    [disk.partitions(Side::Head), stale].concat()
}

/// Some are 2^64 or nearly so when the first usable block is added.
const ODD_SIZES: [u64; 9] =
    [0, 1, 1 << 32, 1 << 63, u64::MAX - 34, u64::MAX - 33, u64::MAX - 6, u64::MAX - 5, u64::MAX];

/// The alignments that are taken.
pub const ALIGNMENTS: [u64; 3] = [1, 8, 2048];

/// Others; some have the low 32 bits of one that is taken.
pub const BAD_ALIGNMENTS: [u64; 19] = [
    0,
    2,
    3,
    4,
    7,
    9,
    16,
    34,
    512,
    1024,
    2047,
    2049,
    4096,
    (1 << 32) + 1,
    (1 << 32) + 8,
    (1 << 32) + 2048,
    1 << 63,
    (1 << 63) + 8,
    u64::MAX,
];

/// One that is taken most often.
fn any_alignment(random: &mut Random) -> u64 {
    match random.below(16) {
        0 => random.pick(&BAD_ALIGNMENTS),
        1..=6 => 1,
        7..=12 => 8,
        _ => 2048,
    }
}

/// The gaps between partitions, each by its first block and the block after its last one.
fn gaps(disk: &mut Disk, random: &mut Random) -> Vec<(u64, u64)> {
    let mut ranges: Vec<_> = partitions(disk, random).into_iter().map(|(_, a, b)| (a, b)).collect();
    ranges.sort();
    ranges.push((disk.end(), 0));
    let mut next = disk.shape.first_usable;
    let mut gaps = Vec::new();
    for (first, last) in ranges {
        gaps.push((next, first.max(next)));
        next = last.saturating_add(1);
    }
    gaps
}

/// What a gap has from its first block or from a multiple on, or next to it; small, odd, or all free blocks.
fn new_size(disk: &mut Disk, alignment: u64, random: &mut Random) -> u64 {
    let gaps = gaps(disk, random);
    let (first, end) = random.pick(&gaps);
    let multiple = first.checked_next_multiple_of(alignment).unwrap_or(first);
    let start = random.pick(&[first, multiple, multiple]);
    let room = end.saturating_sub(start);
    match random.below(13) {
        0 => random.pick(&ODD_SIZES),
        // 2^64 when added to the start.
        1 => 0_u64.wrapping_sub(start),
        2 => gaps.iter().fold(0, |sum: u64, (first, end)| sum.saturating_add(end - first)),
        3..=5 => room,
        6 => room.saturating_add(1),
        7 => room.saturating_sub(1),
        8 => 1 + random.number_below(room.max(1)),
        _ => 1 + random.number_below(9),
    }
}

/// Size and alignment of a new partition.
fn new_place(disk: &mut Disk, random: &mut Random) -> (u64, u64) {
    let alignment = any_alignment(random);
    (new_size(disk, alignment, random), alignment)
}

/// The partition's size, or what the gap after it lets it have, and next to both.
pub fn other_size(disk: &mut Disk, slot: u64, random: &mut Random) -> u64 {
    let partitions = partitions(disk, random);
    let Some((_, first, last)) = partitions.iter().find(|(index, ..)| *index as u64 + 1 == slot) else {
        return random.pick(&ODD_SIZES);
    };
    let after = partitions.iter().map(|(_, first, _)| *first).filter(|start| start > last).min();
    let largest = after.unwrap_or(disk.end()).saturating_sub(*first);
    let size = last.saturating_sub(*first).saturating_add(1);
    match random.below(10) {
        0 => random.pick(&ODD_SIZES),
        1..=2 => size,
        3..=4 => largest,
        5..=6 => largest.saturating_add(1),
        7 => largest.saturating_sub(1),
        // 2^64 when added to the first block.
        8 => 0_u64.wrapping_sub(*first),
        _ => 1 + random.number_below(largest.max(1)),
    }
}

/// A unique GUID that an entry has, or has but for one bit, or any.
pub fn unique(disk: &mut Disk, random: &mut Random) -> Vec<u8> {
    let partitions = partitions(disk, random);
    if partitions.is_empty() || random.below(4) > 0 {
        return any_guid(random);
    }
    let (index, ..) = random.pick(&partitions);
    let mut guid = disk.entry(Side::Head, index)[16..32].to_vec();
    if random.below(2) == 0 {
        let any = random.below(GUID_LEN);
        let place = random.pick(&[0, GUID_LEN - 1, any]);
        guid[place] ^= 1 << random.below(8);
    }
    guid
}

/// An add at any start that no row but for slot or room refuses, since hardly a slot has its name.
pub fn good_add(size: u64, random: &mut Random) -> Call {
    aligned_add(size, 1, random)
}

/// The same at a multiple.
pub fn aligned_add(size: u64, alignment: u64, random: &mut Random) -> Call {
    let (kind, unique, name) = (sparse_guid(random), guid(random), name::good(random));
    let rule = bits::rule(random);
    Call::Add { kind, unique, size, alignment, attributes: bits::passing(rule, random), rule, name }
}

/// An add at any start without attributes and name.
pub fn bare_add(size: u64, kind: Vec<u8>, unique: Vec<u8>) -> Call {
    let (rule, name) = (bits::EARLIER[0], name::EMPTY.to_vec());
    Call::Add { kind, unique, size, alignment: 1, attributes: 0, rule, name }
}

/// Any call on the disk but formatting; edits most often.
pub fn any_call(disk: &mut Disk, random: &mut Random) -> Call {
    let slot = any_slot(disk, random);
    let (size, alignment) = new_place(disk, random);
    let rule = bits::rule(random);
    match random.below(21) {
        0 => Call::Read,
        1 => Call::Table,
        2 => Call::Free,
        3 => Call::Repair,
        20 => Call::Check { rule },
        4..=5 => Call::Delete { slot },
        6..=8 => Call::Rename { slot, name: name::any(disk, random) },
        9..=11 => Call::Resize { slot, size: other_size(disk, slot, random) },
        12..=15 => aligned_add(size, alignment, random),
        _ => Call::Add {
            kind: any_guid(random),
            unique: unique(disk, random),
            size,
            alignment,
            attributes: bits::given(rule, random),
            rule,
            name: name::any(disk, random),
        },
    }
}
