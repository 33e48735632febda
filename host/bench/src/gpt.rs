//! The rows of the disk calls in memory, in units of a CRC-32, with blocks of 4096 bytes beside blocks of 512, an add at a
//! multiple of 2048 blocks beside one at any block, an add with a name beside one without, the check of attributes beside
//! reading, and a layout string.

use crate::disk::{name, Disk, NEW, NO_NAME};
use crate::peers;
use crate::table::{Label, Table};
use crate::timed::{calls, Timed};
use crate::work::{self, of};
use testkit::strings::{lengthened, many, TEXT_MAX};
use usigrambal::BlockSize;

const READ_MOST: f64 = 6.0;
const ADD_MOST: f64 = 14.0;
const BUILD_MOST: f64 = 250.0;
/// The time with blocks of 4096 bytes, in units of that with blocks of 512.
const LARGE_MOST: f64 = 1.3;
/// The time of an add at an alignment of 2048 blocks, in units of that at 1.
const ALIGNED_MOST: f64 = 1.3;
const ALIGNMENT: u64 = 2048;
/// The time of an add with a name, in units of that without, which is held to no other partition's.
const NAMED_MOST: f64 = 1.1;
/// The time of a check of attributes, in units of that of reading, which it begins with.
const CHECK_MOST: f64 = 1.1;

/// A gap behind each partition: 128 partitions, in the slots' order and against it; and 127 with room for one more behind the last gap.
pub struct Disks {
    pub full: Disk,
    descending: Disk,
    pub room: Disk,
    /// The first two with two good copies that differ, so that each table is judged by itself (state 2).
    differ: Disk,
    descending_differ: Disk,
    /// The first with a primary header that is not good (state 4).
    pub broken: Disk,
    /// 127 partitions at multiples of 2048, so that the first free multiple is behind the last of them.
    aligned: Disk,
    /// `full` and `room` with blocks of 4096 bytes; all others have blocks of 512.
    large_full: Disk,
    large_room: Disk,
    /// Zeros.
    pub blank: Disk,
}

impl Disks {
    pub fn new() -> Disks {
        let [block, large] = BlockSize::ALL;
        let (full, descending) = (Disk::with_gaps(128, block), Disk::with_gaps_descending(128, block));
        let (differ, descending_differ) = (full.with_another_tail(), descending.with_another_tail());
        let (room, broken) = (Disk::with_gaps(127, block), full.with_a_broken_header());
        let aligned = Disk::with_aligned(127, ALIGNMENT, block);
        let (large_full, large_room) = (Disk::with_gaps(128, large), Disk::with_gaps(127, large));
        let blank = Disk::blank(block);
        Disks {
            full,
            descending,
            room,
            differ,
            descending_differ,
            broken,
            aligned,
            large_full,
            large_room,
            blank,
        }
    }
}

pub fn rows<'a>(t: &mut Table<'a>, disks: &'a Disks) {
    unit_rows(t, disks);
    large_rows(t, disks);
    aligned_row(t, &disks.room);
    named_row(t, &disks.room);
    check_row(t, &disks.full);
}

fn unit_rows<'a>(t: &mut Table<'a>, disks: &'a Disks) {
    let zlib = match peers::crc32("zlib", "zlib1g-dev") {
        Ok(crc32) => crc32,
        Err(why) => return t.left_out.push(format!("gpt in memory: {why}")),
    };
    let Disks { full, descending, room, differ, descending_differ, aligned, .. } = disks;
    let rows = [
        ("gpt read", "128 partitions", READ_MOST, reads(full)),
        ("gpt read", "128 descending", READ_MOST, reads(descending)),
        ("gpt read, copies differ", "128 partitions", READ_MOST, reads(differ)),
        ("gpt read, copies differ", "128 descending", READ_MOST, reads(descending_differ)),
        ("gpt add", "127 partitions", ADD_MOST, adds(room, 1)),
        ("gpt add at 2048, no multiple in a gap", "127 partitions", ADD_MOST, adds(aligned, ALIGNMENT)),
        ("gpt free", "128 partitions", ADD_MOST, frees(full)),
        ("gpt free, copies differ", "128 partitions", ADD_MOST, frees(differ)),
        ("gpt build", "128 partitions", BUILD_MOST, builds(BlockSize::Bytes512, 1)),
        ("gpt build at 2048", "128 partitions", BUILD_MOST, builds(BlockSize::Bytes512, ALIGNMENT)),
        ("gpt build, 4096-byte blocks", "128 partitions", BUILD_MOST, builds(BlockSize::Bytes4096, 1)),
    ];
    for (what, size, most, ours) in rows {
        let label = Label::new(format!("{what}, in memory"), "zlib's crc32 of 16 KiB");
        let unit = calls(of(work::bytes(16 << 10), zlib));
        t.row(label.size(size).at_most_units(most), ours, unit);
    }
}

fn large_rows<'a>(t: &mut Table<'a>, disks: &'a Disks) {
    let Disks { full, room, large_full, large_room, .. } = disks;
    let rows = [
        ("gpt read", "128 partitions", reads(large_full), reads(full)),
        ("gpt add", "127 partitions", adds(large_room, 1), adds(room, 1)),
        ("gpt free", "128 partitions", frees(large_full), frees(full)),
    ];
    for (what, size, large, small) in rows {
        let label = Label::new(format!("{what}, in memory, 4096-byte blocks"), "itself on 512-byte blocks");
        t.row(label.size(size).at_most_units(LARGE_MOST), large, small);
    }
}

/// On the same disk, whose gaps are too short for either.
fn aligned_row<'a>(t: &mut Table<'a>, room: &'a Disk) {
    let label =
        Label::new(format!("gpt add at {ALIGNMENT}, in memory"), "itself at 1").size("127 partitions");
    t.row(label.at_most_units(ALIGNED_MOST), adds(room, ALIGNMENT), adds(room, 1));
}

/// On the same disk, whose partitions all have names that are told apart by their last unit alone.
fn named_row<'a>(t: &mut Table<'a>, room: &'a Disk) {
    let label = Label::new("gpt add with a name, in memory", "itself without").size("127 partitions");
    t.row(label.at_most_units(NAMED_MOST), adds(room, 1), adds_named(room, 1, NO_NAME));
}

fn check_row<'a>(t: &mut Table<'a>, full: &'a Disk) {
    let label = Label::new("gpt check, in memory", "gpt read").size("128 partitions");
    t.row(label.at_most_units(CHECK_MOST), calls(|| full.check()), reads(full));
}

fn reads(disk: &Disk) -> Timed<'_> {
    calls(|| disk.read())
}

fn frees(disk: &Disk) -> Timed<'_> {
    calls(|| disk.free())
}

/// A layout string of 8,192 bytes, in which the last partition has the zeros that the others leave.
fn builds<'a>(block: BlockSize, alignment: u64) -> Timed<'a> {
    let mut disk = Disk::with_gaps(0, block);
    let text = lengthened(&many(128, block.bytes()), TEXT_MAX);
    calls(move || disk.build(alignment, text.as_bytes()))
}

/// With a name that goes along with every other one up to its last unit.
fn adds(disk: &Disk, alignment: u64) -> Timed<'_> {
    adds_named(disk, alignment, name(NEW))
}

fn adds_named(disk: &Disk, alignment: u64, name: [u16; 36]) -> Timed<'_> {
    let mut copy = disk.clone();
    calls(move || disk.add_to(&mut copy, alignment, &name))
}
