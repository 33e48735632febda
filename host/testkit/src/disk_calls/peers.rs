//! Disks that the implementation made, as other tools list, format, count and repair them.

use super::{largest, shapes, Calls, DISK_GUID};
use crate::disk::{Disk, Shape, HEADER_LEN};
use crate::listing::{self, Partition};
use crate::peer;
use crate::random::Random;
use std::path::Path;

/// From the smallest disk to 2 TiB, three of them between 3 blocks more and 4 MiB.
fn block_counts(shape: Shape) -> [u64; 6] {
    match shape.block {
        512 => [68, 100, 2048, 5001, 65_536, largest(shape)],
        _ => [12, 44, 500, 1000, 65_536, largest(shape)],
    }
}

/// Bytes of an entry: type, unique GUID, first, last, attribute bit 48, name.
const FIELDS: [usize; 6] = [0, 16, 32, 40, 54, 56];

/// The states of a disk (D10) that are repaired.
const DIFFERENT: u64 = 2;
const PRIMARY_ONLY: u64 = 3;
const BACKUP_ONLY: u64 = 4;

impl Calls {
    /// A disk with the partitions that some edits leave.
    fn filled(&self, shape: Shape, n: u64, edits: usize, seed: u64) -> Disk {
        let mut random = Random::new(seed);
        let mut disk = self.formatted(shape, n, DISK_GUID);
        for _ in 0..if n == shape.least_blocks() { 1 } else { edits } {
            self.edit(&mut disk, &mut random, |_, _| true);
        }
        disk
    }

    fn disks(&self, shape: Shape, edits: usize) -> Vec<Disk> {
        block_counts(shape).into_iter().zip(1..).map(|(n, seed)| self.filled(shape, n, edits, seed)).collect()
    }

    /// A partition of the first ten usable blocks, and the same with a byte of one field changed.
    fn changed(&self, shape: Shape, at: usize) -> (Disk, Disk) {
        let mut ours = self.formatted(shape, 5000, DISK_GUID);
        self.add_drawn(&mut ours, 10, &mut Random::new(3)).expect("room");
        let mut other = ours.clone();
        self.change(&mut other, at);
        (ours, other)
    }

    /// The tool's rows are ours, attributes as far as it prints them, and differ once a byte of any field is changed.
    fn listed_by(&self, bits: u64, list: impl Fn(&Path, &[Partition]) -> Vec<Partition>) {
        let expected = |disk: &Disk| {
            let mut rows = self.table(disk);
            rows.iter_mut().for_each(|row| row.attributes &= bits);
            rows
        };
        for shape in shapes() {
            for disk in self.disks(shape, 14) {
                let ours = expected(&disk);
                assert!(!ours.is_empty(), "N {}", disk.n);
                assert_eq!(list(&disk.image().path, &ours), ours, "N {}, {shape:?}", disk.n);
            }
            for at in FIELDS {
                let (ours, other) = self.changed(shape, at);
                assert_ne!(list(&other.image().path, &self.table(&ours)), expected(&ours), "byte {at}");
            }
        }
    }
}

pub fn sgdisk_lists_the_same(calls: &Calls) {
    if peer::present("sgdisk", "gdisk") {
        calls.listed_by(u64::MAX, |image, _| listing::sgdisk(image));
    }
}

pub fn sfdisk_lists_the_same(calls: &Calls) {
    if peer::present("sfdisk", "fdisk") {
        calls.listed_by(0xFFFF_0000_0000_0007, |image, _| listing::sfdisk(image));
    }
}

pub fn cgpt_lists_the_same(calls: &Calls) {
    if peer::present("cgpt", "cgpt") {
        let slots = |ours: &[Partition]| ours.iter().map(|row| row.slot).collect::<Vec<_>>();
        calls.listed_by(0xFFFF_0000_0000_0005, |image, ours| listing::cgpt(image, slots(ours)));
    }
}

pub fn cgpt_lists_the_same_at_a_glance(calls: &Calls) {
    if !peer::present("cgpt", "cgpt") {
        return;
    }
    let quick = |row: Partition| (row.slot, row.first, row.last - row.first + 1, in_words(row.kind));
    let ours = |disk: &Disk| calls.table(disk).into_iter().map(quick).collect::<Vec<_>>();
    for shape in shapes() {
        for disk in calls.disks(shape, 14) {
            assert_eq!(listing::cgpt_quick(&disk.image().path), ours(&disk), "N {}, {shape:?}", disk.n);
        }
        for at in [0, 32, 40] {
            let (disk, other) = calls.changed(shape, at);
            assert_ne!(listing::cgpt_quick(&other.image().path), ours(&disk), "byte {at}");
        }
    }
}

/// cgpt's words for the types that it knows.
fn in_words(kind: String) -> String {
    match kind.as_str() {
        "C12A7328-F81F-11D2-BA4B-00A0C93EC93B" => "EFI System Partition".into(),
        "EBD0A0A2-B9E5-4433-87C0-68B6B72699C7" => "Basic data".into(),
        "0FC63DAF-8483-4772-8E79-3D69D8477DE4" => "Linux data".into(),
        "FE3A2A5D-4F32-41A7-B725-ACCC3285A309" => "ChromeOS kernel".into(),
        _ => kind,
    }
}

impl Calls {
    /// The tool says of each disk that it is right and nothing else, and not once a byte of the backup copy is changed.
    fn verified_by(&self, tool: &str, option: &str, right: &str, wrong: &[&str]) {
        let content = |disk: &Disk| {
            let output = peer::run(tool, [Path::new(option), &disk.image().path]);
            let said = String::from_utf8_lossy(&[output.stdout, output.stderr].concat()).into_owned();
            said.contains(right) && !wrong.iter().any(|word| said.contains(word))
        };
        for shape in shapes() {
            for disk in self.disks(shape, 14) {
                assert!(content(&disk), "N {}, {shape:?}", disk.n);
            }
            // In the entries, and in the header's first usable block.
            for at in [0, shape.header_in_tail() + 40] {
                let mut broken = self.filled(shape, 5000, 1, 1);
                broken.tail[at] ^= 1;
                assert!(!content(&broken), "byte {at}");
            }
        }
    }
}

/// `sgdisk -v` puts a bad copy right in memory before it looks.
pub fn sgdisk_finds_no_problem(calls: &Calls) {
    if peer::present("sgdisk", "gdisk") {
        calls.verified_by("sgdisk", "-v", "No problems found", &["invalid", "ERROR"]);
    }
}

/// `sfdisk -V` takes the other copy for a bad one, and says so.
pub fn sfdisk_finds_no_error(calls: &Calls) {
    if peer::present("sfdisk", "fdisk") {
        calls.verified_by("sfdisk", "-V", "No errors detected", &["corrupt"]);
    }
}

/// Formatting writes what sfdisk writes when it is told which block is the first usable one.
pub fn sfdisk_formats_to_the_same_bytes(calls: &Calls) {
    if !peer::present("sfdisk", "fdisk") {
        return;
    }
    for shape in shapes() {
        let largest = largest(shape);
        std::thread::scope(|scope| {
            for n in [100, 2048, 5001, largest / 2, largest - 1, largest] {
                scope.spawn(move || calls.sfdisk_formats_the_same(shape, n));
            }
        });
    }
}

impl Calls {
    fn sfdisk_formats_the_same(&self, shape: Shape, n: u64) {
        let guid = "76543210-BA98-FEDC-0102-030405060708";
        let image = shape.filled(n, 0).image();
        let script = format!("label: gpt\nlabel-id: {guid}\nfirst-lba: {}\n", shape.first_usable);
        peer::feed("sfdisk", [Path::new("-q"), &image.path], &script);
        let theirs = Disk::read(&image.path, shape.block).expect("an image");
        let mut ours = self.formatted(shape, n, guid);
        assert_eq!(ours.difference(&theirs), None, "N {n}, {shape:?}");
        self.change(&mut ours, 5);
        assert!(ours.difference(&theirs).is_some());
    }
}

impl Calls {
    fn free_blocks(&self, disk: &Disk) -> listing::Free {
        (self.free)(disk).expect("a table")
    }

    /// The tool's counts are ours on disks that it counts rightly, and differ once a last block is changed.
    fn counted_by(
        &self,
        shape: Shape,
        count: impl Fn(&Path) -> listing::Free,
        rightly: impl Fn(&Disk) -> bool,
    ) {
        let mut compared = 0;
        for disk in (0..=5).flat_map(|edits| self.disks(shape, 4 * edits)).filter(|disk| rightly(disk)) {
            let ours = self.free_blocks(&disk);
            assert_eq!(count(&disk.image().path), ours, "N {}\n{:?}", disk.n, self.table(&disk));
            compared += 1;
        }
        assert!(compared >= 12, "{compared}");
        let (disk, other) = self.changed(shape, 40);
        assert_ne!(count(&other.image().path), self.free_blocks(&disk));
    }

    /// The lengths of the runs between partitions, also of empty ones.
    fn runs(&self, disk: &Disk) -> impl Iterator<Item = u64> {
        let mut used: Vec<_> = self.table(disk).into_iter().map(|row| (row.first, row.last + 1)).collect();
        used.sort();
        let first = disk.shape().first_usable;
        let starts = [vec![first], used.iter().map(|(_, end)| *end).collect()].concat();
        let ends = [used.into_iter().map(|(first, _)| first).collect(), vec![disk.n - first + 1]].concat();
        starts.into_iter().zip(ends).map(|(start, end)| end - start)
    }
}

/// Where a one-block partition stands on the last usable block, or before a partition of a lower slot, sgdisk may count
/// that block as free.
pub fn sgdisk_counts_the_same_free_blocks(calls: &Calls) {
    if !peer::present("sgdisk", "gdisk") {
        return;
    }
    for shape in shapes() {
        calls.counted_by(shape, listing::sgdisk_free, |disk| {
            let (last, rows) = (disk.n - shape.first_usable, calls.table(disk));
            let before_lower =
                |row: &Partition| rows.iter().any(|r| r.slot < row.slot && r.first == row.first + 1);
            rows.iter().all(|row| row.first != last && !before_lower(row))
        });
        let mut disk = calls.formatted(shape, shape.least_blocks() + 32, DISK_GUID);
        let mut random = Random::new(1);
        calls.add_drawn(&mut disk, 32, &mut random).expect("room");
        calls.add_drawn(&mut disk, 1, &mut random).expect("room");
        calls.delete_used(&mut disk, 1);
        let counts = (calls.free_blocks(&disk), listing::sgdisk_free(&disk.image().path));
        assert_eq!(counts, ((32, 32), (33, 33)), "{shape:?}");
    }
}

/// sfdisk leaves out runs of one block, up to two blocks at the disk's end (three of an empty disk) and, on more than
/// 4 MiB, what stands before the first MiB.
pub fn sfdisk_counts_the_same_free_blocks(calls: &Calls) {
    if !peer::present("sfdisk", "fdisk") {
        return;
    }
    for shape in shapes() {
        let counted = shape.least_blocks() + 3..=(4 << 20) / shape.block;
        calls.counted_by(shape, listing::sfdisk_free, |disk| {
            let at_end = calls.runs(disk).last().expect("a run");
            counted.contains(&disk.n) && at_end != 2 && calls.runs(disk).all(|run| run != 1)
        });
    }
    for shape in shapes() {
        let counts = match shape.block {
            512 => [(68, 0), (70, 0), (71, 4), (8192, 8125), (8193, 6112)],
            _ => [(12, 0), (14, 0), (15, 4), (1024, 1013), (1025, 764)],
        };
        for (n, theirs) in counts {
            let disk = calls.formatted(shape, n, DISK_GUID);
            let found = (calls.free_blocks(&disk).0, listing::sfdisk_free(&disk.image().path).0);
            assert_eq!(found, (shape.usable(n), theirs), "N {n}, {shape:?}");
        }
    }
}

impl Calls {
    /// A disk in that state, by a byte of the other copy's blocks, counted from its header's; the copy that is kept
    /// has no zeros behind its header.
    fn spoiled(&self, disk: &Disk, state: u64, at: usize) -> Disk {
        let shape = disk.shape();
        let mut spoiled = disk.clone();
        if state == BACKUP_ONLY {
            spoiled.head[shape.header_in_head() + at] ^= 0x10;
            spoiled.tail[shape.header_in_tail() + HEADER_LEN..].fill(0x5A);
        } else {
            spoiled.tail[(shape.header_in_tail() + at) % shape.tail_len] ^= 0x10;
            spoiled.head[shape.header_in_head() + HEADER_LEN..shape.entries_in_head()].fill(0x5A);
        }
        assert_eq!((self.state)(&spoiled), Ok(state), "byte {at}");
        spoiled
    }

    /// A disk in state 2: another unique GUID in the backup copy's slot 1.
    fn two_tables(&self, shape: Shape) -> Disk {
        let (mut disk, other) = self.changed(shape, 16);
        disk.tail = other.tail;
        disk
    }

    /// The difference of our repair from that of `cgpt repair`.
    fn repair_difference(&self, disk: &Disk, state: u64) -> Option<String> {
        let (mut ours, theirs) = (disk.clone(), repaired(disk));
        assert_eq!((self.repair)(&mut ours), Ok(state));
        let difference = ours.difference(&theirs);
        self.change(&mut ours, 16);
        assert!(ours.difference(&theirs).is_some());
        difference
    }
}

fn repaired(disk: &Disk) -> Disk {
    let image = disk.image();
    peer::printed("cgpt", [Path::new("repair"), &image.path]);
    Disk::read(&image.path, disk.block).expect("an image")
}

/// `cgpt repair` writes what the implementation writes.
pub fn cgpt_repairs_to_the_same_bytes(calls: &Calls) {
    if !peer::present("cgpt", "cgpt") {
        return;
    }
    for shape in shapes() {
        let block = shape.block as usize;
        for disk in calls.disks(shape, 14) {
            for state in [PRIMARY_ONLY, BACKUP_ONLY] {
                // Signature, CRC, own block, last usable block, disk GUID and CRC of the entries; in the entries.
                for at in [0, 16, 24, 48, 56, 88, block, block + 40, shape.tail_len - 1] {
                    let spoiled = calls.spoiled(&disk, state, at);
                    let difference = calls.repair_difference(&spoiled, state);
                    assert_eq!(difference, None, "N {}, state {state}, byte {at}, {shape:?}", disk.n);
                }
            }
        }
        assert_eq!(calls.repair_difference(&calls.two_tables(shape), DIFFERENT), None);
    }
}

/// It leaves what stood behind the header that it writes.
pub fn cgpt_repairs_without_the_rest_of_the_header_block(calls: &Calls) {
    if !peer::present("cgpt", "cgpt") {
        return;
    }
    for shape in shapes() {
        let mut disk = calls.spoiled(&calls.filled(shape, 5000, 14, 1), PRIMARY_ONLY, 0);
        let at = shape.header_in_tail() + 300;
        disk.tail[at] = 0x77;
        let difference = calls.repair_difference(&disk, PRIMARY_ONLY);
        assert_eq!(difference, Some(format!("tail {at:04X}")), "{shape:?}");
    }
}
