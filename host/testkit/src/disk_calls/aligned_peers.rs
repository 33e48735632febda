//! Other tools place partitions on a fresh disk where the implementation does, at the same alignment.

use super::aligned::{first, ALIGNMENTS};
use super::edits::after;
use super::{shapes, Calls, DISK_GUID};
use crate::disk::{Disk, Shape};
use crate::peer;
use std::path::Path;

/// Blocks: 256 MiB, or 2 GiB.
const N: u64 = 1 << 19;
/// Multiples of the alignments, sizes beside these, and long ones.
const SIZES: [u64; 8] = [1000, 2048, 1, 40_000, 2049, 8, 2047, 3];
const MIB: u64 = 1 << 20;

/// First and last block of each partition.
fn places(calls: &Calls, disk: &Disk) -> Vec<(u64, u64)> {
    calls.table(disk).iter().map(|row| (row.first, row.last)).collect()
}

/// A fresh disk, and where the implementation places partitions on it.
fn placed(calls: &Calls, shape: Shape, alignment: u64) -> (Disk, Vec<(u64, u64)>) {
    let fresh = calls.formatted(shape, N, DISK_GUID);
    let mut disk = fresh.clone();
    for size in SIZES {
        first(calls, &mut disk, size, alignment).expect("room");
    }
    let places = places(calls, &disk);
    (fresh, places)
}

/// The sizes as they follow each other, the first from a block on, each at a multiple.
fn in_turn(from: u64, alignment: u64) -> Vec<(u64, u64)> {
    let mut next = from;
    let place = |size: &u64| {
        let first = next;
        next = (first + size).next_multiple_of(alignment);
        (first, first + size - 1)
    };
    SIZES.iter().map(place).collect()
}

pub fn sgdisk_places_the_same(calls: &Calls) {
    if !peer::present("sgdisk", "gdisk") {
        return;
    }
    for shape in shapes() {
        for alignment in ALIGNMENTS {
            let (fresh, expected) = placed(calls, shape, alignment);
            let theirs = after(&fresh, |image| sgdisk(image, Some(alignment)));
            assert_eq!(places(calls, &theirs), expected, "{shape:?}, alignment {alignment}");
            let lowest = shape.first_usable.next_multiple_of(alignment);
            assert_eq!(in_turn(lowest, alignment), expected, "{shape:?}, alignment {alignment}");
        }
    }
}

/// A table of its own, then the sizes.
fn sgdisk(image: &Path, alignment: Option<u64>) {
    let mut arguments = vec!["-o".to_string()];
    alignment.iter().for_each(|blocks| arguments.extend(["-a".to_string(), blocks.to_string()]));
    SIZES.iter().for_each(|size| arguments.extend(["-n".to_string(), format!("0:0:+{size}")]));
    arguments.push(image.to_str().expect("a path").into());
    peer::printed("sgdisk", arguments);
}

/// A table of its own, then the sizes; the grain is bytes.
fn sfdisk(image: &Path, shape: Shape, alignment: Option<u64>) {
    let mut script = format!("label: gpt\nfirst-lba: {}\n", shape.first_usable);
    script.extend(alignment.map(|blocks| format!("grain: {}\n", blocks * shape.block)));
    script.extend(SIZES.map(|size| format!("size={size}\n")));
    peer::feed("sfdisk", ["-q", "--no-tell-kernel", image.to_str().expect("a path")], &script);
}

/// Where nothing is said of alignment: 2048 blocks of 512 bytes, 256 of 4096.
fn at_1_mib_by_default(calls: &Calls, by: impl Fn(&Path, Shape)) {
    for shape in shapes() {
        let blocks = MIB / shape.block;
        let theirs = after(&calls.formatted(shape, N, DISK_GUID), |image| by(image, shape));
        assert_eq!(places(calls, &theirs), in_turn(blocks, blocks), "{shape:?}");
    }
}

pub fn sgdisk_aligns_to_1_mib_by_default(calls: &Calls) {
    if peer::present("sgdisk", "gdisk") {
        at_1_mib_by_default(calls, |image, _| sgdisk(image, None));
    }
}

pub fn sfdisk_aligns_to_1_mib_by_default(calls: &Calls) {
    if peer::present("sfdisk", "fdisk") {
        at_1_mib_by_default(calls, |image, shape| sfdisk(image, shape, None));
    }
}

/// What sfdisk places at an alignment, and what the implementation does.
fn by_sfdisk(calls: &Calls, shape: Shape, alignment: u64) -> [Vec<(u64, u64)>; 2] {
    let (fresh, ours) = placed(calls, shape, alignment);
    let theirs = after(&fresh, |image| sfdisk(image, shape, Some(alignment)));
    [places(calls, &theirs), ours]
}

/// With a grain of one block, and with one of 1 MiB.
fn sfdisk_goes_by(shape: Shape, alignment: u64) -> bool {
    alignment == 1 || alignment * shape.block == MIB
}

pub fn sfdisk_places_the_same(calls: &Calls) {
    if !peer::present("sfdisk", "fdisk") {
        return;
    }
    for shape in shapes() {
        for alignment in ALIGNMENTS.into_iter().filter(|alignment| sfdisk_goes_by(shape, *alignment)) {
            let [theirs, ours] = by_sfdisk(calls, shape, alignment);
            assert_eq!(theirs, ours, "{shape:?}, alignment {alignment}");
        }
    }
}

/// Its first partition then stands at 1 MiB, a multiple of the grain or not; the others follow at multiples.
pub fn sfdisk_starts_at_1_mib_with_other_grains(calls: &Calls) {
    if !peer::present("sfdisk", "fdisk") {
        return;
    }
    for shape in shapes() {
        for alignment in ALIGNMENTS.into_iter().filter(|alignment| !sfdisk_goes_by(shape, *alignment)) {
            let [theirs, ours] = by_sfdisk(calls, shape, alignment);
            assert_eq!(theirs, in_turn(MIB / shape.block, alignment), "{shape:?}, alignment {alignment}");
            assert_ne!(theirs, ours);
        }
    }
}
