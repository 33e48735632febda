//! Other tools on a slot that still holds bytes of a deleted partition.

use super::edits::{after, units, CGPT_BITS};
use super::stale::{cleared, SIZES, STALE};
use super::{shapes, Calls, New, Rule};
use crate::disk::{Disk, Shape};
use crate::edit::{self as tool, Edit};
use crate::listing::{self, Partition};
use crate::peer;
use std::panic::catch_unwind;
use std::path::Path;

const ATTRIBUTES: std::ops::Range<usize> = 48..56;
const NAME: usize = 56;
const ZERO: &str = "00000000-0000-0000-0000-000000000000";

/// A partition of so many blocks that the implementation put into the stale slot, and the disk then.
fn added(calls: &Calls, stale: &Disk, size: u64, name: &str) -> (Partition, Disk) {
    let mut disk = stale.clone();
    let unique = "01234567-89AB-4CDE-8F01-23456789ABCD";
    let new = New { kind: "linux", unique, size, alignment: 1, attributes: 1, rule: Rule::Earlier, name };
    assert_eq!((calls.add)(&mut disk, &new), Ok(STALE));
    (calls.row_of(&disk, STALE), disk)
}

fn stale_entry(disk: &Disk) -> Vec<u8> {
    disk.clone().entry(STALE)[0].to_vec()
}

/// The tool fails, and the disk is as it was.
fn refuses(stale: &Disk, by: impl Fn(&Path) + std::panic::RefUnwindSafe) {
    let theirs = after(stale, |image| assert!(catch_unwind(|| by(image)).is_err()));
    assert_eq!(stale.difference(&theirs), None);
}

/// A disk of each block size, with attributes in the stale slot that each tool can set and that cgpt can't.
fn on_each(calls: &Calls, holds: impl Fn(Shape, Disk)) {
    for shape in shapes() {
        let mut stale = cleared(calls, shape);
        stale
            .entry(STALE)
            .into_iter()
            .for_each(|entry| entry[ATTRIBUTES].copy_from_slice(&[0x0D, 0, 0, 0, 0, 0x80, 0xFA, 1]));
        stale.set_crcs(calls.crc32);
        holds(shape, stale);
    }
}

/// `-p` lists the slot, `-i` denies it. It is taken, and keeps name and attributes that are not told; but the blocks that
/// it held are not given to any partition.
pub fn sgdisk_on_a_stale_slot(calls: &Calls) {
    if !peer::present("sgdisk", "gdisk") {
        return;
    }
    on_each(calls, |_, stale| {
        let image = stale.image();
        assert_eq!(listing::sgdisk_slots(&image.path), [1, STALE, 3]);
        assert_eq!(listing::sgdisk(&image.path), calls.table(&stale));
        let (behind, ours) = added(calls, &stale, SIZES[1] + 1, "new");
        let told = after(&stale, |image| tool::sgdisk(image, &[Edit::Add(behind.clone())]));
        assert_eq!(ours.difference(&told), None);
        let place = format!("{STALE}:{}:{}", behind.first, behind.last);
        let place = ["-a", "1", "-n", &place].map(str::to_string);
        let untold = after(&stale, |image| {
            peer::printed(
                "sgdisk",
                place.iter().cloned().chain([image.to_str().expect("a path").to_string()]),
            );
        });
        assert_eq!(stale_entry(&untold)[ATTRIBUTES.start..], stale_entry(&stale)[ATTRIBUTES.start..]);
        let (within, _) = added(calls, &stale, 1, "new");
        refuses(&stale, |image| tool::sgdisk(image, &[Edit::Add(within.clone())]));
        refuses(&stale, |image| tool::sgdisk(image, &[Edit::Add(Partition { slot: 4, ..within.clone() })]));
        // Deleting it zeroes it.
        let deleted = after(&stale, |image| tool::sgdisk(image, &[Edit::Delete(STALE)]));
        assert_eq!((stale_entry(&deleted), calls.table(&deleted)), (vec![0; 128], calls.table(&stale)));
    });
}

/// It lists the slot, with a zero type, and neither adds to it nor deletes it; the blocks that it held are given away.
pub fn sfdisk_on_a_stale_slot(calls: &Calls) {
    if !peer::present("sfdisk", "fdisk") {
        return;
    }
    on_each(calls, |_, stale| {
        let (unused, used): (Vec<_>, Vec<_>) =
            listing::sfdisk(&stale.image().path).into_iter().partition(|row| row.kind == ZERO);
        assert_eq!(unused.iter().map(|row| row.slot).collect::<Vec<_>>(), [STALE]);
        assert_eq!(used.len(), calls.table(&stale).len());
        let (within, _) = added(calls, &stale, 1, "new");
        refuses(&stale, |image| tool::sfdisk(image, &Edit::Add(within.clone())));
        refuses(&stale, |image| tool::sfdisk(image, &Edit::Delete(STALE)));
        let beside = Partition { slot: 4, ..within };
        let theirs = after(&stale, |image| tool::sfdisk(image, &Edit::Add(beside.clone())));
        assert_eq!(calls.row_of(&theirs, 4), beside);
        assert_eq!(stale_entry(&theirs), stale_entry(&stale));
    });
}

/// It does not list the slot, and takes it: attributes and name that are not told stay, and so do those attributes that it
/// can't set and the end of a longer name.
pub fn cgpt_on_a_stale_slot(calls: &Calls) {
    if !peer::present("cgpt", "cgpt") {
        return;
    }
    on_each(calls, |shape, stale| {
        let slots: Vec<u64> = listing::cgpt_quick(&stale.image().path).iter().map(|row| row.0).collect();
        assert_eq!(slots, [1, 3]);
        let held = stale_entry(&stale);
        let (new, mut expected) = added(calls, &stale, 1, "new");
        for entry in expected.entry(STALE) {
            let attributes = u64::from_le_bytes(held[ATTRIBUTES].try_into().expect("8 bytes")) & !CGPT_BITS
                | new.attributes;
            entry[ATTRIBUTES].copy_from_slice(&attributes.to_le_bytes());
            entry[NAME..].copy_from_slice(&[&units("new\0")[..], &held[NAME + 8..]].concat());
        }
        expected.set_crcs(calls.crc32);
        let told = after(&stale, |image| tool::cgpt(image, &Edit::Add(new.clone())));
        assert_eq!(expected.difference(&told), None, "{shape:?}");
        let (slot, first) = (STALE.to_string(), new.first.to_string());
        let untold = after(&stale, |image| {
            let place = ["add", "-i", &slot, "-b", &first, "-s", "1", "-t", "data"];
            peer::printed("cgpt", place.into_iter().chain([image.to_str().expect("a path")]));
        });
        assert_eq!(stale_entry(&untold)[ATTRIBUTES.start..], held[ATTRIBUTES.start..]);
        assert_ne!(stale_entry(&untold)[16..32], held[16..32]);
        refuses(&stale, |image| tool::cgpt(image, &Edit::Delete(STALE)));
    });
}
