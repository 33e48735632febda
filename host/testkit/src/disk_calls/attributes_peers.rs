//! Attribute bits that other tools set: a check sees them, and edits keep them as the tool does.

use super::attributes::{bare, checked, BOTH, RULES};
use super::edits::after;
use super::{shapes, Calls, Rule};
use crate::disk::Disk;
use crate::edit::{self as tool, Edit};
use crate::fixture;
use crate::listing::Partition;
use crate::peer;
use std::path::Path;

fn text(image: &Path) -> &str {
    image.to_str().expect("a path in UTF-8")
}

/// The tool sets one of the bits in each partition, the first of them in slot 1; whichever of them is left is what a check
/// answers by, down to the last.
fn bits_are_seen(calls: &Calls, bits: &[u32], by: impl Fn(&Path, &[(u64, u32)])) {
    for shape in shapes() {
        let disk = bare(calls, shape, bits.len() as u64);
        let set: Vec<(u64, u32)> = (1..).zip(bits.iter().copied()).collect();
        let mut theirs = after(&disk, |image| by(image, &set));
        let mut expected = disk.clone();
        for (slot, bit) in &set {
            calls.write_attributes(&mut expected, *slot, 1 << bit, &BOTH);
        }
        assert_eq!(theirs.difference(&expected), None, "{shape:?}");
        for (slot, _) in &set {
            let told = calls.table(&theirs);
            assert_eq!(checked(calls, &theirs), RULES.map(|rule| Ok(first(&told, rule))), "{shape:?}");
            calls.delete_used(&mut theirs, *slot);
        }
    }
}

/// The first of the partitions that offends.
fn first(rows: &[Partition], rule: Rule) -> u64 {
    let offender = rows.iter().find(|row| row.attributes & rule.zero() != 0);
    offender.map_or(0, |row| row.slot)
}

pub fn sgdisk_sets_bits_that_a_check_sees(calls: &Calls) {
    if peer::present("sgdisk", "gdisk") {
        bits_are_seen(calls, &[0, 48, 1, 2, 63, 3, 24, 47], |image, set| {
            let bits = set.iter().map(|(slot, bit)| format!("{slot}:set:{bit}"));
            let options = bits.flat_map(|bit| ["-A".to_string(), bit]);
            peer::printed("sgdisk", options.chain([text(image).to_string()]));
        });
    }
}

/// It sets no other bits than those that the present rule leaves free.
pub fn sfdisk_sets_bits_that_a_check_sees(calls: &Calls) {
    if !peer::present("sfdisk", "fdisk") {
        return;
    }
    let set = |image: &Path, slot: u64, bit: u32| {
        let word = match bit {
            0 => "RequiredPartition".to_string(),
            1 => "NoBlockIOProtocol".to_string(),
            2 => "LegacyBIOSBootable".to_string(),
            bit => format!("GUID:{bit}"),
        };
        peer::run("sfdisk", ["-q", "--part-attrs", text(image), &slot.to_string(), &word]).status.success()
    };
    bits_are_seen(calls, &[0, 48, 1, 2, 63], |image, bits| {
        bits.iter().for_each(|(slot, bit)| assert!(set(image, *slot, *bit), "bit {bit}"));
    });
    for shape in shapes() {
        let disk = bare(calls, shape, 1);
        for bit in [3, 47] {
            let theirs = after(&disk, |image| assert!(!set(image, 1, bit), "bit {bit}"));
            assert_eq!(disk.difference(&theirs), None);
        }
    }
}

/// Its legacy boot bit offends the earlier rule, its type's own bits neither.
pub fn cgpt_sets_bits_that_a_check_sees(calls: &Calls) {
    if peer::present("cgpt", "cgpt") {
        bits_are_seen(calls, &[0, 48, 2, 63], |image, set| {
            for (slot, bit) in set {
                let (option, value) = match bit {
                    0 => ("-R", 1),
                    2 => ("-B", 1),
                    bit => ("-A", 1 << (bit - 48)),
                };
                let (slot, value) = (slot.to_string(), value.to_string());
                peer::printed("cgpt", ["add", "-i", &slot, option, &value, text(image)]);
            }
        });
    }
}

/// Edits of a disk whose partitions have bits that adding refuses, by the implementation and by the tool.
pub fn sgdisk_edits_offending_partitions_likewise(calls: &Calls) {
    if !peer::present("sgdisk", "gdisk") {
        return;
    }
    for shape in shapes() {
        let mut ours: Disk = bare(calls, shape, 3);
        for (slot, attributes) in [(1, 2), (2, 8), (3, u64::MAX)] {
            calls.write_attributes(&mut ours, slot, attributes, &BOTH);
        }
        let disk = ours.clone();
        let edits = [
            calls.delete_used(&mut ours, 1),
            calls.rename_used(&mut ours, 2, "offends"),
            calls.resize_used(&mut ours, 3, 20).expect("room"),
        ];
        let theirs = after(&disk, |image| tool::sgdisk(image, &edits));
        assert_eq!(ours.difference(&theirs), None, "{shape:?}");
        assert_eq!(checked(calls, &theirs), [Ok(2); 2]);
        // What an add refuses, the tool does.
        let refused = Partition { slot: 1, first: 100, last: 100, ..calls.row_of(&disk, 3) };
        let added = after(&theirs, |image| {
            tool::sgdisk(
                image,
                &[Edit::Add(Partition { unique: calls.new_unique(&theirs), ..refused.clone() })],
            )
        });
        assert_eq!(calls.row_of(&added, 1).attributes, u64::MAX);
        assert_eq!(checked(calls, &added), [Ok(1); 2]);
    }
}

/// By the attributes that the tool told of each partition.
pub fn attributes_of_fixtures_are_checked(calls: &Calls) {
    let mut seen = Vec::new();
    for path in fixture::files("gpt", "disk") {
        let fixture = fixture::disk(&path).expect("a fixture");
        let told = RULES.map(|rule| fixture.reads_as.map(|_| first(&fixture.partitions, rule)));
        assert_eq!(checked(calls, &fixture.disk), told, "{}", path.display());
        seen.push((fixture.disk.block, told.map(|answer| answer.is_ok_and(|slot| slot != 0))));
    }
    // Disks that offend neither rule, the earlier one alone, and both.
    for block in [512, 4096] {
        for offended in [[false, false], [false, true], [true, true]] {
            assert!(seen.contains(&(block, offended)), "{block}: {offended:?}");
        }
    }
}
