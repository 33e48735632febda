//! Disks that layout strings became, as other tools verify and list them, and as they make them of the same partitions.

use super::edits::after;
use super::strings::rows;
use super::{shapes, Calls};
use crate::disk::{Disk, Shape};
use crate::edit::{self as tool, Edit};
use crate::fixture;
use crate::listing::{self, Partition};
use crate::peer;
use crate::random::Random;
use crate::strings::{samples, LayoutString, Wanted};
use std::path::Path;

/// The disks of document 004's strings, and of drawn ones, with their partitions.
fn disks(calls: &Calls) -> Vec<(Disk, Vec<Partition>)> {
    let mut disks = Vec::new();
    for shape in shapes() {
        for sample in samples().into_iter().filter(|sample| sample.block == shape.block) {
            let mut disk = shape.filled(sample.n, 0x5A);
            (calls.build)(&mut disk, sample.alignment, sample.text.as_bytes()).expect("room");
            let rows = calls.table(&disk);
            disks.push((disk, rows));
        }
        disks.extend(drawn(calls, shape));
    }
    disks
}

fn drawn(calls: &Calls, shape: Shape) -> Vec<(Disk, Vec<Partition>)> {
    let mut random = Random::new(29);
    let mut disks = Vec::new();
    while disks.len() < 8 {
        let alignment = random.pick(&[1, 8, 2048]);
        let (n, partitions) = (random.pick(&[5000, 30_000]), 1 + random.below(9));
        let wanted = Wanted { shape, n, alignment, partitions };
        let mut string = LayoutString::random(wanted, &mut random);
        // Without signs that a tool takes for its own.
        let named = string.partitions.iter_mut().zip(1..);
        named.for_each(|(partition, number)| partition.name = format!("part-{number}"));
        if let Ok(places) = string.places(wanted) {
            let mut disk = shape.filled(n, 0x5A);
            (calls.build)(&mut disk, alignment, string.text(&mut random).as_bytes()).expect("room");
            disks.push((disk, rows(&string, &places)));
        }
    }
    disks
}

/// The tool lists the partitions that the string says, and says nothing against the disk.
fn is_right(calls: &Calls, list: fn(&Path) -> Vec<Partition>, verify: [&str; 3], wrong: &[&str]) {
    let [tool, option, right] = verify;
    for (disk, expected) in disks(calls) {
        let image = disk.image();
        assert_eq!(list(&image.path), expected, "N {}", disk.n);
        let output = peer::run(tool, [Path::new(option), &image.path]);
        let said = String::from_utf8_lossy(&[output.stdout, output.stderr].concat()).into_owned();
        let content = said.contains(right) && !wrong.iter().any(|word| said.contains(word));
        assert!(content, "N {}: {said}", disk.n);
    }
}

pub fn sgdisk_verifies_built_disks(calls: &Calls) {
    if peer::present("sgdisk", "gdisk") {
        let verify = ["sgdisk", "-v", "No problems found"];
        is_right(calls, listing::sgdisk, verify, &["invalid", "ERROR"]);
    }
}

pub fn sfdisk_verifies_built_disks(calls: &Calls) {
    if peer::present("sfdisk", "fdisk") {
        is_right(calls, listing::sfdisk, ["sfdisk", "-V", "No errors detected"], &["corrupt"]);
    }
}

/// The tool adds the same partitions on a formatted disk.
fn makes_the_same(calls: &Calls, by: fn(&Path, &[Edit])) {
    for (disk, rows) in disks(calls) {
        let mut fresh = disk.shape().filled(disk.n, 0);
        (calls.format)(&mut fresh, &disk_guid(&disk)).expect("a table");
        let edits: Vec<Edit> = rows.into_iter().map(Edit::Add).collect();
        let theirs = after(&fresh, |image| by(image, &edits));
        assert_eq!(disk.difference(&theirs), None, "N {}", disk.n);
    }
}

/// Of the primary header; the first three groups are stored reversed.
fn disk_guid(disk: &Disk) -> String {
    let stored = &disk.head[disk.shape().header_in_head() + 56..][..16];
    let order = [3, 2, 1, 0, 5, 4, 7, 6, 8, 9, 10, 11, 12, 13, 14, 15];
    super::guid_text(&order.map(|at: usize| stored[at]))
}

pub fn sgdisk_makes_the_same_bytes_of_a_string(calls: &Calls) {
    if peer::present("sgdisk", "gdisk") {
        makes_the_same(calls, tool::sgdisk);
    }
}

pub fn sfdisk_makes_the_same_bytes_of_a_string(calls: &Calls) {
    if peer::present("sfdisk", "fdisk") {
        makes_the_same(calls, |image, edits| {
            let line = |edit: &Edit| match edit {
                Edit::Add(new) => tool::sfdisk_line(new),
                _ => unreachable!("adds alone"),
            };
            let script: String = edits.iter().map(line).collect();
            peer::feed("sfdisk", [Path::new("-q"), Path::new("--append"), image], &script);
        });
    }
}

/// Disks that other tools made of the partitions of a layout string: building the string gives their bytes.
pub fn strings_of_fixtures_become_their_bytes(calls: &Calls) {
    let mut blocks = Vec::new();
    for path in fixture::files("gpt", "disk") {
        let fixture = fixture::disk(&path).expect("a fixture");
        if let Some((alignment, text)) = fixture.string {
            let mut disk = fixture.disk.shape().filled(fixture.disk.n, 0x5A);
            assert_eq!((calls.build)(&mut disk, alignment, text.as_bytes()), Ok(()), "{}", path.display());
            assert_eq!(disk.difference(&fixture.disk), None, "{}", path.display());
            blocks.push(disk.block);
        }
    }
    assert!(blocks.contains(&512) && blocks.contains(&4096), "{blocks:?}");
}
