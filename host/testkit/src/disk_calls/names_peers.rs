//! Other tools give a name that another partition has. Such a disk is read and listed alike, and a further one is refused.

use super::edits::{after, units};
use super::names::{add, given, named, NAME};
use super::{shapes, Calls};
use crate::disk::Disk;
use crate::edit::{self as tool, Edit};
use crate::fixture;
use crate::listing::{self, Partition};
use crate::peer;
use std::path::Path;

/// The tool adds a second partition of the name, and renames another one to it.
fn given_twice(calls: &Calls, by: impl Fn(&Path, &Edit), list: impl Fn(&Path) -> Vec<Partition>) {
    for shape in shapes() {
        let disk = named(calls, shape, &[NAME, "second", "last"]);
        let mut expected = disk.clone();
        assert_eq!(add(calls, &mut expected, "fourth"), Ok(4));
        [2, 4].into_iter().for_each(|slot| calls.write_name(&mut expected, slot, NAME));
        let new = calls.row_of(&expected, 4);
        let theirs = after(&disk, |image| {
            by(image, &Edit::Add(new.clone()));
            by(image, &Edit::Rename(2, NAME.into()));
        });
        assert_eq!(expected.difference(&theirs), None, "{shape:?}");
        assert_eq!(list(&theirs.image().path), calls.table(&theirs), "{shape:?}");
        for slot in 1..=4 {
            assert_eq!(given(calls, &theirs, slot, NAME), [Err(26); 2], "{shape:?}");
        }
    }
}

pub fn sgdisk_gives_a_name_twice(calls: &Calls) {
    if peer::present("sgdisk", "gdisk") {
        given_twice(calls, |image, edit| tool::sgdisk(image, std::slice::from_ref(edit)), listing::sgdisk);
    }
}

pub fn sfdisk_gives_a_name_twice(calls: &Calls) {
    if peer::present("sfdisk", "fdisk") {
        given_twice(calls, tool::sfdisk, listing::sfdisk);
    }
}

pub fn cgpt_gives_a_name_twice(calls: &Calls) {
    if peer::present("cgpt", "cgpt") {
        given_twice(calls, tool::cgpt, |image| listing::cgpt(image, 1..=4));
    }
}

/// Every name of every disk, given to every slot of it: whether it is refused is said by the bytes of the entries.
pub fn names_of_fixtures_are_given_once(calls: &Calls) {
    let mut refused = 0;
    for path in fixture::files("gpt", "disk") {
        let fixture = fixture::disk(&path).expect("a fixture");
        let slots: Vec<u64> = fixture.partitions.iter().map(|row| row.slot).collect();
        for name in fixture.partitions.iter().map(|row| &row.name).filter(|_| fixture.reads_as == Ok(1)) {
            for slot in &slots {
                let mut disk = fixture.disk.clone();
                let mut others = slots.iter().filter(|other| *other != slot);
                let carried = !name.is_empty() && others.any(|other| carries(&mut disk, *other, name));
                let expected = if carried { Err(26) } else { Ok(()) };
                assert_eq!((calls.rename)(&mut disk, *slot, name), expected, "{}, {slot}", path.display());
                refused += usize::from(carried);
            }
        }
    }
    assert!(refused > 0);
}

/// Whether the slot holds the name and nothing behind it.
fn carries(disk: &mut Disk, slot: u64, name: &str) -> bool {
    let mut bytes = units(name);
    bytes.resize(72, 0);
    disk.entry(slot)[0][56..] == bytes
}
