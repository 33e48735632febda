//! Names: none is given that another used slot carries (rules a1 to a4). All 72 bytes are compared, the empty name may
//! repeat, and a disk that has a name twice is read and edited as any other.

use super::aligned::{refused_earlier, LINUX, ZERO};
use super::{unique, Calls, New, Rule, DISK_GUID, NAMES};
use crate::disk::{Disk, Shape, SHAPES};

pub(super) const NAME: &str = "scratch";
/// An edit of a disk.
type Edit = fn(&Calls, &mut Disk) -> Result<(), u32>;

/// A unit behind a zero one.
const FOREIGN: &str = "scratch\0z";

pub(super) fn add(calls: &Calls, disk: &mut Disk, name: &str) -> Result<u64, u32> {
    let unique = calls.new_unique(disk);
    (calls.add)(disk, &new(&unique, name))
}

/// A partition that its name or room alone can refuse.
fn new<'a>(unique: &'a str, name: &'a str) -> New<'a> {
    New { kind: LINUX, unique, size: 1, alignment: 1, attributes: 0, rule: Rule::Earlier, name }
}

/// A partition of each name.
pub(super) fn named(calls: &Calls, shape: Shape, names: &[&str]) -> Disk {
    let mut disk = calls.formatted(shape, 1000, DISK_GUID);
    for (name, slot) in names.iter().zip(1..) {
        assert_eq!(add(calls, &mut disk, name), Ok(slot));
    }
    disk
}

/// What the call answers; the disk stays as it is.
fn answer<T>(disk: &Disk, call: impl Fn(&mut Disk) -> Result<T, u32>) -> Result<T, u32> {
    let mut lent = disk.clone();
    let answer = call(&mut lent);
    assert!(answer.is_ok() || lent == *disk, "a refused call wrote");
    answer
}

/// What an add of the name and a rename to it answer.
pub(super) fn given(calls: &Calls, disk: &Disk, slot: u64, name: &str) -> [Result<(), u32>; 2] {
    let added = answer(disk, |disk| add(calls, disk, name).map(drop));
    [added, answer(disk, |disk| (calls.rename)(disk, slot, name))]
}

pub fn a_name_is_given_once(calls: &Calls) {
    for shape in SHAPES {
        let disk = named(calls, shape, &["boot", NAME, "", "last"]);
        for slot in [1, 3, 4] {
            assert_eq!(given(calls, &disk, slot, NAME), [Err(26); 2]);
        }
        let mut same = disk.clone();
        assert_eq!((calls.rename)(&mut same, 2, NAME), Ok(()));
        assert_eq!(same.difference(&disk), None);
        let mut without = disk.clone();
        calls.delete_used(&mut without, 2);
        assert_eq!(given(calls, &without, 4, NAME), [Ok(()); 2]);
        let mut renamed = disk.clone();
        calls.rename_used(&mut renamed, 2, "other");
        assert_eq!(given(calls, &renamed, 1, NAME), [Ok(()); 2]);
        assert_eq!(given(calls, &renamed, 1, "other"), [Err(26); 2]);
        assert_eq!(add(calls, &mut renamed, NAME), Ok(5));
        assert_eq!(given(calls, &renamed, 2, NAME), [Err(26); 2]);
    }
}

pub fn the_empty_name_repeats(calls: &Calls) {
    for shape in SHAPES {
        let disk = named(calls, shape, &["", NAME, ""]);
        for slot in [1, 2, 3] {
            assert_eq!(given(calls, &disk, slot, ""), [Ok(()); 2]);
        }
    }
}

/// Another case, a part, more than the name, or one unit otherwise in its low or its high byte.
pub fn names_are_compared_whole(calls: &Calls) {
    let otherwise = |name: &str, place: usize, by: u32| -> String {
        let change = |c: char| char::from_u32(u32::from(c) ^ by).expect("a unit");
        name.chars().enumerate().map(|(at, c)| if at == place { change(c) } else { c }).collect()
    };
    for shape in SHAPES {
        for name in ["a", NAME, NAMES[6]] {
            let disk = named(calls, shape, &[name, ""]);
            let places = 0..name.chars().count();
            let changed = places.flat_map(|place| [1, 0x100].map(|by| otherwise(name, place, by)));
            let ends = [&name[1..], &name[..name.len() - 1]].map(String::from);
            let case = [name.to_uppercase()];
            let longer = (name.len() < 36).then(|| format!("{name} "));
            for near in changed.chain(ends).chain(case).chain(longer) {
                assert_eq!(given(calls, &disk, 2, &near), [Ok(()); 2], "{near:?} beside {name:?}");
            }
            assert_eq!(given(calls, &disk, 2, name), [Err(26); 2]);
        }
    }
}

/// What another tool left behind a zero unit makes it another name.
pub fn units_behind_a_zero_are_compared(calls: &Calls) {
    for shape in SHAPES {
        let mut disk = named(calls, shape, &["boot", "", "last"]);
        calls.write_name(&mut disk, 2, FOREIGN);
        assert_eq!(calls.row_of(&disk, 2).name, NAME);
        for slot in [1, 2, 3] {
            assert_eq!(given(calls, &disk, slot, NAME), [Ok(()); 2]);
            assert_eq!(given(calls, &disk, slot, FOREIGN), [Err(23); 2]);
        }
        calls.write_name(&mut disk, 2, "\0z");
        assert_eq!(given(calls, &disk, 1, ""), [Ok(()); 2]);
    }
}

/// Whether the new partition gets the stale slot or another one.
pub fn names_of_stale_slots_are_free(calls: &Calls) {
    for shape in SHAPES {
        for (stale, added) in [(1, 1), (3, 2)] {
            let mut disk = named(calls, shape, &["", "", "", "last"]);
            calls.rename_used(&mut disk, stale, NAME);
            disk.entry(stale).into_iter().for_each(|entry| entry[..16].fill(0));
            disk.set_crcs(calls.crc32);
            calls.delete_used(&mut disk, 2);
            assert_eq!(given(calls, &disk, 4, NAME), [Ok(()); 2]);
            assert_eq!(add(calls, &mut disk, NAME), Ok(added));
            assert_eq!(given(calls, &disk, 4, NAME), [Err(26); 2]);
        }
    }
}

/// Rules a2 and a3: every call answers, and edits write, as if one of the two had another name.
pub fn disks_with_a_name_twice_are_read_and_edited(calls: &Calls) {
    for shape in SHAPES {
        let single = named(calls, shape, &["boot", NAME, "last"]);
        let doubled = |mut disk: Disk| {
            calls.write_name(&mut disk, 3, NAME);
            disk
        };
        let disk = doubled(single.clone());
        let mut rows = calls.table(&single);
        rows[2].name = NAME.into();
        assert_eq!((calls.state)(&disk), Ok(1));
        assert_eq!((calls.rows)(&disk), Ok(rows));
        assert_eq!((calls.free)(&disk), (calls.free)(&single));
        for slot in [1, 2, 3] {
            assert_eq!(given(calls, &disk, slot, NAME), [Err(26); 2]);
            assert_eq!(given(calls, &disk, slot, "new"), [Ok(()); 2]);
        }
        let edits: [Edit; 5] = [
            |calls, disk| (calls.delete)(disk, 1),
            |calls, disk| (calls.delete)(disk, 2),
            |calls, disk| (calls.resize)(disk, 3, 70),
            |calls, disk| (calls.rename)(disk, 2, "new"),
            |calls, disk| add(calls, disk, "new").map(drop),
        ];
        for edit in edits {
            let [mut ours, mut expected] = [disk.clone(), single.clone()];
            assert_eq!([&mut ours, &mut expected].map(|disk| edit(calls, disk)), [Ok(()); 2]);
            assert_eq!(ours.difference(&doubled(expected)), None);
        }
        for (state, at) in [(3, None), (4, Some(shape.header_in_head()))] {
            let mut broken = disk.clone();
            match at {
                Some(at) => broken.head[at] ^= 1,
                None => broken.tail[shape.header_in_tail()] ^= 1,
            }
            assert_eq!((calls.repair)(&mut broken), Ok(state));
            assert_eq!(broken.difference(&disk), None);
        }
        // Once one of the two is gone, the other one may keep it.
        let mut disk = disk;
        calls.delete_used(&mut disk, 2);
        assert_eq!(given(calls, &disk, 3, NAME), [Err(26), Ok(())]);
    }
}

/// Rule a4: before 24 and 25 in an add, last in a rename.
pub fn a_name_twice_is_refused_after_23(calls: &Calls) {
    for shape in SHAPES {
        let mut full = named(calls, shape, &[NAME, ""]);
        calls.write_name(&mut full, 2, FOREIGN);
        for name in 3..=128 {
            add(calls, &mut full, &name.to_string()).expect("room");
        }
        let mut disk = full.clone();
        calls.delete_used(&mut disk, 77);
        let (held, other) = (calls.row_of(&disk, 1).unique, unique(200));
        // Under another name there is no slot, no room, or nothing to refuse.
        for (disk, size, other_name) in [(&full, 1, Err(24)), (&disk, u64::MAX, Err(25)), (&disk, 1, Ok(77))]
        {
            let add = |name| answer(disk, |disk| (calls.add)(disk, &New { size, ..new(&other, name) }));
            assert_eq!([NAME, "new"].map(add), [Err(26), other_name]);
        }
        for (number, new) in [
            (20, New { size: 0, ..new(&other, NAME) }),
            (27, New { alignment: 3, ..new(&other, NAME) }),
            (21, New { kind: ZERO, ..new(&other, NAME) }),
            (22, new(ZERO, NAME)),
            (22, new(&held, NAME)),
            (23, new(&other, FOREIGN)),
        ] {
            assert_eq!(answer(&disk, |disk| (calls.add)(disk, &new)), Err(number));
        }
        for (number, disk) in refused_earlier(&disk) {
            assert_eq!(answer(&disk, |disk| (calls.add)(disk, &new(&other, NAME))), Err(number));
            assert_eq!(answer(&disk, |disk| (calls.rename)(disk, 3, NAME)), Err(number));
        }
        for (number, slot, name) in
            [(12, 0, NAME), (12, 129, NAME), (13, 77, NAME), (23, 3, FOREIGN), (26, 3, NAME)]
        {
            assert_eq!(answer(&disk, |disk| (calls.rename)(disk, slot, name)), Err(number));
        }
    }
}
