//! Adds and renames with a name that a slot carries, or nearly carries, and every call on a disk that has a name twice.

use super::call::{Call, NAME_UNITS};
use super::disk::{Disk, Side, SIDES, SLOTS};
use super::{bits, name, rows, sample};
use crate::run::{Outcome, Run};
use testkit::disk::{Shape, SHAPES};

/// What a call meets.
pub const CARRIED: &str = "another slot's name";
pub const NEAR: &str = "nearly another slot's name";
pub const BEFORE_ZERO: &str = "another slot's name up to a zero unit";
pub const EMPTY: &str = "empty name again";
pub const OWN: &str = "the slot's own name";
pub const OF_STALE: &str = "a stale slot's name";
pub const TWICE: &str = "a name twice";

/// Slots 2, 3 and 5 are used.
const USED: [usize; 3] = [1, 2, 4];

pub fn each_name(run: &mut Run) -> Outcome {
    for shape in SHAPES {
        let mut disk = rows::some_slots_used(run, shape);
        USED.into_iter().for_each(|index| disk.set_name(index, &name::EMPTY));
        carried(run, &disk)?;
        each_byte(run, &disk)?;
        behind_zero(run, &disk)?;
        empty(run, &disk)?;
        stale(run, &disk)?;
        twice(run, &disk)?;
        all_slots(run, shape)?;
    }
    Ok(())
}

/// The disk with these names, by index.
fn with(disk: &Disk, names: &[(usize, &[u16])]) -> Disk {
    let mut disk = disk.clone();
    names.iter().for_each(|(index, name)| disk.set_name(*index, name));
    disk.seal_both();
    disk
}

fn add(run: &mut Run, name: &[u16]) -> Call {
    let (kind, unique) = (sample::sparse_guid(&mut run.random), sample::guid(&mut run.random));
    let (rule, name) = (bits::rule(&mut run.random), name.to_vec());
    Call::Add { kind, unique, size: 1, alignment: 1, attributes: 0, rule, name }
}

fn rename(index: usize, name: &[u16]) -> Call {
    Call::Rename { slot: index as u64 + 1, name: name.to_vec() }
}

/// One add, and a rename of each of these slots.
fn give(run: &mut Run, disk: &Disk, indexes: &[usize], name: &[u16], what: &'static str) -> Outcome {
    let new = add(run, name);
    disk.meeting(run, &new, what)?;
    indexes.iter().try_for_each(|index| disk.meeting(run, &rename(*index, name), what))
}

/// By a slot before the one that gets it, or behind it; then names that are one unit longer or shorter, or in the other
/// case of letters.
fn carried(run: &mut Run, disk: &Disk) -> Outcome {
    for length in [1, 5, NAME_UNITS] {
        let mut name = name::of_length(length, &mut run.random);
        // A letter, or a unit whose low byte is zero.
        name[0] = run.random.pick(&[0x61, 0x0100]);
        for carrier in USED {
            let disk = with(disk, &[(carrier, &name)]);
            let others: Vec<usize> = USED.into_iter().filter(|index| *index != carrier).collect();
            give(run, &disk, &others, &name, CARRIED)?;
            disk.meeting(run, &rename(carrier, &name), OWN)?;
        }
        let disk = with(disk, &[(1, &name)]);
        for near in [name::longer(&name), name::shorter(&name), name::in_other_case(&name)] {
            if near != name {
                give(run, &disk, &[4], &near, NEAR)?;
            }
        }
    }
    for first in [0x61, 0x0100] {
        let mut name = name::EMPTY;
        name[0] = first;
        give(run, &with(disk, &[(4, &name)]), &[1], &name, CARRIED)?;
    }
    Ok(())
}

/// A name of 36 units but for one byte: an add for the even ones and a rename for the odd ones, at 4096 bytes the other way
/// round.
fn each_byte(run: &mut Run, disk: &Disk) -> Outcome {
    let name = [0x0141; NAME_UNITS];
    let disk = with(disk, &[(2, &name)]);
    for byte in 0..2 * NAME_UNITS {
        let mut near = name;
        // The bits that these units have not.
        near[byte / 2] ^= 2 << (8 * (byte % 2) + run.random.below(5));
        let adds = (byte % 2 == 0) == (disk.block == 512);
        let call = if adds { add(run, &near) } else { rename(1, &near) };
        disk.meeting(run, &call, NEAR)?;
    }
    Ok(())
}

/// What another tool leaves behind a zero unit is compared too; given itself, it is refused as a name.
fn behind_zero(run: &mut Run, disk: &Disk) -> Outcome {
    for (length, behind) in [(1, 2), (5, 35), (0, 1)] {
        let text = name::of_length(length, &mut run.random);
        let mut foreign = text.clone();
        foreign[behind] = 0x7A;
        let disk = with(disk, &[(2, &foreign)]);
        give(run, &disk, &[1, 2], &text, BEFORE_ZERO)?;
        give(run, &disk, &[4], &foreign, BEFORE_ZERO)?;
    }
    Ok(())
}

fn empty(run: &mut Run, disk: &Disk) -> Outcome {
    let name = name::filled(&mut run.random);
    for names in [&[][..], &[(1, &name[..])], &[(1, &name), (4, &name)]] {
        give(run, &with(disk, names), &USED, &name::EMPTY, EMPTY)?;
    }
    Ok(())
}

/// The name in an unused slot before the others or among them.
fn stale(run: &mut Run, disk: &Disk) -> Outcome {
    let name = name::filled(&mut run.random);
    for index in [0, 3] {
        let mut disk = with(disk, &[(index, &name)]);
        give(run, &disk, &USED, &name, OF_STALE)?;
        // A used one besides.
        disk.set_name(2, &name);
        disk.seal_both();
        give(run, &disk, &[1, 4], &name, CARRIED)?;
    }
    Ok(())
}

/// A disk that has a name twice takes every call but a third of the name; so does one that is to be repaired.
fn twice(run: &mut Run, disk: &Disk) -> Outcome {
    let [name, other] = [name::filled(&mut run.random), name::filled(&mut run.random)];
    let disk = with(disk, &[(1, &name), (4, &name)]);
    let edits = [Call::Delete { slot: 2 }, Call::Resize { slot: 2, size: 4 }, Call::Delete { slot: 3 }];
    let looks = [Call::Read, Call::Table, Call::Free, Call::Check { rule: 0 }, Call::Repair];
    for call in looks.into_iter().chain(edits) {
        disk.meeting(run, &call, TWICE)?;
    }
    for name in [&name, &other] {
        give(run, &disk, &USED, name, TWICE)?;
    }
    for side in SIDES {
        let mut broken = disk.clone();
        broken.header(side)[24] ^= 1;
        for call in [Call::Read, Call::Repair, Call::Read] {
            broken.call(run, &call)?;
        }
    }
    // Once one of the two is gone, the other one may keep it.
    let mut disk = disk;
    for call in [Call::Delete { slot: 5 }, rename(1, &name), rename(1, &other), rename(2, &name)] {
        disk.call(run, &call)?;
    }
    Ok(())
}

/// The names of the first slot and of the last one count, and before 24.
fn all_slots(run: &mut Run, shape: Shape) -> Outcome {
    let mut disk = rows::all_slots_used(run, shape);
    for index in [0, SLOTS - 1] {
        let name = name::filled(&mut run.random);
        disk.set_name(index, &name);
        disk.seal_both();
        give(run, &disk, &[1, 77, SLOTS - 2], &name, CARRIED)?;
        let own = disk.name(Side::Head, index);
        disk.meeting(run, &rename(index, &own), OWN)?;
    }
    Ok(())
}
