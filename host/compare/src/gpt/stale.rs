//! Stale entries: unused, but not all zero, as a tool leaves them that deletes by clearing the type.

use super::call::{Call, GUID_LEN};
use super::disk::{Disk, Side, ENTRY_LEN, SIDES, SLOTS};
use super::{name, rows, sample};
use crate::run::{Outcome, Run};
use testkit::disk::{Shape, SHAPES};
use testkit::random::Random;

/// What a call meets.
pub const BESIDE: &str = "another slot stale";
pub const SLOT: &str = "stale slot";
pub const ONE_COPY: &str = "slot stale in one copy";
pub const ALL: &str = "all slots stale";

/// By the stricter rule.
const CHECK: Call = Call::Check { rule: 1 };

/// Each call on a disk with one stale slot, the lowest unused one, in both copies or in one.
pub fn each_call(run: &mut Run) -> Outcome {
    SHAPES.into_iter().try_for_each(|shape| each_call_of(run, shape))
}

fn each_call_of(run: &mut Run, shape: Shape) -> Outcome {
    let mut disk = rows::some_slots_used(run, shape);
    let unique = sample::guid(&mut run.random);
    for entry in entries(&mut disk, &unique, &mut run.random) {
        in_both_copies(run, &with(&disk, &SIDES, &entry), &unique)?;
        for sides in [&SIDES[..1], &SIDES[1..]] {
            in_one_copy(run, &with(&disk, sides, &entry))?;
        }
    }
    Ok(())
}

/// The disk with that entry in slot 1 of each of `sides`.
fn with(disk: &Disk, sides: &[Side], entry: &[u8]) -> Disk {
    let mut disk = disk.clone();
    sides.iter().for_each(|side| disk.entry(*side, 0).copy_from_slice(entry));
    disk.seal_both();
    disk
}

/// Stale entries with a unique GUID that is free, taken, zero or the new one's, with blocks that are free, taken or not
/// usable, and of any bytes.
fn entries(disk: &mut Disk, new: &[u8], random: &mut Random) -> Vec<Vec<u8>> {
    let (start, end) = (disk.shape.first_usable, disk.n - disk.shape.first_usable);
    let another = disk.entry(Side::Head, 1)[16..32].to_vec();
    let mut entries = vec![vec![0xFF; ENTRY_LEN], random.bytes(ENTRY_LEN), random.bytes(ENTRY_LEN)];
    entries.iter_mut().for_each(|entry| entry[..GUID_LEN].fill(0));
    for unique in [&another[..], new, &[0; GUID_LEN]] {
        entries.push(entry(unique, (start + 5, start + 10), random));
    }
    let free = [(start + 5, start + 10), (start, start + 1), (start + 17, start + 31)];
    let taken = [(start + 2, start + 4), (start + 4, start + 11), (start, end)];
    let unusable = [(start - 1, start), (end, end + 1), (start + 10, start + 5), (0, u64::MAX)];
    for range in free.into_iter().chain(taken).chain(unusable) {
        let unique = random.bytes(GUID_LEN);
        entries.push(entry(&unique, range, random));
    }
    entries
}

fn entry(unique: &[u8], (first, last): (u64, u64), random: &mut Random) -> Vec<u8> {
    let rest = random.bytes(ENTRY_LEN - 48);
    [&[0; GUID_LEN], unique, &first.to_le_bytes(), &last.to_le_bytes(), &rest].concat()
}

/// Slot 2 can have 9 blocks and slot 3 can have 21, the longest run 15.
fn in_both_copies(run: &mut Run, disk: &Disk, unique: &[u8]) -> Outcome {
    let name = name::good(&mut run.random);
    let resize = |(slot, size)| Call::Resize { slot, size };
    let rename = |slot| Call::Rename { slot, name: name.clone() };
    let delete = |slot| Call::Delete { slot };
    let looks = [Call::Read, Call::Table, Call::Free, CHECK, Call::Repair];
    for call in looks.into_iter().chain([delete(2), rename(2)]) {
        disk.meeting(run, &call, BESIDE)?;
    }
    for call in [(2, 9), (2, 10), (3, 21), (3, 22)].map(resize) {
        disk.meeting(run, &call, BESIDE)?;
    }
    for call in [delete(1), rename(1), resize((1, 1))] {
        disk.meeting(run, &call, SLOT)?;
    }
    for size in [1, 2, 6, 15, 16] {
        let kind = sample::sparse_guid(&mut run.random);
        disk.meeting(run, &sample::bare_add(size, kind, unique.to_vec()), SLOT)?;
    }
    Ok(())
}

/// What is repaired is read again.
fn in_one_copy(run: &mut Run, disk: &Disk) -> Outcome {
    for call in [Call::Read, Call::Table, Call::Free, CHECK, Call::Repair, Call::Delete { slot: 2 }] {
        disk.meeting(run, &call, ONE_COPY)?;
    }
    let mut disk = disk.clone();
    for call in [Call::Repair, Call::Read] {
        disk.call(run, &call)?;
    }
    Ok(())
}

/// All 128 slots stale, or one and the others used: adds take them one after another until none is left.
pub fn all_slots(run: &mut Run) -> Outcome {
    SHAPES.into_iter().try_for_each(|shape| all_slots_of(run, shape))
}

fn all_slots_of(run: &mut Run, shape: Shape) -> Outcome {
    let used = rows::all_slots_used(run, shape);
    let all: Vec<usize> = (0..SLOTS).collect();
    for stale in [cleared(&used, &all), alike(&used)] {
        for call in [Call::Read, Call::Table, Call::Free, CHECK, Call::Repair] {
            stale.meeting(run, &call, ALL)?;
        }
        let whole = sample::good_add(shape.usable(stale.n), &mut run.random);
        stale.meeting(run, &whole, ALL)?;
        refill(run, stale, SLOTS)?;
    }
    for index in [0, 70, 127] {
        refill(run, cleared(&used, &[index]), 1)?;
    }
    Ok(())
}

/// The disk with these slots stale in both copies.
fn cleared(disk: &Disk, indexes: &[usize]) -> Disk {
    let mut disk = disk.clone();
    indexes.iter().for_each(|index| disk.clear_type(&SIDES, *index));
    disk.seal_both();
    disk
}

/// The disk with the same stale bytes in every slot.
fn alike(disk: &Disk) -> Disk {
    let mut disk = cleared(disk, &[0]);
    for side in SIDES {
        let entry = disk.entry(side, 0).to_vec();
        disk.entries(side).chunks_mut(ENTRY_LEN).for_each(|slot| slot.copy_from_slice(&entry));
    }
    disk.seal_both();
    disk
}

/// Adds into each of so many unused slots, and one more.
fn refill(run: &mut Run, mut disk: Disk, unused: usize) -> Outcome {
    for _ in 0..=unused {
        let (kind, unique) = (sample::sparse_guid(&mut run.random), sample::guid(&mut run.random));
        disk.call(run, &sample::bare_add(1, kind, unique))?;
    }
    Ok(())
}
