//! Stale bytes: what an unused entry still holds. The entry rules ignore them, the comparison of copies does not, and
//! adding overwrites them all.

use super::{Calls, New, Rule, DISK_GUID};
use crate::disk::{Disk, Shape, ENTRY_LEN, SHAPES};
use crate::random::Random;

pub(super) const STALE: u64 = 2;
pub(super) const SIZES: [u64; 3] = [10, 16, 10];

/// Three partitions.
fn three(calls: &Calls, shape: Shape) -> Disk {
    let mut random = Random::new(4);
    let mut disk = calls.formatted(shape, 1000, DISK_GUID);
    SIZES.into_iter().for_each(|size| drop(calls.add_drawn(&mut disk, size, &mut random).expect("room")));
    calls.rename_used(&mut disk, STALE, "of a deleted partition");
    disk
}

/// The same without the second one, as the implementation deletes it.
fn two(calls: &Calls, shape: Shape) -> Disk {
    let mut disk = three(calls, shape);
    calls.delete_used(&mut disk, STALE);
    disk
}

/// Bytes behind a zero type GUID, by the slots of `three`: as they were; all FF; those of slot 1, so that unique GUID
/// and blocks stand twice; a range that ends before it begins; and the first and the last byte alone.
fn kinds_of_bytes(calls: &Calls, shape: Shape) -> Vec<Vec<u8>> {
    let mut disk = three(calls, shape);
    let [own, other] = [STALE, 1].map(|slot| disk.entry(slot)[0][16..].to_vec());
    let mut backward = own.clone();
    backward[16..32].copy_from_slice(&[u64::MAX.to_le_bytes(), [0; 8]].concat());
    let alone = |at: usize| (16..ENTRY_LEN).map(|place| u8::from(place == at)).collect();
    vec![own, vec![0xFF; ENTRY_LEN - 16], other, backward, alone(16), alone(ENTRY_LEN - 1)]
}

/// The three partitions, of which the second was deleted as cgpt does it.
pub(super) fn cleared(calls: &Calls, shape: Shape) -> Disk {
    let mut disk = three(calls, shape);
    clear_type(calls, &mut disk, STALE);
    disk
}

/// The two partitions, with these bytes in the unused slot between them.
fn with_stale(calls: &Calls, shape: Shape, bytes: &[u8]) -> Disk {
    let mut disk = two(calls, shape);
    disk.entry(STALE).into_iter().for_each(|entry| entry[16..].copy_from_slice(bytes));
    disk.set_crcs(calls.crc32);
    disk
}

/// So cgpt deletes.
fn clear_type(calls: &Calls, disk: &mut Disk, slot: u64) {
    disk.entry(slot).into_iter().for_each(|entry| entry[..16].fill(0));
    disk.set_crcs(calls.crc32);
}

fn each_kind(calls: &Calls, holds: impl Fn(Shape, Disk)) {
    for shape in SHAPES {
        kinds_of_bytes(calls, shape).iter().for_each(|bytes| holds(shape, with_stale(calls, shape, bytes)));
    }
}

pub fn stale_bytes_are_no_partition(calls: &Calls) {
    each_kind(calls, |shape, mut stale| {
        let deleted = two(calls, shape);
        assert!(stale.difference(&deleted).is_some());
        assert_eq!((calls.state)(&stale), Ok(1));
        assert_eq!((calls.rows)(&stale), (calls.rows)(&deleted));
        assert_eq!((calls.free)(&stale), (calls.free)(&deleted));
        let before = stale.clone();
        assert_eq!((calls.delete)(&mut stale, STALE), Err(13));
        assert_eq!((calls.rename)(&mut stale, STALE, "a"), Err(13));
        assert_eq!((calls.resize)(&mut stale, STALE, 1), Err(13));
        assert_eq!(stale.difference(&before), None);
    });
}

/// An edit of another slot has no regard for them and leaves them as they are.
pub fn edits_leave_stale_bytes(calls: &Calls) {
    each_kind(calls, |shape, mut stale| {
        let mut deleted = two(calls, shape);
        let held = stale.entry(STALE)[0].to_vec();
        for disk in [&mut stale, &mut deleted] {
            assert_eq!((calls.resize)(disk, 1, SIZES[0] + SIZES[1] + 1), Err(25));
            assert_eq!((calls.resize)(disk, 1, SIZES[0] + SIZES[1]), Ok(()));
            assert_eq!((calls.rename)(disk, 3, "renamed"), Ok(()));
            assert_eq!((calls.delete)(disk, 1), Ok(()));
        }
        assert!(stale.entry(STALE).iter().all(|entry| **entry == held));
        stale.entry(STALE).into_iter().for_each(|entry| entry.fill(0));
        stale.set_crcs(calls.crc32);
        assert_eq!(stale.difference(&deleted), None);
    });
}

/// The unique GUID of the stale bytes is free, and nothing of them is left.
pub fn an_add_overwrites_stale_bytes(calls: &Calls) {
    for shape in SHAPES {
        let own = calls.row_of(&three(calls, shape), STALE).unique;
        for bytes in kinds_of_bytes(calls, shape) {
            let (mut stale, mut deleted) = (with_stale(calls, shape, &bytes), two(calls, shape));
            let (kind, unique, rule) = ("swap", &own[..], Rule::Earlier);
            let new = New { kind, unique, size: 1, alignment: 1, attributes: 0, rule, name: "" };
            assert_eq!([&mut stale, &mut deleted].map(|disk| (calls.add)(disk, &new)), [Ok(STALE); 2]);
            assert_eq!(stale.difference(&deleted), None);
        }
    }
}

/// Where one copy alone has them, the copies differ; repair copies them.
pub fn stale_bytes_are_compared_and_repaired(calls: &Calls) {
    each_kind(calls, |shape, stale| {
        let deleted = two(calls, shape);
        for (first, second) in [(&stale, &deleted), (&deleted, &stale)] {
            let mut disk = Disk { tail: second.tail.clone(), ..first.clone() };
            assert_eq!((calls.state)(&disk), Ok(2));
            assert_eq!((calls.rows)(&disk), (calls.rows)(first));
            let before = disk.clone();
            assert_eq!(calls.add_drawn(&mut disk, 1, &mut Random::new(5)).map(drop), None);
            assert_eq!((calls.delete)(&mut disk, 1), Err(11));
            assert_eq!(disk.difference(&before), None);
            assert_eq!((calls.repair)(&mut disk), Ok(2));
            assert_eq!(disk.difference(first), None);
        }
        for (state, header) in [(3, None), (4, Some(shape.header_in_head()))] {
            let mut disk = stale.clone();
            match header {
                Some(at) => disk.head[at] ^= 1,
                None => disk.tail[shape.header_in_tail()] ^= 1,
            }
            assert_eq!((calls.repair)(&mut disk), Ok(state));
            assert_eq!(disk.difference(&stale), None);
        }
    });
}

/// A table of stale slots alone has no partition, and one with a single stale slot has a place left.
pub fn stale_slots_are_places(calls: &Calls) {
    for shape in SHAPES {
        let (mut random, n) = (Random::new(6), 5000);
        let mut full = calls.formatted(shape, n, DISK_GUID);
        (0..128).for_each(|_| drop(calls.add_drawn(&mut full, 3, &mut random).expect("room")));
        let without = |slots: &[u64]| {
            let mut disk = full.clone();
            slots.iter().for_each(|slot| clear_type(calls, &mut disk, *slot));
            disk
        };
        let add = |disk: &mut Disk, size: u64, unique: &str| {
            let (kind, rule, name) = ("linux", Rule::Earlier, unique);
            (calls.add)(disk, &New { kind, unique, size, alignment: 1, attributes: 0, rule, name })
        };
        let uniques = ["00000000-0000-0000-0000-000000000001", "00000000-0000-0000-0000-000000000002"];
        let mut empty = without(&(1..=128).collect::<Vec<_>>());
        assert_eq!((calls.rows)(&empty), Ok(Vec::new()));
        assert_eq!((calls.free)(&empty), Ok((shape.usable(n), shape.usable(n))));
        assert_eq!((calls.delete)(&mut empty, 128), Err(13));
        let sizes = [shape.usable(n) - 1, 1];
        assert_eq!([0, 1].map(|k| add(&mut empty, sizes[k], uniques[k])), [Ok(1), Ok(2)]);
        let mut one = without(&[77]);
        assert_eq!(uniques.map(|unique| add(&mut one, 1, unique)), [Ok(77), Err(24)]);
    }
}

/// Each byte of its type GUID makes an entry a used one, which must have a unique GUID.
pub fn a_type_makes_an_entry_a_used_one(calls: &Calls) {
    for shape in SHAPES {
        let mut disk = three(calls, shape);
        for at in 0..16 {
            let kind: [u8; 16] = std::array::from_fn(|place| u8::from(place == at));
            disk.entry(STALE).into_iter().for_each(|entry| entry[..16].copy_from_slice(&kind));
            disk.set_crcs(calls.crc32);
            assert_eq!(calls.table(&disk).len(), 3, "byte {at}");
            assert_eq!((calls.delete)(&mut disk.clone(), STALE), Ok(()), "byte {at}");
        }
        disk.entry(STALE).into_iter().for_each(|entry| entry[16..32].fill(0));
        disk.set_crcs(calls.crc32);
        assert_eq!((calls.state)(&disk), Err(10));
        clear_type(calls, &mut disk, STALE);
        assert_eq!((calls.state)(&disk), Ok(1));
    }
}
