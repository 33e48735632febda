//! Which entries are partitions, and which unused ones still hold bytes.

use testkit::disk::{Disk as Stored, Shape, SHAPES};
use usigrambal::{crc32, AttributeRule, Disk, Guid, Name, NewPartition, State};

fn lent(stored: &mut Stored) -> Disk<'_> {
    let block = stored.block.try_into().expect("a block size");
    Disk { head: &mut stored.head, tail: &mut stored.tail, n: stored.n, block }
}

/// A disk with so many partitions of one block.
fn filled(shape: Shape, count: u8) -> Stored {
    let mut stored = shape.filled(1000, 0);
    let mut disk = lent(&mut stored);
    disk.format(Guid([1; 16])).expect("a table");
    for unique in 1..=count {
        let (kind, unique, name) = (Guid([0xB7; 16]), Guid([unique; 16]), Name([u16::from(unique); 36]));
        let (attributes, rule) = (0xFFFF_0000_0000_0007, AttributeRule::Present);
        let new = NewPartition { kind, unique, size: 1, alignment: 1, attributes, rule, name };
        disk.add(&new).expect("room");
    }
    stored
}

/// Changes a slot in both copies.
fn set(stored: &mut Stored, slot: u64, change: impl Fn(&mut [u8])) {
    stored.entry(slot).into_iter().for_each(change);
    stored.set_crcs(crc32);
}

fn used(stored: &mut Stored) -> Vec<u64> {
    lent(stored).partitions().expect("a table").iter().map(|partition| partition.slot).collect()
}

fn stale(stored: &mut Stored) -> Vec<u64> {
    lent(stored).stale_slots().expect("a table")
}

#[test]
fn slots_whose_type_alone_is_cleared_are_stale() {
    for shape in SHAPES {
        let mut stored = filled(shape, 128);
        assert_eq!((used(&mut stored).len(), stale(&mut stored)), (128, Vec::new()));
        lent(&mut stored).delete(9).expect("a partition");
        [1, 5, 128].into_iter().for_each(|slot| set(&mut stored, slot, |entry| entry[..16].fill(0)));
        assert_eq!(stale(&mut stored), [1, 5, 128]);
        let expected: Vec<u64> = (1..=128).filter(|slot| ![1, 5, 9, 128].contains(slot)).collect();
        assert_eq!(used(&mut stored), expected);
        let free = lent(&mut stored).free().expect("a table").blocks;
        assert_eq!(free, shape.usable(1000) - 124);
        assert_eq!(
            lent(&mut stored).free_runs().expect("a table").iter().map(|run| run.blocks()).sum::<u64>(),
            free
        );
    }
}

/// Each byte of the type GUID makes an entry a used one, each other byte an unused one stale.
#[test]
fn every_byte_of_an_entry() {
    for shape in SHAPES {
        let mut stored = filled(shape, 2);
        for at in 0..16 {
            set(&mut stored, 2, |entry| (0..16).for_each(|place| entry[place] = u8::from(place == at)));
            assert_eq!((used(&mut stored), stale(&mut stored)), (vec![1, 2], vec![]), "byte {at}");
        }
        for at in 16..128 {
            set(&mut stored, 2, |entry| (0..128).for_each(|place| entry[place] = u8::from(place == at)));
            assert_eq!((used(&mut stored), stale(&mut stored)), (vec![1], vec![2]), "byte {at}");
        }
        set(&mut stored, 2, |entry| entry.fill(0));
        assert_eq!((used(&mut stored), stale(&mut stored)), (vec![1], vec![]));
    }
}

/// In states 2 to 4 too.
#[test]
fn stale_slots_are_those_of_the_copy_in_use() {
    for shape in SHAPES {
        let (plain, mut cleared) = (filled(shape, 3), filled(shape, 3));
        set(&mut cleared, 2, |entry| entry[..16].fill(0));
        let mut mixed = Stored { tail: cleared.tail.clone(), ..plain };
        assert_eq!(lent(&mut mixed).state(), Ok(State::Different));
        assert_eq!((used(&mut mixed), stale(&mut mixed)), (vec![1, 2, 3], vec![]));
        mixed.head[shape.header_in_head()] ^= 1;
        assert_eq!(lent(&mut mixed).state(), Ok(State::BackupOnly));
        assert_eq!((used(&mut mixed), stale(&mut mixed)), (vec![1, 3], vec![2]));
        mixed.tail[shape.header_in_tail()] ^= 1;
        assert_eq!(lent(&mut mixed).stale_slots().unwrap_err().number(), 10);
    }
}
