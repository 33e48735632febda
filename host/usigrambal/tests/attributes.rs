//! Attribute bits that a rule wants zero: in adding, and in the check of a table (rules k1 to k4, k6).

use testkit::disk::{Disk as Stored, Shape, SHAPES};
use usigrambal::AttributeRule::{self, Earlier, Present};
use usigrambal::{attributes, crc32, raw, Disk, Guid, Name, NewPartition, Refused, State};

/// Where the attributes stand in an entry.
const ATTRIBUTES: usize = 48;

/// What a number outside names as a rule.
const RULES: [(u64, AttributeRule); 5] =
    [(0, Present), (1, Earlier), (2, Earlier), (1 << 32, Earlier), (u64::MAX, Earlier)];

fn lent(stored: &mut Stored) -> Disk<'_> {
    let block = stored.block.try_into().expect("a block size");
    Disk { head: &mut stored.head, tail: &mut stored.tail, n: stored.n, block }
}

fn new(unique: u8, attributes: u64, rule: AttributeRule) -> NewPartition {
    let (kind, unique, name) = (Guid([0xB7; 16]), Guid([unique; 16]), Name::EMPTY);
    NewPartition { kind, unique, size: 1, alignment: 1, attributes, rule, name }
}

fn formatted(shape: Shape) -> Stored {
    let mut stored = shape.filled(1000, 0);
    lent(&mut stored).format(Guid([1; 16])).expect("a table");
    stored
}

/// A disk with partitions of these attributes, also of those that no add takes.
fn with(shape: Shape, attributes: &[u64]) -> Stored {
    let mut stored = formatted(shape);
    for (unique, attributes) in (1..).zip(attributes) {
        lent(&mut stored).add(&new(unique, 0, Earlier)).expect("room");
        set(&mut stored, unique.into(), |entry| {
            entry[ATTRIBUTES..ATTRIBUTES + 8].copy_from_slice(&attributes.to_le_bytes());
        });
    }
    stored
}

/// Changes a slot in both copies.
fn set(stored: &mut Stored, slot: u64, change: impl Fn(&mut [u8])) {
    stored.entry(slot).into_iter().for_each(change);
    stored.set_crcs(crc32);
}

/// What the check answers under the present and under the earlier rule.
fn checked(stored: &mut Stored) -> [Option<u64>; 2] {
    AttributeRule::ALL.map(|rule| lent(stored).check(rule).expect("a table"))
}

fn number<T: std::fmt::Debug>(answer: Result<T, Refused>) -> u32 {
    answer.unwrap_err().number()
}

/// The bits that must be zero, from the request's own numbers: 3 to 47, and 1 to 47.
fn offends(rule: AttributeRule, bit: u32) -> bool {
    match rule {
        Present => (3..48).contains(&bit),
        Earlier => (1..48).contains(&bit),
    }
}

/// Each bit alone, in adding and in checking; the wrapper names the bits that the library refuses.
#[test]
fn every_bit_under_each_rule() {
    for shape in SHAPES {
        let mut empty = formatted(shape);
        for bit in 0..64 {
            let mut stored = with(shape, &[0, 1 << bit]);
            for rule in AttributeRule::ALL {
                let added = lent(&mut empty.clone()).add(&new(1, 1 << bit, rule));
                let slot = lent(&mut stored).check(rule).expect("a table");
                assert_eq!(rule.offending(1 << bit) == [bit], offends(rule, bit), "{rule}: {bit}");
                if offends(rule, bit) {
                    let refused = added.unwrap_err();
                    let end = format!("{} under the {rule} rule", attributes::bits_text(&[bit]));
                    assert_eq!((refused.number(), slot), (28, Some(2)), "{rule}: {bit}");
                    assert!(refused.sentence().ends_with(&end), "{refused}");
                } else {
                    assert_eq!((added.expect("accepted").slot, slot), (1, None), "{rule}: {bit}");
                }
            }
        }
        assert_eq!(lent(&mut empty).partitions().expect("a table"), []);
    }
}

/// Zero is the present rule, every other number the earlier one.
#[test]
fn rules_by_number() {
    for shape in SHAPES {
        let mut stored = with(shape, &[1 << 63, 4, 1 << 47]);
        let Stored { mut head, mut tail, n, block } = stored.clone();
        for (rule, meant) in RULES {
            let mut slot = 77;
            assert_eq!(raw::gpt_check(&head, &tail, n, block, rule, &mut slot), 0);
            assert_eq!(Some(slot), lent(&mut stored).check(meant).expect("a table"), "rule {rule}");
            let (kind, unique, name) = (&[9; 16], &[9; 16], &[0; 36]);
            let partition =
                raw::NewPartition { kind, unique, size: 1, alignment: 1, attributes: 2, rule, name };
            let answer = raw::gpt_add(&mut head, &mut tail, n, block, &partition, &mut slot, &mut 0);
            assert_eq!(answer, if meant == Present { 0 } else { 28 }, "rule {rule}");
            (head, tail) = (stored.head.clone(), stored.tail.clone());
        }
    }
}

/// The first used slot; slots that offend behind it, and unused ones, do not count.
#[test]
fn the_first_slot_that_offends() {
    for shape in SHAPES {
        assert_eq!(checked(&mut formatted(shape)), [None, None]);
        assert_eq!(checked(&mut with(shape, &[0, 5, 8, 2, 16])), [Some(3), Some(2)]);
        assert_eq!(checked(&mut with(shape, &[1, 0xFFFF << 48, 7])), [None, Some(3)]);
        assert_eq!(checked(&mut with(shape, &[u64::MAX; 128])), [Some(1), Some(1)]);
        let mut last = [0; 128];
        last[127] = 1 << 47;
        assert_eq!(checked(&mut with(shape, &last)), [Some(128), Some(128)]);
        let mut stored = with(shape, &[8, 2, 8, 0]);
        set(&mut stored, 1, |entry| entry[..16].fill(0));
        assert_eq!(checked(&mut stored), [Some(3), Some(2)], "an unused slot");
        lent(&mut stored).delete(3).expect("a partition");
        assert_eq!(checked(&mut stored), [None, Some(2)]);
        set(&mut stored, 2, |entry| entry[..16].fill(0));
        assert_eq!(checked(&mut stored), [None, None], "stale bytes");
    }
}

/// Each byte of an entry but those of the attributes leaves the answer alone.
#[test]
fn every_byte_of_an_entry() {
    for shape in SHAPES {
        let mut stored = with(shape, &[0, 0]);
        for at in (0..128).filter(|at| !(32..ATTRIBUTES + 8).contains(at)) {
            set(&mut stored, 2, |entry| entry[at] ^= 0xFF);
            assert_eq!(checked(&mut stored), [None, None], "byte {at}");
            set(&mut stored, 2, |entry| entry[at] ^= 0xFF);
        }
        for at in ATTRIBUTES..ATTRIBUTES + 8 {
            set(&mut stored, 2, |entry| entry[at] = 0xFF);
            let found = (at < ATTRIBUTES + 6).then_some(2);
            assert_eq!(checked(&mut stored), [found, found], "byte {at}");
            set(&mut stored, 2, |entry| entry[at] = 0);
        }
    }
}

/// In states 2 to 4 too; reading itself judges no attributes.
#[test]
fn the_check_goes_by_the_copy_in_use() {
    for shape in SHAPES {
        let mut mixed = Stored { tail: with(shape, &[0, 8]).tail, ..with(shape, &[4, 0]) };
        assert_eq!((lent(&mut mixed).state(), checked(&mut mixed)), (Ok(State::Different), [None, Some(1)]));
        mixed.head[shape.header_in_head()] ^= 1;
        assert_eq!((lent(&mut mixed).state(), checked(&mut mixed)), (Ok(State::BackupOnly), [Some(2); 2]));
        mixed.tail[shape.header_in_tail()] ^= 1;
        assert_eq!(AttributeRule::ALL.map(|rule| number(lent(&mut mixed).check(rule))), [10, 10]);
        mixed.head[shape.header_in_head()] ^= 1;
        assert_eq!(
            (lent(&mut mixed).state(), checked(&mut mixed)),
            (Ok(State::PrimaryOnly), [None, Some(1)])
        );
        mixed.n = 1 << 33;
        assert_eq!(AttributeRule::ALL.map(|rule| number(lent(&mut mixed).check(rule))), [2, 2]);
        let mut slot = 77;
        assert_eq!(raw::gpt_check(&mixed.head[1..], &mixed.tail, 1000, mixed.block, 0, &mut slot), 1);
        assert_eq!(raw::gpt_check(&mixed.head, &mixed.tail[1..], 1000, mixed.block, 0, &mut slot), 1);
        assert_eq!(raw::gpt_check(&mixed.head[1..], &mixed.tail, 0, mixed.block + 1, 0, &mut slot), 6);
        assert_eq!(slot, 77);
    }
}

/// After 26, before 24 and 25; nothing has changed.
#[test]
fn the_place_of_28_among_the_refusals() {
    for shape in SHAPES {
        let mut stored = with(shape, &[0; 128]);
        let named = Name::new("a").expect("a name");
        lent(&mut stored).rename(5, &named).expect("a partition");
        let before = stored.clone();
        let taken = NewPartition { name: named, ..new(200, 8, Present) };
        let mut disk = lent(&mut stored);
        assert_eq!(number(disk.add(&taken)), 26);
        assert_eq!(number(disk.add(&new(200, 8, Present))), 28);
        assert_eq!(number(disk.add(&new(200, 4, Earlier))), 28);
        assert_eq!(number(disk.add(&new(200, 4, Present))), 24);
        assert!(stored == before);
        let mut disk = lent(&mut stored);
        disk.delete(128).expect("a partition");
        let large = |attributes, rule| NewPartition { size: 1000, ..new(200, attributes, rule) };
        assert_eq!(number(disk.add(&large(2, Earlier))), 28);
        assert_eq!(number(disk.add(&large(2, Present))), 25);
        assert_eq!(disk.add(&new(200, 2, Present)).expect("room").slot, 128);
        assert_eq!(disk.check(Earlier), Ok(Some(128)));
    }
}

/// Delete, resize and rename do not look at attributes, and keep those of the others.
#[test]
fn other_edits_of_a_table_that_offends() {
    for shape in SHAPES {
        let mut stored = with(shape, &[u64::MAX, 8, 2]);
        let mut disk = lent(&mut stored);
        disk.resize(3, 7).expect("room");
        disk.rename(1, &Name::new("a").expect("a name")).expect("a name of its own");
        assert_eq!(disk.check(Present), Ok(Some(1)));
        disk.delete(1).expect("a partition");
        let left: Vec<_> = disk.partitions().expect("a table").iter().map(|one| one.attributes).collect();
        assert_eq!(left, [8, 2]);
        disk.add(&new(9, 0, Earlier)).expect("room");
        assert_eq!(checked(&mut stored), [Some(2), Some(2)]);
    }
}
