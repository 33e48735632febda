//! Attribute bits: the rule that the caller names wants some of them zero, in adding, which is refused with 28, and in a
//! check, which answers the first used slot that offends (rules k1 to k4 and k6). No other call looks at them.

use super::aligned::{refused_earlier, LINUX, ZERO};
use super::{unique, Calls, New, Rule, DISK_GUID};
use crate::disk::{Disk, Shape, ENTRY_LEN, SHAPES};
use crate::random::Random;

pub(super) const RULES: [Rule; 2] = [Rule::Present, Rule::Earlier];
const NAME: &str = "scratch";
/// A unit behind a zero one.
const FOREIGN: &str = "scratch\0z";

/// A partition that its attributes or room alone can refuse.
fn new(unique: &str, attributes: u64, rule: Rule) -> New<'_> {
    New { kind: LINUX, unique, size: 1, alignment: 1, attributes, rule, name: "" }
}

pub(super) fn add(calls: &Calls, disk: &mut Disk, attributes: u64, rule: Rule) -> Result<u64, u32> {
    let unique = calls.new_unique(disk);
    (calls.add)(disk, &new(&unique, attributes, rule))
}

/// What the call answers; the disk stays as it is.
fn answer<T>(disk: &Disk, call: impl Fn(&mut Disk) -> Result<T, u32>) -> Result<T, u32> {
    let mut lent = disk.clone();
    let answer = call(&mut lent);
    assert!(answer.is_ok() || lent == *disk, "a refused call wrote");
    answer
}

/// What a check by each rule answers.
pub(super) fn checked(calls: &Calls, disk: &Disk) -> [Result<u64, u32>; 2] {
    RULES.map(|rule| (calls.check)(disk, rule))
}

/// So many partitions without attributes.
pub(super) fn bare(calls: &Calls, shape: Shape, count: u64) -> Disk {
    let mut disk = calls.formatted(shape, 1000, DISK_GUID);
    (1..=count).for_each(|slot| assert_eq!(add(calls, &mut disk, 0, Rule::Earlier), Ok(slot)));
    disk
}

impl Calls {
    /// Gives a slot attributes by its bytes in the head, in the tail or in both.
    pub(super) fn write_attributes(&self, disk: &mut Disk, slot: u64, attributes: u64, copies: &[usize]) {
        let entries = disk.entry(slot).into_iter().enumerate();
        let written = entries.filter(|(copy, _)| copies.contains(copy));
        written.for_each(|(_, entry)| entry[48..56].copy_from_slice(&attributes.to_le_bytes()));
        disk.set_crcs(self.crc32);
    }
}

pub(super) const BOTH: [usize; 2] = [0, 1];
const HEAD: [usize; 1] = [0];
const TAIL: [usize; 1] = [1];

/// What a bit that is set alone offends: neither rule, the earlier one, or both.
fn offended(bit: u32) -> &'static [Rule] {
    match bit {
        0 | 48..=63 => &[],
        1 | 2 => &[Rule::Earlier],
        _ => &RULES,
    }
}

/// Attributes, and what they offend: each bit alone, each two of some bits, none and all.
fn judged() -> Vec<(u64, &'static [Rule])> {
    const EDGES: [u32; 10] = [0, 1, 2, 3, 24, 46, 47, 48, 49, 63];
    let alone = (0..64).map(|bit| (1 << bit, offended(bit)));
    let more = |one: u32, other: u32| {
        let offended = [offended(one), offended(other)].into_iter().max_by_key(|rules| rules.len());
        (1 << one | 1 << other, offended.expect("two"))
    };
    let two = EDGES.into_iter().flat_map(|one| EDGES.map(|other| more(one, other)));
    let whole = [
        (0, &[][..]),
        (u64::MAX, &RULES),
        (0xFFFF_0000_0000_0001, &[]),
        (0xFFFF_0000_0000_0007, &[Rule::Earlier]),
        (0x0000_FFFF_FFFF_FFF8, &RULES),
    ];
    alone.chain(two).chain(whole).collect()
}

pub fn a_rule_wants_bits_zero(calls: &Calls) {
    for shape in SHAPES {
        let disk = bare(calls, shape, 3);
        for (attributes, offended) in judged() {
            let mut given = disk.clone();
            calls.write_attributes(&mut given, 2, attributes, &BOTH);
            for rule in RULES {
                let (added, slot) = if offended.contains(&rule) { (Err(28), 2) } else { (Ok(4), 0) };
                let add = answer(&disk, |disk| add(calls, disk, attributes, rule));
                assert_eq!(add, added, "{attributes:X} by {rule:?}");
                assert_eq!((calls.check)(&given, rule), Ok(slot), "{attributes:X} by {rule:?}");
            }
        }
        // What is accepted is stored as it was given.
        let (mut stored, attributes) = (disk, 0x8001_0000_0000_0007);
        assert_eq!(add(calls, &mut stored, attributes, Rule::Present), Ok(4));
        assert_eq!(calls.row_of(&stored, 4).attributes, attributes);
    }
}

/// Rule k6: after 26 and all that comes before it, before 24 and 25.
pub fn attribute_bits_are_refused_after_26(calls: &Calls) {
    let (bits, rule) = (8, Rule::Present);
    for shape in SHAPES {
        let mut full = bare(calls, shape, 128);
        calls.rename_used(&mut full, 2, NAME);
        let mut disk = full.clone();
        calls.delete_used(&mut disk, 77);
        let (held, other) = (unique(1), unique(200));
        // With other attributes there is no slot, no room, or nothing to refuse.
        for (disk, size, without) in [(&full, 1, Err(24)), (&disk, u64::MAX, Err(25)), (&disk, 1, Ok(77))] {
            let add = |bits| answer(disk, |disk| (calls.add)(disk, &New { size, ..new(&other, bits, rule) }));
            assert_eq!([bits, 0].map(add), [Err(28), without]);
        }
        for (number, new) in [
            (20, New { size: 0, ..new(&other, bits, rule) }),
            (27, New { alignment: 3, ..new(&other, bits, rule) }),
            (21, New { kind: ZERO, ..new(&other, bits, rule) }),
            (22, new(ZERO, bits, rule)),
            (22, new(&held, bits, rule)),
            (23, New { name: FOREIGN, ..new(&other, bits, rule) }),
            (26, New { name: NAME, ..new(&other, bits, rule) }),
        ] {
            assert_eq!(answer(&disk, |disk| (calls.add)(disk, &new)), Err(number));
        }
        for (number, disk) in refused_earlier(&disk) {
            assert_eq!(answer(&disk, |disk| (calls.add)(disk, &new(&other, bits, rule))), Err(number));
        }
    }
}

/// Rule k3: the lowest of the slots that offend, whatever their number.
pub fn a_check_answers_the_first_offender(calls: &Calls) {
    for shape in SHAPES {
        let disk = bare(calls, shape, 128);
        assert_eq!(checked(calls, &disk), [Ok(0); 2]);
        for slot in [1, 2, 77, 127, 128] {
            let mut one = disk.clone();
            calls.write_attributes(&mut one, slot, 1 << 47, &BOTH);
            assert_eq!(checked(calls, &one), [Ok(slot); 2]);
            calls.write_attributes(&mut one, slot, 2, &BOTH);
            assert_eq!(checked(calls, &one), [Ok(0), Ok(slot)]);
        }
        let mut some = disk.clone();
        for (slot, attributes) in [(128, u64::MAX), (9, 4), (5, 1), (30, 8), (40, 8)] {
            calls.write_attributes(&mut some, slot, attributes, &BOTH);
        }
        for (deleted, expected) in [(5, [30, 9]), (9, [30, 30]), (30, [40, 40]), (40, [128, 128])] {
            calls.delete_used(&mut some, deleted);
            assert_eq!(checked(calls, &some), expected.map(Ok));
        }
        calls.delete_used(&mut some, 128);
        assert_eq!(checked(calls, &some), [Ok(0); 2]);
        assert_eq!(checked(calls, &calls.formatted(shape, 1000, DISK_GUID)), [Ok(0); 2]);
    }
}

/// What an unused entry still holds offends no rule, and neither does what an add puts over it.
pub fn stale_bytes_offend_no_rule(calls: &Calls) {
    for shape in SHAPES {
        let mut disk = bare(calls, shape, 4);
        for slot in [1, 3] {
            disk.entry(slot).into_iter().for_each(|entry| {
                entry[..16].fill(0);
                entry[16..ENTRY_LEN].fill(0xFF);
            });
        }
        disk.set_crcs(calls.crc32);
        assert_eq!(checked(calls, &disk), [Ok(0); 2]);
        calls.write_attributes(&mut disk, 4, 2, &BOTH);
        assert_eq!(checked(calls, &disk), [Ok(0), Ok(4)]);
        assert_eq!(add(calls, &mut disk, 1, Rule::Earlier), Ok(1));
        assert_eq!(checked(calls, &disk), [Ok(0), Ok(4)]);
        // The same bytes in a used slot.
        calls.write_attributes(&mut disk, 1, u64::MAX, &BOTH);
        assert_eq!(checked(calls, &disk), [Ok(1); 2]);
    }
}

/// In states 1 to 4; where neither copy is good it is 10, after the refusals of a reading.
pub fn a_check_goes_by_the_copy_that_reading_uses(calls: &Calls) {
    for shape in SHAPES {
        let disk = bare(calls, shape, 3);
        let [in_head, in_tail] = [HEAD, TAIL].map(|copies| {
            let mut disk = disk.clone();
            calls.write_attributes(&mut disk, 3, 8, &copies);
            disk
        });
        assert_eq!([&disk, &in_head, &in_tail].map(|disk| (calls.state)(disk)), [Ok(1), Ok(2), Ok(2)]);
        assert_eq!([&in_head, &in_tail].map(|disk| checked(calls, disk)), [[Ok(3); 2], [Ok(0); 2]]);
        let broken = |disk: &Disk, copy: usize| {
            let mut disk = disk.clone();
            match copy {
                0 => disk.head[shape.header_in_head()] ^= 1,
                _ => disk.tail[shape.header_in_tail()] ^= 1,
            }
            disk
        };
        for (disk, broken_copy, state, slot) in
            [(&in_head, 1, 3, 3), (&in_tail, 1, 3, 0), (&in_head, 0, 4, 0), (&in_tail, 0, 4, 3)]
        {
            let disk = broken(disk, broken_copy);
            assert_eq!((calls.state)(&disk), Ok(state));
            assert_eq!(checked(calls, &disk), [Ok(slot); 2]);
        }
        let mut offending = disk;
        calls.write_attributes(&mut offending, 3, 8, &BOTH);
        for (number, spoiled) in refused_earlier(&offending) {
            // An edit is refused with 11; a check goes by the backup.
            let expected = if number == 11 { Ok(3) } else { Err(number) };
            assert_eq!(checked(calls, &spoiled), [expected; 2]);
        }
    }
}

/// Every call but adding answers, and writes, as if the partition had no attributes, and keeps them.
pub fn no_other_call_looks_at_attributes(calls: &Calls) {
    type Edit = fn(&Calls, &mut Disk) -> Result<(), u32>;
    let edits: [Edit; 4] = [
        |calls, disk| (calls.rename)(disk, 2, NAME),
        |calls, disk| (calls.resize)(disk, 3, 20),
        |calls, disk| (calls.delete)(disk, 1),
        |calls, disk| add(calls, disk, 1, Rule::Earlier).map(drop),
    ];
    for shape in SHAPES {
        let without = bare(calls, shape, 3);
        let offending = |mut disk: Disk| {
            calls.write_attributes(&mut disk, 2, u64::MAX, &BOTH);
            calls.write_attributes(&mut disk, 3, 2, &BOTH);
            disk
        };
        let disk = offending(without.clone());
        assert_eq!(checked(calls, &disk), [Ok(2); 2]);
        assert_eq!(((calls.state)(&disk), (calls.free)(&disk)), (Ok(1), (calls.free)(&without)));
        for edit in edits {
            let [mut ours, mut expected] = [disk.clone(), without.clone()];
            assert_eq!([&mut ours, &mut expected].map(|disk| edit(calls, disk)), [Ok(()); 2]);
            assert_eq!(ours.difference(&offending(expected)), None);
        }
        let mut broken = disk.clone();
        broken.tail[shape.header_in_tail()] ^= 1;
        assert_eq!((calls.repair)(&mut broken), Ok(3));
        assert_eq!(broken.difference(&disk), None);
    }
}

/// Rule k4, on tables of drawn attributes.
pub fn what_passes_the_earlier_rule_passes_the_present_one(calls: &Calls) {
    let mut random = Random::new(5);
    let mut passed = [0; 3];
    for shape in SHAPES {
        for _ in 0..200 {
            let mut disk = bare(calls, shape, 2);
            for slot in [1, 2] {
                let bits = random.pick(&[0, 0xFFFF_0000_0000_0001, 0xFFFF_0000_0000_0007, u64::MAX]);
                let attributes = random.number() & bits;
                calls.write_attributes(&mut disk, slot, attributes, &BOTH);
            }
            match checked(calls, &disk).map(|answer| answer == Ok(0)) {
                [true, true] => passed[0] += 1,
                [true, false] => passed[1] += 1,
                [false, false] => passed[2] += 1,
                [false, true] => panic!("{:?}", calls.table(&disk)),
            }
        }
    }
    assert!(passed.iter().all(|times| *times > 20), "{passed:?}");
}

/// After drawn adds, of which those that offend are refused: no slot offends the present rule, and none the earlier one
/// where every add named it.
pub fn adds_leave_no_offender(calls: &Calls) {
    for shape in SHAPES {
        for (rules, expected) in [(&[Rule::Earlier][..], true), (&RULES, false)] {
            let mut random = Random::new(6);
            let mut disk = calls.formatted(shape, 1000, DISK_GUID);
            let mut refused = 0;
            for _ in 0..100 {
                let bits = random.pick(&[0xFFFF_0000_0000_0001, 0xFFFF_0000_0000_0007, u64::MAX]);
                let (attributes, rule) = (random.number() & bits, random.pick(rules));
                match add(calls, &mut disk, attributes, rule) {
                    Ok(_) => assert_eq!(attributes & rule.zero(), 0),
                    answer => {
                        assert_eq!((answer, attributes & rule.zero() != 0), (Err(28), true));
                        refused += 1;
                    }
                }
                let [present, earlier] = checked(calls, &disk);
                assert!(present == Ok(0) && (!expected || earlier == Ok(0)));
            }
            assert_eq!(checked(calls, &disk)[1] == Ok(0), expected);
            assert!((20..80).contains(&refused), "{refused} of 100 refused");
        }
    }
}
