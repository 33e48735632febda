//! Attribute bits in adding and in a check, by each rule; and every call on a disk that offends both.

use super::call::Call;
use super::disk::{Disk, SIDES, SLOTS};
use super::{bits, name, rows, sample};
use crate::run::{Cell, Difference, Outcome, Run};
use testkit::disk::{Shape, SHAPES};

/// What a call meets.
pub const OFFENDING: &str = "offending table";
pub const STALE: &str = "offending bytes of a stale slot";
pub const ONE_COPY: &str = "offender in one copy";
pub const BOTH_RULES: &str = "a bit that both rules want zero";
pub const EARLIER_ALONE: &str = "a bit that the earlier rule alone wants zero";
pub const FREE: &str = "a bit that both rules leave free";

/// What a check answers.
pub const NONE: &str = "no slot offends";
pub const SLOT_1: &str = "slot 1 offends";
pub const SLOT_128: &str = "slot 128 offends";
pub const BETWEEN: &str = "a slot between offends";

/// Slots 2, 3 and 5 are used.
const USED: [usize; 3] = [1, 2, 4];
const BIT_47: u64 = 1 << 47;

/// Bits by each rule, in an add and in a check.
pub fn each_rule(run: &mut Run) -> Outcome {
    for shape in SHAPES {
        let disk = without_attributes(run, shape);
        each_number(run, &disk)?;
        each_bit(run, &disk)?;
    }
    Ok(())
}

/// Tables that offend, in a used slot, a stale one, or one copy.
pub fn each_table(run: &mut Run) -> Outcome {
    for shape in SHAPES {
        let disk = without_attributes(run, shape);
        stale(run, &disk)?;
        one_copy(run, &disk)?;
        offending(run, &disk)?;
        all_slots(run, shape)?;
    }
    Ok(())
}

fn without_attributes(run: &mut Run, shape: Shape) -> Disk {
    with(&rows::some_slots_used(run, shape), &USED.map(|index| (index, 0)))
}

/// What an accepted check answered.
pub fn answered(slot: u64) -> Cell {
    Cell::On(match slot {
        0 => NONE,
        1 => SLOT_1,
        128 => SLOT_128,
        _ => BETWEEN,
    })
}

/// k4: a check by each rule; a table that passes the earlier one passes the present one.
pub fn by_both(run: &mut Run, disk: &Disk) -> Outcome {
    let rules = run.rules.gpt.ledger.passes;
    let mut passed = [false; 2];
    for (passed, rule) in passed.iter_mut().zip(rules) {
        *passed = disk.clone().call(run, &Call::Check { rule })?.values[0] == 0;
    }
    match passed {
        [true, false] => {
            Err(Difference::new(format!("gpt, a table passes rule {} and not {}", rules[0], rules[1])))
        }
        _ => Ok(()),
    }
}

/// The disk with these attributes, by index.
fn with(disk: &Disk, attributes: &[(usize, u64)]) -> Disk {
    let mut disk = disk.clone();
    attributes.iter().for_each(|(index, bits)| disk.set_attributes(&SIDES, *index, *bits));
    disk.seal_both();
    disk
}

fn add(run: &mut Run, attributes: u64, rule: u64) -> Call {
    let (kind, unique) = (sample::sparse_guid(&mut run.random), sample::guid(&mut run.random));
    let name = name::EMPTY.to_vec();
    Call::Add { kind, unique, size: 1, alignment: 1, attributes, rule, name }
}

/// A check of a table that has these attributes in slot 3.
fn check(run: &mut Run, disk: &Disk, attributes: u64, rule: u64) -> Outcome {
    with(disk, &[(2, attributes)]).meeting(run, &Call::Check { rule }, kind_of(attributes))
}

fn give(run: &mut Run, disk: &Disk, attributes: u64, rule: u64) -> Outcome {
    let new = add(run, attributes, rule);
    disk.meeting(run, &new, kind_of(attributes))
}

fn kind_of(attributes: u64) -> &'static str {
    let offends = |rule| attributes & !bits::free(rule) != 0;
    match [bits::PRESENT, bits::EARLIER[0]].map(offends) {
        [true, _] => BOTH_RULES,
        [false, true] => EARLIER_ALONE,
        [false, false] => FREE,
    }
}

/// Each of the 64 bits alone, and each two at edges; no bit, all bits, and all that a rule leaves free or wants zero. An add
/// for the even ones and a check for the odd ones, at 4096 bytes the other way round.
fn each_bit(run: &mut Run, disk: &Disk) -> Outcome {
    let alone = (0..64).map(|bit| 1 << bit);
    let two = bits::EDGES.iter().flat_map(|one| bits::EDGES.map(|other| 1 << one | 1 << other));
    let whole = [bits::PRESENT, bits::EARLIER[0]].map(bits::free).into_iter().flat_map(|free| [free, !free]);
    let mut all: Vec<u64> = alone.chain(two).chain(whole).chain([0, u64::MAX]).collect();
    all.sort();
    all.dedup();
    for (place, attributes) in all.into_iter().enumerate() {
        let adds = (place % 2 == 0) == (disk.block == 512);
        for rule in [bits::PRESENT, run.random.pick(&bits::EARLIER)] {
            let judge = if adds { give } else { check };
            judge(run, disk, attributes, rule)?;
        }
    }
    Ok(())
}

/// Each number of a rule with a bit that tells the two rules apart, and one that does not.
fn each_number(run: &mut Run, disk: &Disk) -> Outcome {
    for rule in bits::EARLIER.into_iter().chain([bits::PRESENT, 3, 256, 0xFFFF_FFFF]) {
        for attributes in [2, 8] {
            give(run, disk, attributes, rule)?;
            check(run, disk, attributes, rule)?;
        }
    }
    Ok(())
}

/// Offending attributes in the slot that an add takes, or in another unused one.
fn stale(run: &mut Run, disk: &Disk) -> Outcome {
    for index in [0, 3] {
        for attributes in [u64::MAX, 2] {
            let disk = with(disk, &[(index, attributes)]);
            for rule in [bits::PRESENT, bits::EARLIER[0]] {
                disk.meeting(run, &Call::Check { rule }, STALE)?;
                let passing = bits::passing(rule, &mut run.random);
                let new = add(run, passing, rule);
                disk.meeting(run, &new, STALE)?;
                // A used one besides.
                with(&disk, &[(4, BIT_47)]).meeting(run, &Call::Check { rule }, STALE)?;
            }
        }
    }
    Ok(())
}

/// The check goes by the copy that reading uses: both good and different, or one of them alone.
fn one_copy(run: &mut Run, disk: &Disk) -> Outcome {
    for side in SIDES {
        for attributes in [BIT_47, 4] {
            let mut different = disk.clone();
            different.set_attributes(&[side], 2, attributes);
            different.seal_both();
            for broken in [None, Some(SIDES[0]), Some(SIDES[1])] {
                let mut disk = different.clone();
                broken.into_iter().for_each(|side| disk.header(side)[24] ^= 1);
                for rule in [bits::PRESENT, bits::EARLIER[0]] {
                    disk.meeting(run, &Call::Check { rule }, ONE_COPY)?;
                }
            }
        }
    }
    Ok(())
}

/// No other call looks at the attributes that are there.
fn offending(run: &mut Run, disk: &Disk) -> Outcome {
    let disk = with(disk, &[(1, u64::MAX), (4, 2)]);
    let name = name::good(&mut run.random);
    let rename = |slot| Call::Rename { slot, name: name.clone() };
    let edits = [rename(2), Call::Resize { slot: 5, size: 1 }, Call::Resize { slot: 2, size: 4 }];
    let looks = [Call::Read, Call::Table, Call::Free, Call::Repair];
    for call in looks.into_iter().chain(edits).chain([2, 3].map(|slot| Call::Delete { slot })) {
        disk.meeting(run, &call, OFFENDING)?;
    }
    for rule in [bits::PRESENT, bits::EARLIER[0]] {
        disk.meeting(run, &Call::Check { rule }, OFFENDING)?;
        let new = add(run, 1, rule);
        disk.meeting(run, &new, OFFENDING)?;
    }
    for side in SIDES {
        let mut broken = disk.clone();
        broken.header(side)[24] ^= 1;
        for call in [Call::Read, Call::Repair, Call::Check { rule: bits::PRESENT }] {
            broken.call(run, &call)?;
        }
    }
    Ok(())
}

/// One slot of 128 offends, or two, or one by the earlier rule and a later one by both, or one by the earlier rule alone.
fn all_slots(run: &mut Run, shape: Shape) -> Outcome {
    let mut disk = rows::all_slots_used(run, shape);
    for index in 0..SLOTS {
        let free = bits::passing(bits::EARLIER[0], &mut run.random);
        disk.set_attributes(&SIDES, index, free);
    }
    let one = [0, 1, 77, SLOTS - 2, SLOTS - 1].map(|index| vec![(index, BIT_47)]);
    let two = [(0, SLOTS - 1), (1, 2), (77, SLOTS - 1)].map(|(a, b)| vec![(a, 8), (b, BIT_47)]);
    let by_rule = [(0, 1), (2, SLOTS - 1)].map(|(a, b)| vec![(a, 2), (b, 8)]);
    let others = [vec![(77, 4)], vec![]];
    for offenders in one.into_iter().chain(two).chain(by_rule).chain(others) {
        by_both(run, &with(&disk, &offenders))?;
    }
    Ok(())
}
