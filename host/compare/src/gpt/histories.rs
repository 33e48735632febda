//! Lists of calls on one disk.

use super::call::Call;
use super::disk::{Disk, Reply, Side, NAME_AT, SIDES, SLOTS};
use super::{attributes, bits, damage, name, sample};
use crate::run::{Difference, Outcome, Run};
use second::rules::{Bits, LedgerRules};
use second::Ledger;
use testkit::disk::{Shape, SHAPES};
use testkit::random::Random;

const DAMAGED_HISTORIES: usize = 260;
const DAMAGED_CALLS: usize = 36;
const LEDGER_HISTORIES: usize = 60;
const LEDGER_CALLS: usize = 40;

/// Formatting over random bytes, the largest partition and one more, for each of many N.
pub fn block_counts(run: &mut Run) -> Outcome {
    SHAPES.into_iter().try_for_each(|shape| block_counts_of(run, shape))
}

fn block_counts_of(run: &mut Run, shape: Shape) -> Outcome {
    for n in sample::block_counts(shape, &mut run.random, 40) {
        let mut disk = Disk::random(shape, n, &mut run.random);
        let guid = sample::guid(&mut run.random);
        disk.call(run, &Call::Format { guid })?;
        let usable = shape.usable(n);
        for size in [usable + 1, usable, 1] {
            disk.call(run, &Call::Free)?;
            let add = sample::good_add(size, &mut run.random);
            disk.call(run, &add)?;
        }
        disk.call(run, &Call::Resize { slot: 1, size: usable + 1 })?;
        disk.call(run, &Call::Resize { slot: 1, size: 1 })?;
        disk.call(run, &Call::Table)?;
        disk.call_in_state(run, &Call::Free)?;
    }
    Ok(())
}

/// Calls with damage between them, on disks with few or many partitions.
pub fn damaged(run: &mut Run) -> Outcome {
    for _ in 0..DAMAGED_HISTORIES {
        let mut disk = crowded(run);
        for _ in 0..DAMAGED_CALLS {
            let read = disk.call(run, &Call::Read)?;
            let call = next_call(&mut disk, read, &mut run.random);
            disk.call_after(run, read, &call)?;
            if run.random.below(4) == 0 {
                damage::any(&mut disk, &mut run.random);
            }
        }
    }
    Ok(())
}

/// A disk that is not in state 1 is soon repaired, one that cannot be read formatted.
pub fn next_call(disk: &mut Disk, read: Reply, random: &mut Random) -> Call {
    match (read.number, read.values[0]) {
        (0, 2..) if random.below(2) == 0 => Call::Repair,
        (10, _) if random.below(2) == 0 => Call::Format { guid: sample::any_guid(random) },
        _ => sample::any_call(disk, random),
    }
}

/// A disk of any size with partitions in random slots; on some disks a few of them carry one name, of some a few slots or
/// all are stale, and of some a few have any attributes, the others such as an add takes.
fn crowded(run: &mut Run) -> Disk {
    let shape = run.random.pick(&SHAPES);
    let n = match run.random.below(5) {
        0 => sample::block_count(shape, &mut run.random),
        1 => sample::N_MAX - run.random.number_below(40),
        2 => near_multiple(shape, &mut run.random),
        _ => shape.least_blocks() + run.random.number_below(900),
    };
    let mut disk = Disk::formatted(shape, n, &mut run.random);
    let count = run.random.pick(&[0, 2, 5, 20, 127, 128]);
    let mut slots: Vec<usize> = (0..SLOTS).collect();
    let mut next = shape.first_usable;
    for _ in 0..count {
        let index = slots.swap_remove(run.random.below(slots.len()));
        let first = next + run.random.number_below(4).saturating_sub(1);
        let last = first + run.random.number_below(4).saturating_sub(1);
        if last >= disk.end() {
            break;
        }
        disk.place(index, first, last, &mut run.random);
        next = last + 1;
    }
    let (alike, stale) = (run.random.pick(&[0, 0, 1]), run.random.pick(&[0, 0, 1, 4]));
    let (passing, rule) = (run.random.pick(&[0, 15, 16]), bits::rule(&mut run.random));
    let name = name::filled(&mut run.random);
    for (index, ..) in disk.partitions(Side::Head) {
        if run.random.below(4) < alike {
            disk.set_name(index, &name);
        }
        if run.random.below(4) < stale {
            disk.clear_type(&SIDES, index);
        }
        if run.random.below(16) < passing {
            let attributes = bits::passing(rule, &mut run.random);
            disk.set_attributes(&SIDES, index, attributes);
        }
    }
    disk.seal_both();
    disk
}

/// N of a disk whose last usable block is at or near a multiple of 2,048.
pub fn near_multiple(shape: Shape, random: &mut Random) -> u64 {
    let multiple = 2048 * random.pick(&[1, 2]);
    multiple + shape.first_usable + random.pick(&[0, 1, 7, 60]) - random.pick(&[0, 1, 2])
}

/// D19 to D22, e4, a1, k1 to k4: calls after an accepted formatting; what they granted and gave back is what the entries
/// hold, no block lies in two partitions, no two of them carry one name, room is refused exactly where no multiple has enough
/// free blocks from it on, no partition offends the present rule, and none the earlier one where every add named it.
pub fn ledger(run: &mut Run) -> Outcome {
    for _ in 0..LEDGER_HISTORIES {
        let shape = run.random.pick(&SHAPES);
        let n = match run.random.below(3) {
            0 => near_multiple(shape, &mut run.random),
            _ => shape.least_blocks() + run.random.number_below(400),
        };
        let mut disk = Disk::random(shape, n, &mut run.random);
        let mut ledger = Ledger::new(run.rules);
        format(run, &mut disk, &mut ledger)?;
        let mut named = Named { earlier_alone: run.random.below(2) == 0, present: false };
        for _ in 0..LEDGER_CALLS {
            match run.random.below(30) {
                0 => {
                    format(run, &mut disk, &mut ledger)?;
                    named.present = false;
                }
                _ => one_call(run, &mut disk, &mut ledger, &mut named)?,
            }
            claims(run, &mut disk, &ledger)?;
            zero_bits(run, &mut disk, &named)?;
        }
        attributes::by_both(run, &disk)?;
    }
    Ok(())
}

pub fn format(run: &mut Run, disk: &mut Disk, ledger: &mut Ledger) -> Outcome {
    let guid = sample::guid(&mut run.random);
    disk.call(run, &Call::Format { guid })?;
    ledger.formatted();
    Ok(())
}

/// The rules that the adds of a list name.
pub struct Named {
    /// The earlier one alone.
    pub earlier_alone: bool,
    /// Since formatting an accepted add named the present one.
    pub present: bool,
}

pub fn one_call(run: &mut Run, disk: &mut Disk, ledger: &mut Ledger, named: &mut Named) -> Outcome {
    let mut call = sample::any_call(disk, &mut run.random);
    if let (Call::Add { rule, attributes, .. }, true) = (&mut call, named.earlier_alone) {
        *rule = run.random.pick(&bits::EARLIER);
        *attributes = bits::given(*rule, &mut run.random);
    }
    let mut before = disk.clone();
    let reply = disk.call(run, &call)?;
    match (&call, reply.number) {
        (Call::Add { size, rule, .. }, 0) => {
            ledger.added(reply.values[0], *size);
            named.present |= *rule == bits::PRESENT;
        }
        (Call::Delete { slot }, 0) => ledger.deleted(*slot),
        (Call::Resize { slot, size }, 0) => ledger.resized(*slot, *size),
        (Call::Rename { .. }, 0) => ledger.renamed(),
        (Call::Repair, 0) => ledger.repaired(),
        (Call::Read | Call::Table | Call::Free | Call::Check { .. }, 0) => {}
        _ => ledger.refused(),
    }
    let (Call::Add { size, alignment, .. }, 0 | 25) = (call, reply.number) else { return Ok(()) };
    let alignment = if run.rules.gpt.ledger.room_by_multiples { alignment } else { 1 };
    let (added, room) = (reply.number == 0, room(&mut before, alignment));
    claim(added == (size <= room), || {
        format!("added: {added}, {size} blocks at {alignment} where {room} are free")
    })
}

/// The most free blocks from a multiple on, block by block.
fn room(disk: &mut Disk, alignment: u64) -> u64 {
    let partitions = disk.partitions(Side::Head);
    let is_taken = |block| partitions.iter().any(|(_, first, last)| (*first..=*last).contains(&block));
    let (mut most, mut free) = (0, 0);
    for block in (disk.shape.first_usable..disk.end()).rev() {
        free = if is_taken(block) { 0 } else { free + 1 };
        if block % alignment == 0 {
            most = most.max(free);
        }
    }
    most
}

pub fn claims(run: &mut Run, disk: &mut Disk, ledger: &Ledger) -> Outcome {
    let [free, _] = disk.call(run, &Call::Free)?.values;
    let held = i128::from(disk.shape.usable(disk.n)) - i128::from(free);
    let summed = ledger.in_partitions();
    claim(held == summed, || format!("{held} blocks lie in partitions, {summed} by the sums"))?;
    let mut ranges: Vec<_> = disk.partitions(Side::Head).into_iter().map(|(_, a, b)| (a, b)).collect();
    ranges.sort();
    let apart = ranges.windows(2).all(|two| two[0].1 < two[1].0);
    let (start, end) = (disk.shape.first_usable, disk.end());
    let in_order = ranges.iter().all(|(first, last)| start <= *first && first <= last && *last < end);
    claim(apart && in_order, || format!("the partitions are {ranges:?}"))?;
    SIDES.into_iter().try_for_each(|side| names_differ(run, disk, side))
}

/// a1, a2: of the names that the used entries of a copy hold, no two are the same but for empty ones, byte by byte.
fn names_differ(run: &Run, disk: &mut Disk, side: Side) -> Outcome {
    let LedgerRules { names_differ_in, empty_names_repeat, .. } = run.rules.gpt.ledger;
    let used = disk.partitions(side);
    let names = used.iter().map(|(index, ..)| disk.entry(side, *index)[NAME_AT..].to_vec());
    let mut names: Vec<_> =
        names.filter(|name| !empty_names_repeat || name.iter().any(|byte| *byte != 0)).collect();
    names.sort();
    let differ = names.windows(2).all(|two| two[0][..names_differ_in] != two[1][..names_differ_in]);
    claim(differ, || format!("the names are {names:02X?}"))
}

/// k1, k2: of the attributes that the used entries of a copy hold, bit by bit.
pub fn zero_bits(run: &Run, disk: &mut Disk, named: &Named) -> Outcome {
    let LedgerRules { zero_after_any, zero_after_earlier, after_earlier_alone, .. } = run.rules.gpt.ledger;
    let by_earlier = !(named.present && after_earlier_alone);
    for side in SIDES {
        for (index, ..) in disk.partitions(side) {
            let attributes = disk.attributes(side, index);
            let are_zero = |Bits { first, last }: Bits| (first..=last).all(|bit| attributes >> bit & 1 == 0);
            let hold = are_zero(zero_after_any) && (!by_earlier || are_zero(zero_after_earlier));
            claim(hold, || format!("slot {} has attributes {attributes:X}", index + 1))?;
        }
    }
    Ok(())
}

pub fn claim(holds: bool, what: impl Fn() -> String) -> Outcome {
    if holds {
        return Ok(());
    }
    Err(Difference::new(format!("gpt, a list of calls: {}", what())))
}
