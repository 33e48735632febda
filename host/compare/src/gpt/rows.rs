//! Calls for which one row holds, or two together, so that each row and each order of two shows.

use super::call::{Call, GUID_LEN, NAME_UNITS};
use super::disk::{Disk, Side, SIDES, SLOTS};
use super::{bits, name, sample};
use crate::run::{Lent, Outcome, Run};
use testkit::disk::{Shape, SHAPES};
use testkit::random::Random;

/// A way to make a row hold.
#[derive(Clone, Copy, Debug, PartialEq, Eq)]
enum Fault {
    BlockSize(u64),
    OtherBlockSize,
    Length(&'static str),
    TooFewBlocks,
    TooManyBlocks,
    ZeroDiskGuid,
    NoGoodCopy,
    OtherDiskGuid,
    OtherEntry,
    PrimaryOnly,
    BackupOnly,
    Slot(u64),
    UnusedSlot,
    ZeroSize,
    BadAlignment,
    ZeroType,
    ZeroUnique,
    TakenUnique,
    BadName,
    TakenName,
    OffendingBits,
    AllSlotsUsed,
    NoRoom,
}

use Fault::*;

const SIZE: [Fault; 2] = [BlockSize(0), BlockSize(1024)];
const LENGTHS: [Fault; 3] = [OtherBlockSize, Length("head"), Length("tail")];
const COUNT: [Fault; 2] = [TooFewBlocks, TooManyBlocks];
const NOT_SAME: [Fault; 4] = [OtherDiskGuid, OtherEntry, PrimaryOnly, BackupOnly];
const SLOT: [Fault; 3] = [Slot(0), Slot(129), UnusedSlot];

/// The calls, each with the faults that concern it, in the order of its rows.
fn calls(random: &mut Random) -> Vec<(Call, Vec<Fault>)> {
    let slot = 2;
    let name = name::filled(random);
    let lent = [&SIZE[..], &LENGTHS].concat();
    let reading = [&lent[..], &COUNT, &[NoGoodCopy], &NOT_SAME].concat();
    let editing = [&reading[..], &SLOT].concat();
    let format = [&lent[..], &[Length("guid")], &COUNT, &[ZeroDiskGuid]].concat();
    let new = [Length("type"), Length("unique"), Length("name")];
    let judged = [ZeroSize, BadAlignment, ZeroType, ZeroUnique, TakenUnique];
    let named = [BadName, TakenName];
    let placed = [OffendingBits, AllSlotsUsed, NoRoom];
    let rule = bits::rule(random);
    vec![
        (Call::Format { guid: sample::guid(random) }, format),
        (Call::Read, reading.clone()),
        (Call::Table, reading.clone()),
        (Call::Free, reading.clone()),
        (Call::Check { rule }, reading.clone()),
        (Call::Repair, reading.clone()),
        (sample::good_add(3, random), [&new, &reading[..], &judged, &named, &placed].concat()),
        (Call::Delete { slot }, editing.clone()),
        (Call::Rename { slot, name }, [&[Length("name")], &editing[..], &named].concat()),
        (Call::Resize { slot, size: 4 }, [&editing[..], &[ZeroSize, NoRoom]].concat()),
    ]
}

/// Each call with no fault, with each one, and with each two.
pub fn each_two(run: &mut Run) -> Outcome {
    SHAPES.into_iter().try_for_each(|shape| each_two_of(run, shape))
}

fn each_two_of(run: &mut Run, shape: Shape) -> Outcome {
    let (some, all) = (some_slots_used(run, shape), all_slots_used(run, shape));
    for (call, faults) in calls(&mut run.random) {
        let with = |run: &mut Run, faults: &[Fault]| {
            let disk = if faults.contains(&AllSlotsUsed) { &all } else { &some };
            with_faults(disk, &call, faults, &mut run.random)
        };
        let (mut disk, sound) = with(run, &[]);
        disk.call_in_state(run, &sound)?;
        for (k, fault) in faults.iter().enumerate() {
            let (mut disk, faulty) = with(run, &[*fault]);
            disk.call_in_state(run, &faulty)?;
            for earlier in &faults[..k] {
                let (mut disk, faulty) = with(run, &[*earlier, *fault]);
                disk.call(run, &faulty)?;
            }
        }
    }
    Ok(())
}

fn with_faults(disk: &Disk, call: &Call, faults: &[Fault], random: &mut Random) -> (Disk, Call) {
    let mut disk = disk.clone();
    let mut call = call.clone();
    for fault in faults {
        on_call(&mut call, *fault, &mut disk, random);
    }
    // Before the copies are made bad or different, since both get the name.
    if faults.contains(&TakenName) {
        take_name(&mut disk, &call);
    }
    for fault in faults {
        on_disk(&mut disk, *fault, random);
    }
    // The lengths last, since the other faults know the whole disk.
    for fault in faults {
        wrong_length(&mut disk, &mut call, *fault, random);
    }
    (disk, call)
}

/// Slots 2, 3 and 5 of a disk of 33 usable blocks, of which they have 2 to 4, 11 to 16 and the last; slots 1 and 4 are
/// unused.
pub fn some_slots_used(run: &mut Run, shape: Shape) -> Disk {
    let mut disk = Disk::formatted(shape, shape.least_blocks() + 32, &mut run.random);
    for (index, first, last) in [(1, 2, 4), (2, 11, 16), (4, 32, 32)] {
        let start = shape.first_usable;
        disk.place(index, start + first, start + last, &mut run.random);
    }
    disk.seal_both();
    disk
}

/// 128 partitions of one block, and 5 free blocks after them.
pub fn all_slots_used(run: &mut Run, shape: Shape) -> Disk {
    let slots = SLOTS as u64;
    let mut disk = Disk::formatted(shape, shape.least_blocks() - 1 + slots + 5, &mut run.random);
    for index in 0..slots {
        let block = shape.first_usable + index;
        disk.place(index as usize, block, block, &mut run.random);
    }
    disk.seal_both();
    disk
}

fn on_disk(disk: &mut Disk, fault: Fault, random: &mut Random) {
    match fault {
        BlockSize(block) => disk.block = block,
        OtherBlockSize => disk.block = other(disk.shape).block,
        TooFewBlocks => disk.n = disk.shape.least_blocks() - 1,
        TooManyBlocks => disk.n = sample::N_MAX + 1,
        NoGoodCopy => SIDES.into_iter().for_each(|side| disk.header(side)[0] ^= 1),
        PrimaryOnly => disk.header(Side::Tail)[56] ^= 1,
        BackupOnly => disk.header(Side::Head)[56] ^= 1,
        OtherDiskGuid => {
            disk.header(Side::Tail)[56 + random.below(GUID_LEN)] ^= 1;
            disk.seal(Side::Tail);
        }
        OtherEntry => {
            disk.entry(Side::Tail, 1)[48] ^= 1;
            disk.seal(Side::Tail);
        }
        _ => {}
    }
}

/// Slot 5 carries the name of the call already.
fn take_name(disk: &mut Disk, call: &Call) {
    if let Call::Add { name, .. } | Call::Rename { name, .. } = call {
        disk.set_name(4, name);
        disk.seal_both();
    }
}

/// The other one of the two.
fn other(shape: Shape) -> Shape {
    SHAPES.into_iter().find(|other| *other != shape).expect("another shape")
}

fn on_call(call: &mut Call, fault: Fault, disk: &mut Disk, random: &mut Random) {
    match (fault, call) {
        (ZeroDiskGuid, Call::Format { guid }) => guid.fill(0),
        (Slot(to), Call::Delete { slot } | Call::Rename { slot, .. } | Call::Resize { slot, .. }) => {
            *slot = to
        }
        (UnusedSlot, Call::Delete { slot } | Call::Rename { slot, .. } | Call::Resize { slot, .. }) => {
            *slot = 4
        }
        (ZeroSize, Call::Add { size, .. } | Call::Resize { size, .. }) => *size = 0,
        (NoRoom, Call::Add { size, .. } | Call::Resize { size, .. }) => *size = random.pick(&[16, u64::MAX]),
        (BadAlignment, Call::Add { alignment, .. }) => *alignment = random.pick(&sample::BAD_ALIGNMENTS),
        (ZeroType, Call::Add { kind, .. }) => kind.fill(0),
        (ZeroUnique, Call::Add { unique, .. }) => unique.fill(0),
        (TakenUnique, Call::Add { unique, .. }) => {
            unique.copy_from_slice(&disk.entry(Side::Head, 1)[16..32]);
        }
        (OffendingBits, Call::Add { attributes, rule, .. }) => {
            *attributes = bits::offending(*rule, random);
        }
        (BadName, Call::Add { name, .. } | Call::Rename { name, .. }) => *name = name::bad(random),
        (TakenName, Call::Add { name, .. }) if *name == name::EMPTY => *name = name::filled(random),
        _ => {}
    }
}

fn wrong_length(disk: &mut Disk, call: &mut Call, fault: Fault, random: &mut Random) {
    let Length(buffer) = fault else { return };
    let change = random.pick(&[-1, 1]);
    set_length(disk, call, buffer, change, random);
}

/// Cuts or lengthens one buffer by `change`, down to nothing.
fn set_length(disk: &mut Disk, call: &mut Call, buffer: &str, change: isize, random: &mut Random) {
    let new = |length: usize| length.saturating_add_signed(change);
    match (buffer, call) {
        ("head", _) => disk.head = of_length(&disk.head, new(disk.shape.head_len), random),
        ("tail", _) => disk.tail = of_length(&disk.tail, new(disk.shape.tail_len), random),
        ("guid", Call::Format { guid }) => guid.resize(new(GUID_LEN), 7),
        ("type", Call::Add { kind, .. }) => kind.resize(new(GUID_LEN), 7),
        ("unique", Call::Add { unique, .. }) => unique.resize(new(GUID_LEN), 7),
        ("name", Call::Add { name, .. } | Call::Rename { name, .. }) => name.resize(new(NAME_UNITS), 0),
        (buffer, call) => unreachable!("{} is lent no {buffer}", call.name(disk.block)),
    }
}

fn of_length(lent: &Lent, length: usize, random: &mut Random) -> Lent {
    let mut bytes = lent.bytes().to_vec();
    bytes.resize(length, 0);
    Lent::holding(&bytes, random)
}

/// What a length is changed by: a few units, a block, and to that of the other block size, of the other buffer, or to
/// nothing.
const CHANGES: [isize; 16] =
    [-1, 1, -2, 8, 16, 512, -512, 4096, -4096, 7168, -7168, 3584, -3584, 16_896, -16_895, -24_576];

/// Each buffer of each call with other lengths.
pub fn each_length(run: &mut Run) -> Outcome {
    SHAPES.into_iter().try_for_each(|shape| each_length_of(run, shape))
}

fn each_length_of(run: &mut Run, shape: Shape) -> Outcome {
    let disk = some_slots_used(run, shape);
    for (call, faults) in calls(&mut run.random) {
        for fault in faults {
            let Length(buffer) = fault else { continue };
            for change in CHANGES {
                let (mut disk, mut call) = (disk.clone(), call.clone());
                set_length(&mut disk, &mut call, buffer, change, &mut run.random);
                disk.call(run, &call)?;
            }
        }
    }
    Ok(())
}

/// Each call with each N outside the range and next to the disk's own.
pub fn each_block_count(run: &mut Run) -> Outcome {
    for shape in SHAPES {
        let disk = some_slots_used(run, shape);
        for (call, _) in calls(&mut run.random) {
            let near = [shape.least_blocks(), disk.n - 1, disk.n + 1, sample::N_MAX];
            for n in sample::bad_block_counts(shape).into_iter().chain(near) {
                let mut other = Disk { n, ..disk.clone() };
                other.call(run, &call)?;
            }
        }
    }
    Ok(())
}

/// Each call with each block size that is neither of the two, and with the one that the disk does not have.
pub fn each_block_size(run: &mut Run) -> Outcome {
    for shape in SHAPES {
        let disk = some_slots_used(run, shape);
        for (call, _) in calls(&mut run.random) {
            for block in sample::BAD_BLOCK_SIZES.into_iter().chain([other(shape).block]) {
                let mut other = Disk { block, ..disk.clone() };
                other.call(run, &call)?;
            }
        }
    }
    Ok(())
}
