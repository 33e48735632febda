//! Good disks with one byte or one field changed.

use super::call::{Call, GUID_LEN};
use super::damage::HEADER_FIELDS;
use super::disk::{Disk, Side, ENTRY_LEN, SIDES};
use super::{name, sample};
use crate::run::{Outcome, Run};
use testkit::disk::{Shape, HEADER_LEN, SHAPES};

/// Slots 1, 3 and 128 of a disk of 300 blocks: the first seven usable blocks, the next one, and 200 to the last one.
fn disk(run: &mut Run, shape: Shape) -> Disk {
    let mut disk = Disk::formatted(shape, 300, &mut run.random);
    let (start, end) = (shape.first_usable, disk.n - shape.first_usable);
    for (index, first, last) in [(0, start, start + 6), (2, start + 7, start + 7), (127, 200, end)] {
        disk.place(index, first, last, &mut run.random);
    }
    disk.seal_both();
    disk
}

/// Such a disk of each block size.
fn on_each(run: &mut Run, part: fn(&mut Run, Disk) -> Outcome) -> Outcome {
    for shape in SHAPES {
        let disk = disk(run, shape);
        part(run, disk)?;
    }
    Ok(())
}

/// All that tells how the copies are read, and what an add and a repair make of them.
fn look(run: &mut Run, disk: &Disk) -> Outcome {
    let add = sample::good_add(2, &mut run.random);
    for call in [Call::Read, Call::Table, Call::Free, add, Call::Repair] {
        disk.clone().call_in_state(run, &call)?;
    }
    Ok(())
}

/// Each byte of a header, its CRC made right again or not.
pub fn headers(run: &mut Run) -> Outcome {
    on_each(run, headers_of)
}

fn headers_of(run: &mut Run, disk: Disk) -> Outcome {
    for side in SIDES {
        for at in 0..HEADER_LEN {
            let mut changed = disk.clone();
            changed.header(side)[at] ^= 1 << run.random.below(8);
            changed.call(run, &Call::Read)?;
            changed.seal(side);
            changed.call(run, &Call::Read)?;
            changed.call(run, &Call::Repair)?;
        }
    }
    Ok(())
}

/// Each field of a header zero, all ones, one more, one less; in one copy or both.
pub fn header_fields(run: &mut Run) -> Outcome {
    on_each(run, header_fields_of)
}

fn header_fields_of(run: &mut Run, disk: Disk) -> Outcome {
    for (at, len) in HEADER_FIELDS {
        for change in 0..4 {
            for sides in [&SIDES[..], &SIDES[..1], &SIDES[1..]] {
                let mut changed = disk.clone();
                for side in sides {
                    change_field(&mut changed.header(*side)[at..at + len], change);
                    changed.seal(*side);
                }
                look(run, &changed)?;
            }
        }
    }
    Ok(())
}

fn change_field(field: &mut [u8], change: u32) {
    match change {
        0 => field.fill(0),
        1 => field.fill(0xFF),
        2 => field[0] = field[0].wrapping_add(1),
        _ => field[0] = field[0].wrapping_sub(1),
    }
}

/// Each byte of a used and of an unused entry, in one copy or both, CRCs right.
pub fn entries(run: &mut Run) -> Outcome {
    on_each(run, entries_of)
}

fn entries_of(run: &mut Run, disk: Disk) -> Outcome {
    for index in [2, 1, 127] {
        for at in 0..ENTRY_LEN {
            for sides in [&SIDES[..], &SIDES[1..]] {
                let mut changed = disk.clone();
                let bit = 1 << run.random.below(8);
                for side in sides {
                    changed.entry(*side, index)[at] ^= bit;
                    changed.seal(*side);
                }
                changed.call(run, &Call::Read)?;
                changed.call(run, &Call::Free)?;
                let (kind, unique) = (sample::guid(&mut run.random), sample::guid(&mut run.random));
                changed.call(run, &sample::bare_add(1, kind, unique))?;
            }
        }
    }
    Ok(())
}

/// First and last block at and next to every border, in both copies, CRCs right.
pub fn ranges(run: &mut Run) -> Outcome {
    on_each(run, ranges_of)
}

fn ranges_of(run: &mut Run, disk: Disk) -> Outcome {
    let (start, end) = (disk.shape.first_usable, disk.n - disk.shape.first_usable);
    let near_start = [0, start - 1, start, start + 6, start + 7, start + 8];
    let near_end = [199, 200, 201, end - 1, end, end + 1, u64::MAX];
    let ends: Vec<u64> = near_start.into_iter().chain(near_end).collect();
    for first in &ends {
        for last in &ends {
            let mut changed = disk.clone();
            changed.place(5, *first, *last, &mut run.random);
            changed.seal_both();
            changed.call(run, &Call::Read)?;
            changed.call(run, &Call::Free)?;
        }
    }
    Ok(())
}

/// Type or unique GUID zero, or a unique GUID that another entry has or nearly has.
pub fn guids(run: &mut Run) -> Outcome {
    on_each(run, guids_of)
}

fn guids_of(run: &mut Run, disk: Disk) -> Outcome {
    let taken = disk.clone().entry(Side::Head, 0)[16..32].to_vec();
    let mut nearly_taken = taken.clone();
    nearly_taken[15] ^= 0x80;
    for (at, guid) in [(0, vec![0; 16]), (16, vec![0; 16]), (16, taken), (16, nearly_taken)] {
        let mut changed = disk.clone();
        for side in SIDES {
            changed.entry(side, 127)[at..at + 16].copy_from_slice(&guid);
        }
        changed.seal_both();
        look(run, &changed)?;
    }
    Ok(())
}

/// GUIDs given for the disk or for a type, zero but for one byte.
pub fn sparse_guids(run: &mut Run) -> Outcome {
    on_each(run, sparse_guids_of)
}

fn sparse_guids_of(run: &mut Run, disk: Disk) -> Outcome {
    for place in 0..GUID_LEN {
        let guid = sample::guid_with_one_byte(place, &mut run.random);
        disk.clone().call(run, &Call::Format { guid: guid.clone() })?;
        let mut added = disk.clone();
        let unique = sample::guid(&mut run.random);
        added.call(run, &sample::bare_add(2, guid, unique))?;
        added.call(run, &Call::Free)?;
    }
    Ok(())
}

/// Block 0 and the bytes after a header are free, and kept by all but formatting and repair.
pub fn unjudged(run: &mut Run) -> Outcome {
    on_each(run, unjudged_of)
}

fn unjudged_of(run: &mut Run, mut disk: Disk) -> Outcome {
    look(run, &disk)?;
    let block_0 = run.random.bytes(disk.block_0().len());
    disk.block_0().copy_from_slice(&block_0);
    look(run, &disk)?;
    for side in SIDES {
        let tail = run.random.bytes(disk.header_tail(side).len());
        disk.header_tail(side).copy_from_slice(&tail);
        look(run, &disk)?;
        edits(run, &disk)?;
    }
    repairs(run, &disk)
}

fn edits(run: &mut Run, disk: &Disk) -> Outcome {
    let name = name::good(&mut run.random);
    let rename = Call::Rename { slot: 1, name };
    for call in [Call::Delete { slot: 3 }, Call::Resize { slot: 128, size: 66 }, rename] {
        disk.clone().call(run, &call)?;
    }
    Ok(())
}

/// From every state, with header tails and block 0 that are not zero.
fn repairs(run: &mut Run, disk: &Disk) -> Outcome {
    for side in SIDES {
        let mut broken = disk.clone();
        broken.header(side)[24] ^= 1;
        broken.call_in_state(run, &Call::Repair)?;
        broken.call_in_state(run, &Call::Repair)?;
        let mut other_guid = disk.clone();
        other_guid.header(side)[60] ^= 1;
        other_guid.seal(side);
        look(run, &other_guid)?;
        let mut other_entry = disk.clone();
        other_entry.entry(side, 127)[40] -= 1;
        other_entry.seal(side);
        look(run, &other_entry)?;
    }
    Ok(())
}
