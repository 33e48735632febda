//! Adds at each alignment where free blocks begin or end at a multiple of it or next to one, or hold none.

use super::disk::{Disk, SLOTS};
use super::{rows, sample};
use crate::run::{Cell, Outcome, Run};
use testkit::disk::{Shape, SHAPES};

/// What an add meets.
pub const PAST: &str = "start past a gap's first block";
pub const ROOM_BESIDE: &str = "room at no multiple";

/// Free blocks between others, by the first one and the block after the last one.
type Gap = (u64, u64);

/// Alignments that are taken and others, on a disk with room at multiples of them.
pub fn each_alignment(run: &mut Run) -> Outcome {
    for shape in SHAPES {
        let disk = rows::some_slots_used(run, shape);
        for alignment in sample::ALIGNMENTS.into_iter().chain(sample::BAD_ALIGNMENTS) {
            let add = sample::aligned_add(1, alignment, &mut run.random);
            disk.clone().call(run, &add)?;
        }
    }
    Ok(())
}

fn on_each(run: &mut Run, part: fn(&mut Run, Shape, u64) -> Outcome) -> Outcome {
    for shape in SHAPES {
        for alignment in sample::ALIGNMENTS {
            part(run, shape, alignment)?;
        }
    }
    Ok(())
}

/// A gap in which the size ends with the gap, or one block before or after; then another one after it that has room.
pub fn gaps(run: &mut Run) -> Outcome {
    on_each(run, gaps_at)
}

fn gaps_at(run: &mut Run, shape: Shape, alignment: u64) -> Outcome {
    // An odd multiple, so that it is one of no larger power of two.
    let multiple = (4096 / alignment + 1) * alignment;
    let later = multiple + 8 * alignment;
    let n = later + 4 * alignment + shape.least_blocks();
    let empty = Disk::formatted(shape, n, &mut run.random);
    let mut befores = vec![0, 1, alignment / 2, alignment - 1];
    befores.retain(|before| *before < alignment);
    befores.dedup();
    for before in befores {
        for size in [1, alignment + 1] {
            for end in [size - 1, size, size + 1].map(|blocks| multiple + blocks) {
                let gaps = [(multiple - before, end), (later - before, later + size)];
                for gaps in [&gaps[..1], &gaps] {
                    let disk = with_gaps(run, &empty, gaps);
                    add(run, &disk, gaps, size, alignment)?;
                }
            }
        }
    }
    Ok(())
}

/// All usable blocks free, to a multiple or next to it; then the last ones of the largest disk.
pub fn usable(run: &mut Run) -> Outcome {
    on_each(run, usable_at)
}

fn usable_at(run: &mut Run, shape: Shape, alignment: u64) -> Outcome {
    let first = shape.first_usable;
    let lowest = first.next_multiple_of(alignment);
    for end in [lowest, lowest + 1, lowest + 2, lowest + alignment, lowest + alignment + 1] {
        each_size(run, shape, end + first - 1, (first, end), alignment)?;
    }
    let (highest, end) = (sample::N_MAX - 2048, sample::N_MAX - first + 1);
    for start in [highest - 1, highest, highest + 1, end - 1] {
        each_size(run, shape, sample::N_MAX, (start, end), alignment)?;
    }
    Ok(())
}

/// What the gap has from its first block and from a multiple on, and next to it; sizes that end at 2^64.
fn each_size(run: &mut Run, shape: Shape, n: u64, gap: Gap, alignment: u64) -> Outcome {
    if n < shape.least_blocks() {
        return Ok(());
    }
    let empty = Disk::formatted(shape, n, &mut run.random);
    let disk = with_gaps(run, &empty, &[gap]);
    let (first, end) = gap;
    let multiple = first.next_multiple_of(alignment);
    let room = end.saturating_sub(multiple);
    let to_2_64 = [first, multiple].map(|start| 0_u64.wrapping_sub(start));
    for size in [1, room.saturating_sub(1), room, room + 1, end - first, u64::MAX].into_iter().chain(to_2_64)
    {
        add(run, &disk, &[gap], size, alignment)?;
    }
    Ok(())
}

/// Adds on a copy of the disk, and counts what the add met.
fn add(run: &mut Run, disk: &Disk, gaps: &[Gap], size: u64, alignment: u64) -> Outcome {
    let call = sample::aligned_add(size, alignment, &mut run.random);
    let reply = disk.clone().call(run, &call)?;
    let past = gaps.iter().all(|(first, _)| *first != reply.values[1]);
    let room = gaps.iter().any(|(first, end)| end - first >= size);
    match reply.number {
        0 if past => run.reach(call.name(disk.block), Cell::On(PAST)),
        25 if room => run.reach(call.name(disk.block), Cell::By(25, ROOM_BESIDE)),
        _ => {}
    }
    Ok(())
}

/// An empty disk filled so that no usable blocks are free but the gaps; the partitions stand in slots 128, 127 and 126.
fn with_gaps(run: &mut Run, empty: &Disk, gaps: &[Gap]) -> Disk {
    let mut disk = empty.clone();
    let starts = [disk.shape.first_usable].into_iter().chain(gaps.iter().map(|(_, end)| *end));
    let ends = gaps.iter().map(|(first, _)| *first).chain([disk.end()]);
    let ranges = starts.zip(ends).filter(|(start, end)| start < end);
    for ((start, end), index) in ranges.zip((0..SLOTS).rev()) {
        disk.place(index, start, end - 1, &mut run.random);
    }
    disk.seal_both();
    disk
}
