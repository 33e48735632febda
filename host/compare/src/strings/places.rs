//! Where partitions stand: with a start and without one, of a size and of size 0, at each alignment.

use super::probe::Probe;
use crate::gpt::call::Call;
use crate::gpt::disk::{Disk, SIDES};
use crate::gpt::{rows, sample};
use crate::run::{Outcome, Run};
use testkit::disk::{Shape, SHAPES};
use testkit::strings::numbered_guid;

/// What a string has.
pub const OPEN: &str = "size 0 in the last partition, without a start";
pub const OPEN_FROM_START: &str = "size 0 in the last partition, from a start";
pub const ZERO_BEFORE_LAST: &str = "size 0 before the last partition";
pub const STARTED: &str = "a start given";
pub const UNALIGNED: &str = "a start given that is no multiple of the alignment";
pub const AT_A_MULTIPLE: &str = "no start, with room at a multiple";
pub const ROOM_BESIDE: &str = "no start, with room at no multiple";
pub const ON_A_TABLE: &str = "a disk that has partitions";

/// Start, if one is given, and size, in blocks.
type Place = (Option<u64>, u64);

/// The string of these partitions.
pub fn string(shape: Shape, places: &[Place]) -> String {
    let mut text = format!("uuid_disk={}", numbered_guid(0));
    for ((start, blocks), number) in places.iter().zip(1..) {
        text += &format!(";name=p{number},size={}", blocks.wrapping_mul(shape.block));
        if let Some(start) = start {
            text += &format!(",start={}", start.wrapping_mul(shape.block));
        }
        text += &format!(",uuid={}", numbered_guid(number));
    }
    text
}

/// A start at and beside each edge of the free runs, with each size that ends at or beside one; last and not last.
pub fn starts(run: &mut Run) -> Outcome {
    for shape in SHAPES {
        let first = shape.first_usable;
        let n = shape.least_blocks() - 1 + 60;
        let last = n - first;
        let probe = Probe::new(run, shape, n);
        // From the tenth usable block on five, and the thirtieth.
        let taken = [(Some(first + 10), 5), (Some(first + 30), 1)];
        let inside = [0, 1, 9, 10, 11, 14, 15, 16, 29, 30, 31].map(|block| first + block);
        let outside =
            [0, 1, first - 1, last - 1, last, last + 1, n - 1, n, n + 1, 1 << 32, (1 << 32) + first];
        let most = u64::MAX / shape.block;
        for start in inside.into_iter().chain(outside).chain([most]) {
            for blocks in [0, 1, 2, 9, 10, 11, 14, 15, 29, 30, most] {
                let alignment = run.random.pick(&[1, 8, 8, 2048]);
                let places = [taken[0], taken[1], (Some(start), blocks)];
                let what = match (blocks, start % alignment) {
                    (0, _) => OPEN_FROM_START,
                    (_, 0) => STARTED,
                    _ => UNALIGNED,
                };
                probe.meeting(run, alignment, string(shape, &places), what)?;
                let more = [&places[..], &[(None, 1)]].concat();
                let what = if blocks == 0 { ZERO_BEFORE_LAST } else { STARTED };
                probe.meeting(run, alignment, string(shape, &more), what)?;
            }
        }
        // Without a start among them, in each order.
        for blocks in [0, 1, 9, 10, 11, 14, 15, 16, 29, 30, 31, most] {
            let what = if blocks == 0 { OPEN } else { AT_A_MULTIPLE };
            for places in [
                vec![taken[0], taken[1], (None, blocks)],
                vec![taken[1], (None, 9), taken[0], (None, blocks)],
                vec![(None, 1), taken[0], (None, 3), (None, blocks)],
                vec![(None, blocks), taken[0]],
                vec![(None, 0), (None, blocks)],
                vec![(None, blocks)],
            ] {
                for alignment in [1, 8] {
                    probe.meeting(run, alignment, string(shape, &places), what)?;
                    probe.build(run, alignment, string(shape, &places) + ";")?;
                }
            }
        }
    }
    Ok(())
}

/// Free blocks that begin before a multiple of the alignment and end at it or beside it; then another run that has room, or
/// none; for a size and for size 0.
pub fn gaps(run: &mut Run) -> Outcome {
    for shape in SHAPES {
        for alignment in sample::ALIGNMENTS {
            gaps_at(run, shape, alignment)?;
        }
        let probe = Probe::new(run, shape, 5000);
        for alignment in sample::ALIGNMENTS.into_iter().chain(sample::BAD_ALIGNMENTS) {
            for place in [(None, 1), (None, 0), (Some(100), 1), (Some(100), 0), (Some(0), 1)] {
                probe.build(run, alignment, string(shape, &[place]))?;
            }
        }
    }
    Ok(())
}

fn gaps_at(run: &mut Run, shape: Shape, alignment: u64) -> Outcome {
    let multiple = (4096 / alignment + 1) * alignment;
    let later = multiple + 8 * alignment;
    let end = later + 4 * alignment;
    let probe = Probe::new(run, shape, end + shape.first_usable - 1);
    let mut befores = vec![0, 1, alignment - 1];
    befores.retain(|before| *before < alignment);
    for before in befores {
        for blocks in [0, 1, alignment + 1] {
            for short in [0, 1, 2] {
                let gap = (multiple - before, (multiple + blocks.max(1) + 1).saturating_sub(short));
                let second = (later - before, later + blocks.max(1));
                for gaps in [&[gap][..], &[gap, second]] {
                    let mut places = filled(shape, end, gaps);
                    places.push((None, blocks));
                    let what = match blocks {
                        0 => OPEN,
                        _ if short == 2 && gaps.len() == 1 => ROOM_BESIDE,
                        _ => AT_A_MULTIPLE,
                    };
                    probe.meeting(run, alignment, string(shape, &places), what)?;
                }
            }
        }
    }
    Ok(())
}

/// Partitions on all usable blocks but these gaps, each by its first block and the block behind its last one.
fn filled(shape: Shape, end: u64, gaps: &[(u64, u64)]) -> Vec<Place> {
    let starts = [shape.first_usable].into_iter().chain(gaps.iter().map(|(_, end)| *end));
    let ends = gaps.iter().map(|(first, _)| *first).chain([end]);
    starts
        .zip(ends)
        .filter(|(start, end)| start < end)
        .map(|(start, end)| (Some(start), end - start))
        .collect()
}

/// On a good disk that has partitions, on one with two tables, and on one whose copies are bad; then once more on what is left.
pub fn former(run: &mut Run) -> Outcome {
    for shape in SHAPES {
        let good = rows::some_slots_used(run, shape);
        let mut different = good.clone();
        different.entry(SIDES[1], 7).fill(7);
        different.seal(SIDES[1]);
        let mut bad = good.clone();
        bad.header(SIDES[0])[0] ^= 1;
        for disk in [good, different, bad] {
            for places in [&[(None, 1)][..], &[(None, 2), (None, 0)], &[(Some(0), 1)], &[(None, 500)]] {
                let call = Call::Build { alignment: 1, text: string(shape, places).into_bytes() };
                disk.meeting(run, &call, ON_A_TABLE)?;
                let mut disk = disk.clone();
                disk.call(run, &call)?;
                disk.call(run, &Call::Read)?;
                disk.call(run, &call)?;
                disk.call_in_state(run, &Call::Free)?;
            }
        }
    }
    Ok(())
}

/// All of each disk, a block more, and size 0, for each of many N.
pub fn block_counts(run: &mut Run) -> Outcome {
    for shape in SHAPES {
        for n in sample::block_counts(shape, &mut run.random, 10) {
            let probe = Probe::new(run, shape, n);
            let (first, usable) = (shape.first_usable, shape.usable(n));
            let last = n - first;
            for places in [
                vec![(None, usable)],
                vec![(None, usable + 1)],
                vec![(None, 0)],
                vec![(Some(last), 0)],
                vec![(Some(last), 1), (None, 0)],
                vec![(Some(last + 1), 1)],
                vec![(Some(first), usable)],
            ] {
                let alignment = run.random.pick(&sample::ALIGNMENTS);
                probe.build(run, alignment, string(shape, &places))?;
            }
        }
        let probe = Probe::new(run, shape, 100);
        for n in sample::bad_block_counts(shape) {
            probe.of_blocks(n).demand(run, 1, string(shape, &[(None, 1)]), 2)?;
        }
        for block in sample::BAD_BLOCK_SIZES {
            let mut disk = Disk { block, ..Disk::random(shape, 100, &mut run.random) };
            disk.call(run, &Call::Build { alignment: 1, text: string(shape, &[(None, 1)]).into_bytes() })?;
        }
    }
    Ok(())
}
