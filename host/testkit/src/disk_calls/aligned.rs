//! Where a new partition starts: at the lowest multiple of its alignment with enough free blocks from it on (rules e1, e4).
//! The multiple is of the block's number on the disk, with either block size.

use super::{unique, Calls, New, Rule, DISK_GUID};
use crate::disk::{Disk, Shape, SHAPES};
use crate::random::Random;

pub(super) const ALIGNMENTS: [u64; 3] = [1, 8, 2048];
/// Numbers beside the alignments and between them, and some with one in their low 32 bits.
const NO_ALIGNMENTS: [u64; 12] =
    [0, 2, 3, 7, 9, 16, 2047, 2049, (1 << 32) + 1, (1 << 32) + 8, (1 << 32) + 2048, u64::MAX];
pub(super) const LINUX: &str = "linux";
pub(super) const ZERO: &str = "00000000-0000-0000-0000-000000000000";

/// A partition that alignment or room alone can refuse.
fn new(size: u64, alignment: u64, unique: &str) -> New<'_> {
    New { kind: LINUX, unique, size, alignment, attributes: 0, rule: Rule::Earlier, name: "" }
}

/// Adds a partition with a unique GUID that none has; its first block.
pub(super) fn first(calls: &Calls, disk: &mut Disk, size: u64, alignment: u64) -> Result<u64, u32> {
    let unique = calls.new_unique(disk);
    let slot = (calls.add)(disk, &new(size, alignment, &unique))?;
    let row = calls.row_of(disk, slot);
    assert_eq!(row.last - row.first + 1, size);
    Ok(row.first)
}

/// The lowest usable block that is a multiple: usable blocks begin at 34, or at 6 with blocks of 4096 bytes.
fn lowest(shape: Shape, alignment: u64) -> u64 {
    match (shape.block, alignment) {
        (_, 2048) => 2048,
        (512, 8) => 40,
        (_, 8) => 8,
        _ => shape.first_usable,
    }
}

pub fn starts_are_multiples(calls: &Calls) {
    for shape in SHAPES {
        let mut disk = calls.formatted(shape, 10_000, DISK_GUID);
        let [whole, eight] = [1, 8].map(|alignment| lowest(shape, alignment));
        for (size, alignment, start) in [
            (1000, 2048, 2048),
            (3, 8, eight),
            // In front of it, where no multiple of 8 is.
            (2, 1, whole),
            (5, 8, eight + 8),
            (1, 2048, 4096),
            // Up to 2047 and from 3048 to 4095 there are fewer.
            (2030, 1, 4097),
            (1990, 8, eight + 16),
            // All that is free between 2048 to 3047 and 4096.
            (1048, 8, 3048),
            (1, 2048, 6144),
            // From 6128 to 6143 there are fewer.
            (40, 8, 6152),
        ] {
            assert_eq!(
                first(calls, &mut disk, size, alignment),
                Ok(start),
                "{shape:?}, {size} at {alignment}"
            );
        }
        assert_eq!((calls.state)(&disk), Ok(1));
    }
}

/// Rule e4: the longest free run may be long enough.
pub fn no_room_means_none_at_a_multiple(calls: &Calls) {
    for shape in SHAPES {
        let from = shape.first_usable;
        for alignment in [8, 2048] {
            let multiple = lowest(shape, alignment);
            // The last usable block is the one in front of the lowest multiple.
            let mut short = calls.formatted(shape, multiple - 1 + from, DISK_GUID);
            let before = short.clone();
            assert_eq!(first(calls, &mut short, 1, alignment), Err(25));
            assert_eq!(short.difference(&before), None);
            let all = multiple - from;
            assert_eq!((calls.free)(&short), Ok((all, all)));
            assert_eq!(first(calls, &mut short, all, 1), Ok(from));
            // So many blocks more: they are all that an aligned partition can have.
            for more in [1, 2, 7] {
                let mut disk = calls.formatted(shape, multiple - 1 + more + from, DISK_GUID);
                assert_eq!(first(calls, &mut disk, more + 1, alignment), Err(25));
                assert_eq!(first(calls, &mut disk, more, alignment), Ok(multiple));
                assert_eq!(first(calls, &mut disk, all, 1), Ok(from));
                assert_eq!(ALIGNMENTS.map(|one| first(calls, &mut disk, 1, one)), [Err(25); 3]);
            }
        }
    }
}

/// Start and size are added without wrapping, and neither is the next multiple behind the last usable block.
pub fn sizes_beyond_the_disk_have_no_room(calls: &Calls) {
    let n = 1 << 32;
    for shape in SHAPES {
        for alignment in ALIGNMENTS {
            let start = lowest(shape, alignment);
            let most = n - shape.first_usable - start + 1;
            let mut disk = calls.formatted(shape, n, DISK_GUID);
            for size in
                [most + 1, 1 << 63, 0_u64.wrapping_sub(alignment), 0_u64.wrapping_sub(start), u64::MAX]
            {
                assert_eq!(first(calls, &mut disk, size, alignment), Err(25), "{size} at {alignment}");
            }
            assert_eq!(first(calls, &mut disk, most, alignment), Ok(start));
            assert_eq!(first(calls, &mut disk, 1, alignment), Err(25));
        }
    }
}

/// Rule e5: after 20 and all that comes before it, before 21, 22, 24 and 25.
pub fn another_alignment_is_refused_after_20(calls: &Calls) {
    for shape in SHAPES {
        let mut disk = calls.formatted(shape, 500, DISK_GUID);
        for _ in 0..128 {
            first(calls, &mut disk, 1, 1).expect("room");
        }
        let (held, other) = (unique(1), unique(200));
        for alignment in NO_ALIGNMENTS {
            let answer = |disk: &Disk, new: New| {
                let mut lent = disk.clone();
                let answer = (calls.add)(&mut lent, &new);
                assert_eq!(lent.difference(disk), None);
                answer
            };
            let [none, full] = [0, u64::MAX].map(|size| new(size, alignment, &other));
            assert_eq!([none, full].map(|new| answer(&disk, new)), [Err(20), Err(27)], "{alignment}");
            let numbers = [(LINUX, &other[..]), (ZERO, &other), (LINUX, ZERO), (LINUX, &held)]
                .map(|(kind, unique)| answer(&disk, New { kind, ..new(1, alignment, unique) }));
            assert_eq!(numbers, [Err(27); 4], "{alignment}");
            let earlier = refused_earlier(&disk)
                .map(|(number, disk)| (number, answer(&disk, new(1, alignment, &other))));
            earlier.into_iter().for_each(|(number, answer)| assert_eq!(answer, Err(number), "{alignment}"));
        }
        // With an alignment the others are told.
        for alignment in ALIGNMENTS {
            let numbers = [(ZERO, &other[..]), (LINUX, ZERO), (LINUX, &held), (LINUX, &other)]
                .map(|(kind, unique)| (calls.add)(&mut disk, &New { kind, ..new(1, alignment, unique) }));
            assert_eq!(numbers, [Err(21), Err(22), Err(22), Err(24)]);
        }
    }
}

/// The disk spoiled for each refusal that comes before 20: a block size that is none, a length, a number of blocks, and one
/// header or both.
pub(super) fn refused_earlier(disk: &Disk) -> [(u32, Disk); 5] {
    let shape = disk.shape();
    let spoiled = |spoil: &dyn Fn(&mut Disk)| {
        let mut other = disk.clone();
        spoil(&mut other);
        other
    };
    [
        (6, Disk { block: 1024, ..disk.clone() }),
        (1, Disk { head: Vec::new(), ..disk.clone() }),
        (2, Disk { n: 0, ..disk.clone() }),
        (11, spoiled(&|other| other.head[shape.header_in_head()] ^= 1)),
        (
            10,
            spoiled(&|other| {
                other.head[shape.header_in_head()] ^= 1;
                other.tail[shape.header_in_tail()] ^= 1;
            }),
        ),
    ]
}

pub fn resizing_does_not_look_at_alignment(calls: &Calls) {
    for shape in SHAPES {
        let mut disk = calls.formatted(shape, 10_000, DISK_GUID);
        for (size, alignment, start) in [(10, 2048, 2048), (1, 2048, 4096), (1, 1, shape.first_usable)] {
            assert_eq!(first(calls, &mut disk, size, alignment), Ok(start));
        }
        // To the next partition, at 4096 and at 2048.
        for (slot, most) in [(1, 2048), (3, 2048 - shape.first_usable)] {
            assert_eq!((calls.resize)(&mut disk, slot, most + 1), Err(25));
            for size in [1, 7, 8, 9, 2047 - shape.first_usable, most] {
                assert_eq!((calls.resize)(&mut disk, slot, size), Ok(()));
                let row = calls.row_of(&disk, slot);
                assert_eq!(row.last - row.first + 1, size);
            }
        }
    }
}

/// Block by block: the lowest multiple from which on so many blocks are free.
fn searched(calls: &Calls, disk: &Disk, size: u64, alignment: u64) -> Option<u64> {
    let shape = disk.shape();
    let mut free = vec![false; disk.n as usize];
    free[shape.first_usable as usize..=(disk.n - shape.first_usable) as usize].fill(true);
    for row in calls.table(disk) {
        free[row.first as usize..=row.last as usize].fill(false);
    }
    let has_room = |start: &usize| {
        free[*start..].iter().take_while(|free| **free).take(size as usize).count() as u64 == size
    };
    (0..free.len()).step_by(alignment as usize).find(has_room).map(|start| start as u64)
}

/// On disks that drawn adds and deletes have left with gaps.
pub fn starts_are_those_that_a_search_finds(calls: &Calls) {
    for shape in SHAPES {
        for (n, seed) in [100, 2100, 5000, 20_000].into_iter().zip(1..) {
            let mut random = Random::new(seed);
            let mut disk = calls.formatted(shape, n, DISK_GUID);
            let mut found = 0;
            for _ in 0..200 {
                let bound = random.pick(&[3, 40, n / 3]);
                let (size, alignment) = (1 + random.number_below(bound), random.pick(&ALIGNMENTS));
                let expected = searched(calls, &disk, size, alignment);
                assert_eq!(first(calls, &mut disk, size, alignment), expected.ok_or(25), "{shape:?}, N {n}");
                found += usize::from(expected.is_some());
                let used = calls.table(&disk);
                if !used.is_empty() && random.below(2) == 0 {
                    calls.delete_used(&mut disk, used[random.below(used.len())].slot);
                }
            }
            assert!((20..180).contains(&found), "{shape:?}, N {n}: {found} of 200 had room");
        }
    }
}
