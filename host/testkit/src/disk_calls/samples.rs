//! The samples of the rules, and their like on disks with blocks of 4096 bytes.

use super::{Calls, New, Rule, DISK_GUID};
use crate::disk::{Disk, Shape, HEADER_LEN, SHAPES};

/// An add that only room can refuse.
fn add(calls: &Calls, disk: &mut Disk, size: u64, unique: u8) -> Result<u64, u32> {
    let unique = format!("00000000-0000-0000-0000-0000000000{unique:02}");
    let (unique, name, rule) = (&unique[..], &unique[..], Rule::Present);
    let new = New { kind: "linux", unique, size, alignment: 1, attributes: 0, rule, name };
    (calls.add)(disk, &new)
}

/// Slot, first and last block of each partition, counted from the first usable block.
fn ranges(calls: &Calls, disk: &Disk) -> Vec<(u64, u64, u64)> {
    let from = disk.shape().first_usable;
    calls.table(disk).iter().map(|row| (row.slot, row.first - from, row.last - from)).collect()
}

/// Samples S1, S2, S4, S5 and S9, on disks with as many usable blocks.
pub fn samples_at_each_block_size(calls: &Calls) {
    for shape in SHAPES {
        let least = shape.least_blocks();
        assert_eq!((calls.format)(&mut shape.filled(least - 1, 7), DISK_GUID), Err(2));
        let mut smallest = calls.formatted(shape, least, DISK_GUID);
        assert_eq!([1, 2].map(|unique| add(calls, &mut smallest, 1, unique)), [Ok(1), Err(25)]);
        assert_eq!(ranges(calls, &smallest), [(1, 0, 0)]);
        let mut disk = calls.formatted(shape, least + 32, DISK_GUID);
        assert_eq!(add(calls, &mut disk, u64::MAX, 1), Err(25));
        assert_eq!(
            [(10, 1), (5, 2)].map(|(size, unique)| add(calls, &mut disk, size, unique)),
            [Ok(1), Ok(2)]
        );
        calls.delete_used(&mut disk, 1);
        assert_eq!(
            [(11, 1), (10, 3)].map(|(size, unique)| add(calls, &mut disk, size, unique)),
            [Ok(1), Ok(3)]
        );
        assert_eq!(ranges(calls, &disk), [(1, 15, 25), (2, 10, 14), (3, 0, 9)]);
        assert_eq!((calls.free)(&disk), Ok((7, 7)));
        assert_eq!([19, 18].map(|size| (calls.resize)(&mut disk, 1, size)), [Err(25), Ok(())]);
        assert_eq!((calls.free)(&disk), Ok((0, 0)));
        assert_eq!((calls.state)(&disk), Ok(1));
    }
}

/// Own block, other header's block, first and last usable block, and first block of the entries.
fn blocks_of(header: &[u8]) -> [u64; 5] {
    [24, 32, 40, 48, 72].map(|at| u64::from_le_bytes(header[at..at + 8].try_into().expect("8 bytes")))
}

/// Sample S3 and its like: blocks by the headers, and what formatting zeroes.
pub fn formatting_writes_all_of_head_and_tail(calls: &Calls) {
    let expected = |shape: Shape| match shape.block {
        512 => (100, [[1, 99, 34, 66, 2], [99, 1, 34, 66, 67]]),
        _ => (44, [[1, 43, 6, 38, 2], [43, 1, 6, 38, 39]]),
    };
    for shape in SHAPES {
        let (n, blocks) = expected(shape);
        let disk = calls.formatted(shape, n, DISK_GUID);
        let headers = [&disk.head[shape.header_in_head()..], &disk.tail[shape.header_in_tail()..]];
        assert_eq!(headers.map(blocks_of), blocks);
        for header in headers {
            assert!(header[HEADER_LEN..][..shape.header_tail_len()].iter().all(|byte| *byte == 0));
        }
        assert!(disk.head[..446].iter().all(|byte| *byte == 0));
        let last = (n - 1) as u8;
        let record = [0, 0, 2, 0, 0xEE, 0xFF, 0xFF, 0xFF, 1, 0, 0, 0, last, 0, 0, 0];
        assert_eq!(disk.head[446..462], record);
        assert_eq!(disk.head[510..512], [0x55, 0xAA]);
        assert!(disk.head[512..shape.header_in_head()].iter().all(|byte| *byte == 0));
        assert!(disk.head[shape.entries_in_head()..].iter().all(|byte| *byte == 0));
    }
}

/// Another block size than the two is 6, whatever else is wrong; the other one of the two has other lengths.
pub fn another_block_size_is_refused_first(calls: &Calls) {
    for shape in SHAPES {
        let good = calls.formatted(shape, 100, DISK_GUID);
        for block in [0, 1, 511, 513, 1024, 2048, 4095, 4097, 8192, (1 << 32) + shape.block, u64::MAX] {
            for n in [100, 0] {
                refused_by_all(calls, &Disk { block, n, ..good.clone() }, 6);
                refused_by_all(calls, &Disk { block, n, head: Vec::new(), ..good.clone() }, 6);
            }
        }
        let other = SHAPES.into_iter().find(|other| *other != shape).expect("another one");
        refused_by_all(calls, &Disk { block: other.block, ..good.clone() }, 1);
    }
}

fn refused_by_all(calls: &Calls, disk: &Disk, number: u32) {
    let mut lent = disk.clone();
    let answers = [
        (calls.format)(&mut lent, "00000000-0000-0000-0000-000000000000"),
        (calls.build)(&mut lent, 3, b"out of form"),
        (calls.state)(&lent).map(drop),
        (calls.rows)(&lent).map(drop),
        (calls.free)(&lent).map(drop),
        add(calls, &mut lent, 0, 1).map(drop),
        (calls.delete)(&mut lent, 129),
        (calls.rename)(&mut lent, 0, "a"),
        (calls.resize)(&mut lent, 1, 0),
        (calls.repair)(&mut lent).map(drop),
    ];
    assert_eq!(answers, [Err(number); 10], "blocks of {} bytes", disk.block);
    assert!(lent == *disk);
}
