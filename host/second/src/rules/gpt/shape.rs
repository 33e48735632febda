use super::{CopyPlace, Place};

/// What the block size decides. Q1 to D21 say it of 512 bytes, l1 and l2 of 4,096 bytes.
#[derive(Clone, Copy, Debug)]
pub struct Shape {
    /// l3: the caller names the block size by these numbers.
    pub named_min: u64,
    pub named_max: u64,
    /// Q1.
    pub block_len: usize,
    /// Q2.
    pub n_min: u64,
    pub n_max: u64,
    /// Q3.
    pub head_len: usize,
    pub tail_len: usize,
    pub tail_start: Place,
    /// D1.
    pub header_first_usable: Place,
    pub header_last_usable: Place,
    /// D2.
    pub primary: CopyPlace,
    pub backup: CopyPlace,
    /// D7.
    pub entry_first_min: Place,
    pub entry_last_max: Place,
    /// D9, D14, D24: where the bytes after a header end, from the start of its block.
    pub header_tail_end: usize,
    /// D13: formatting writes so many bytes of block 0.
    pub block_0_len: usize,
    /// D13: the blocks of the record, and how many it counts for each of them.
    pub record_blocks: Place,
    pub record_counts: u64,
    /// D18.
    pub resize_last_max: Place,
    /// D21.
    pub usable_first: Place,
    pub usable_last: Place,
}

pub const SHAPES: [Shape; 2] = [
    Shape {
        named_min: 512,
        named_max: 512,
        block_len: 512,
        n_min: 68,
        n_max: 4_294_967_296,
        head_len: 17_408,
        tail_len: 16_896,
        tail_start: Place::FromEnd(33),
        header_first_usable: Place::FromStart(34),
        header_last_usable: Place::FromEnd(34),
        primary: CopyPlace { header: Place::FromStart(1), entries: Place::FromStart(2) },
        backup: CopyPlace { header: Place::FromEnd(1), entries: Place::FromEnd(33) },
        entry_first_min: Place::FromStart(34),
        entry_last_max: Place::FromEnd(34),
        header_tail_end: 512,
        block_0_len: 512,
        record_blocks: Place::FromEnd(1),
        record_counts: 1,
        resize_last_max: Place::FromEnd(34),
        usable_first: Place::FromStart(34),
        usable_last: Place::FromEnd(34),
    },
    Shape {
        named_min: 4096,
        named_max: 4096,
        block_len: 4096,
        n_min: 12,
        n_max: 4_294_967_296,
        head_len: 24_576,
        tail_len: 20_480,
        tail_start: Place::FromEnd(5),
        header_first_usable: Place::FromStart(6),
        header_last_usable: Place::FromEnd(6),
        primary: CopyPlace { header: Place::FromStart(1), entries: Place::FromStart(2) },
        backup: CopyPlace { header: Place::FromEnd(1), entries: Place::FromEnd(5) },
        entry_first_min: Place::FromStart(6),
        entry_last_max: Place::FromEnd(6),
        header_tail_end: 4096,
        block_0_len: 4096,
        record_blocks: Place::FromEnd(1),
        record_counts: 1,
        resize_last_max: Place::FromEnd(6),
        usable_first: Place::FromStart(6),
        usable_last: Place::FromEnd(6),
    },
];
