use crate::bytes::part;
use crate::rules::{CopyPlace, Place, Rules, Shape, Which};

pub const BOTH: [Which; 2] = [Which::Primary, Which::Backup];

pub fn other(which: Which) -> Which {
    match which {
        Which::Primary => Which::Backup,
        Which::Backup => Which::Primary,
    }
}

/// Q3: the primary copy lies in the head, the backup copy in the tail.
pub fn buffer<T>(head: T, tail: T, which: Which) -> T {
    match which {
        Which::Primary => head,
        Which::Backup => tail,
    }
}

/// D1: the length of all entries.
pub fn entries_len(rules: &Rules) -> usize {
    rules.gpt.count * rules.gpt.entry_len
}

/// The rules for a disk of `n` blocks of one size.
#[derive(Clone, Copy)]
pub struct Geometry<'a> {
    pub rules: &'a Rules,
    pub shape: &'a Shape,
    pub n: u64,
}

impl<'a> Geometry<'a> {
    /// l3: of a disk with blocks of that size; `None` for another size.
    pub fn named(rules: &'a Rules, n: u64, block: u64) -> Option<Geometry<'a>> {
        let block = block & rules.gpt.block_size_mask;
        let mut shapes = rules.gpt.shapes.iter();
        let shape = shapes.find(|shape| (shape.named_min..=shape.named_max).contains(&block))?;
        Some(Geometry { rules, shape, n })
    }

    pub fn block(&self, place: Place) -> u64 {
        place.block(self.n)
    }

    /// D2.
    pub fn place(&self, which: Which) -> CopyPlace {
        buffer(self.shape.primary, self.shape.backup, which)
    }

    pub fn header_at(&self, which: Which) -> usize {
        self.position(which, self.place(which).header)
    }

    pub fn entries_at(&self, which: Which) -> usize {
        self.position(which, self.place(which).entries)
    }

    /// Q1, Q3: the byte position of a block in the buffer of that copy.
    fn position(&self, which: Which, place: Place) -> usize {
        let buffer_start = buffer(0, self.block(self.shape.tail_start), which);
        let blocks = self.block(place).saturating_sub(buffer_start);
        (blocks as usize).saturating_mul(self.shape.block_len)
    }

    /// D9: the bytes after the header that begins `block`, to the end of its block.
    pub fn header_tail<'b>(&self, block: &'b [u8]) -> &'b [u8] {
        part(block, self.rules.gpt.header_len, self.header_tail_len())
    }

    pub fn header_tail_len(&self) -> usize {
        self.shape.header_tail_end.saturating_sub(self.rules.gpt.header_len)
    }
}
