use crate::refused::Detail;
use crate::{Refusal, Refused};
use std::fmt;

/// The 128 entries of a table, each of 128 bytes (rule D1).
pub(crate) const ENTRY_LEN: usize = 128;
pub(crate) const ENTRIES_LEN: usize = 128 * ENTRY_LEN;

/// The bytes of a disk's block, which decide the rest of its shape: head and tail, and which blocks are usable.
#[derive(Clone, Copy, Debug, PartialEq, Eq, Hash)]
pub enum BlockSize {
    Bytes512,
    Bytes4096,
}

impl BlockSize {
    pub const ALL: [BlockSize; 2] = [BlockSize::Bytes512, BlockSize::Bytes4096];

    /// Rule Q2: the largest number of blocks of a disk, with either size.
    pub const MOST_BLOCKS: u64 = 1 << 32;

    pub const fn bytes(self) -> u64 {
        match self {
            BlockSize::Bytes512 => 512,
            BlockSize::Bytes4096 => 4096,
        }
    }

    /// Rule Q3: block 0, the header's block and the entries.
    pub const fn head_len(self) -> usize {
        2 * self.bytes() as usize + ENTRIES_LEN
    }

    /// Rule Q3: the entries and the header's block.
    pub const fn tail_len(self) -> usize {
        ENTRIES_LEN + self.bytes() as usize
    }

    /// Rule D1: the first usable block, right behind the head; as many blocks stand from the last usable one on.
    pub const fn first_usable(self) -> u64 {
        self.head_len() as u64 / self.bytes()
    }

    /// How many blocks the tail has.
    pub const fn tail_blocks(self) -> u64 {
        self.tail_len() as u64 / self.bytes()
    }

    /// Rule Q2: the least number of blocks of a disk.
    pub const fn least_blocks(self) -> u64 {
        2 * self.first_usable()
    }

    pub const fn other(self) -> BlockSize {
        match self {
            BlockSize::Bytes512 => BlockSize::Bytes4096,
            BlockSize::Bytes4096 => BlockSize::Bytes512,
        }
    }

    /// Where the disk GUID stands in the head.
    pub(crate) const fn guid_in_head(self) -> usize {
        self.bytes() as usize + GUID_IN_HEADER
    }
}

const GUID_IN_HEADER: usize = 56;

/// Where the disk GUID stands in the tail.
pub(crate) const GUID_IN_TAIL: usize = ENTRIES_LEN + GUID_IN_HEADER;

impl fmt::Display for BlockSize {
    fn fmt(&self, f: &mut fmt::Formatter<'_>) -> fmt::Result {
        write!(f, "{}", self.bytes())
    }
}

impl TryFrom<u64> for BlockSize {
    type Error = Refused;

    fn try_from(bytes: u64) -> Result<BlockSize, Refused> {
        let found = BlockSize::ALL.into_iter().find(|block| block.bytes() == bytes);
        found.ok_or(Refused::from(Refusal::BlockSize).about(&[Detail::BlockBytes(bytes)]))
    }
}

#[cfg(test)]
mod tests {
    use super::*;
    use crate::raw;

    #[test]
    fn the_numbers_of_both_shapes() {
        let numbers = BlockSize::ALL
            .map(|b| (b.head_len(), b.tail_len(), b.first_usable(), b.tail_blocks(), b.least_blocks()));
        assert_eq!(numbers, [(17_408, 16_896, 34, 33, 68), (24_576, 20_480, 6, 5, 12)]);
    }

    #[test]
    fn each_has_the_other() {
        for block in BlockSize::ALL {
            assert_eq!(block.other().other(), block);
            assert_ne!(block.other(), block);
        }
    }

    /// What is refused here the library refuses before all else: buffers and number of blocks are wrong too.
    #[test]
    fn another_size_is_refused() {
        for block in BlockSize::ALL {
            assert_eq!(BlockSize::try_from(block.bytes()), Ok(block));
            assert_eq!(raw::gpt_read(&[], &[], 0, block.bytes(), &mut 0), 1);
        }
        for other in [0, 511, 513, 1024, 4095, u64::MAX] {
            assert_eq!(BlockSize::try_from(other).unwrap_err().number(), 6);
            assert_eq!(raw::gpt_read(&[], &[], 0, other, &mut 0), 6);
        }
    }
}
