//! The calls that write a disk: whole tables, edits and the repair.

use crate::disk::named_state;
use crate::raw;
use crate::refused::{Detail, Refused};
use crate::{AttributeRule, Disk, Guid, Name, State};

/// Where an accepted add put the partition.
#[derive(Clone, Copy, Debug, PartialEq, Eq)]
pub struct Placed {
    pub slot: u64,
    pub first: u64,
}

/// Rule D15: what a new partition is given.
#[derive(Clone, Copy, Debug, PartialEq, Eq)]
pub struct NewPartition {
    pub kind: Guid,
    pub unique: Guid,
    /// In blocks.
    pub size: u64,
    /// In blocks, one of `ALIGNMENTS`: the partition starts at a block whose number is a multiple of it.
    pub alignment: u64,
    pub attributes: u64,
    /// Which of the attributes' bits must be zero.
    pub rule: AttributeRule,
    pub name: Name,
}

/// Rule e1: the alignments that an add takes, in blocks.
pub const ALIGNMENTS: [u64; 3] = [1, 8, 2048];

impl Disk<'_> {
    /// Writes an empty table, in both copies, and block 0 (rule D13).
    pub fn format(&mut self, guid: Guid) -> Result<(), Refused> {
        let answer = raw::gpt_format(self.head, self.tail, self.n, self.block.bytes(), &guid.0);
        self.accepted(answer, &[])
    }

    /// Writes the table that a layout string describes, in both copies, and block 0, whatever stood there (rule b1).
    /// Partitions without a start go to multiples of the alignment, as an add's.
    pub fn build(&mut self, alignment: u64, text: &[u8]) -> Result<(), Refused> {
        let answer = raw::gpt_build(self.head, self.tail, self.n, self.block.bytes(), alignment, text);
        self.accepted(answer, &[Detail::LayoutString(text.len()), Detail::Alignment(alignment)])
    }

    /// Adds a partition in the lowest unused slot, from the lowest multiple of its alignment that leaves it room.
    pub fn add(&mut self, new: &NewPartition) -> Result<Placed, Refused> {
        let lent = raw::NewPartition {
            kind: &new.kind.0,
            unique: &new.unique.0,
            size: new.size,
            alignment: new.alignment,
            attributes: new.attributes,
            rule: new.rule.number(),
            name: &new.name.0,
        };
        let (mut slot, mut first) = (0, 0);
        let answer =
            raw::gpt_add(self.head, self.tail, self.n, self.block.bytes(), &lent, &mut slot, &mut first);
        let details = [
            Detail::NewSize(new.size, new.alignment),
            Detail::Alignment(new.alignment),
            Detail::Name(new.name),
            Detail::Attributes(new.attributes, new.rule),
        ];
        self.accepted(answer, &details)?;
        Ok(Placed { slot, first })
    }

    pub fn delete(&mut self, slot: u64) -> Result<(), Refused> {
        let answer = raw::gpt_delete(self.head, self.tail, self.n, self.block.bytes(), slot);
        self.accepted(answer, &[Detail::Slot(slot)])
    }

    /// Sets the last block for a partition of `size` blocks; its first block stays.
    pub fn resize(&mut self, slot: u64, size: u64) -> Result<(), Refused> {
        let answer = raw::gpt_resize(self.head, self.tail, self.n, self.block.bytes(), slot, size);
        self.accepted(answer, &[Detail::Slot(slot), Detail::SlotSize(slot, size)])
    }

    /// Gives a partition a name that no other one has, or the empty one (rules a1, a2).
    pub fn rename(&mut self, slot: u64, name: &Name) -> Result<(), Refused> {
        let answer = raw::gpt_rename(self.head, self.tail, self.n, self.block.bytes(), slot, &name.0);
        self.accepted(answer, &[Detail::Slot(slot), Detail::Name(*name)])
    }

    /// Makes both copies good and the same; answers the state found (rule D24).
    pub fn repair(&mut self) -> Result<State, Refused> {
        let mut state = 0;
        let answer = raw::gpt_repair(self.head, self.tail, self.n, self.block.bytes(), &mut state);
        self.accepted(answer, &[])?;
        Ok(named_state(state))
    }
}

#[cfg(test)]
mod tests {
    use super::*;
    use crate::BlockSize;

    const DISK: &str = "E0B7CB2E-CC98-41B5-ACD4-3A6A5F7B7AD8";
    const BOOT: &str = "6B4D1D5C-8E7B-4B0D-9C43-1C2D3E4F5A6B";
    const ROOT: &str = "0A1B2C3D-4E5F-4061-8273-8495A6B7C8D9";

    /// The answer for a string, and the slots, blocks, attributes and names that then stand.
    fn built(
        block: BlockSize,
        alignment: u64,
        text: &str,
    ) -> Result<Vec<(u64, u64, u64, u64, String)>, String> {
        let (mut head, mut tail) = (vec![0xA5; block.head_len()], vec![0xA5; block.tail_len()]);
        let mut disk = Disk { head: &mut head, tail: &mut tail, n: 100, block };
        disk.build(alignment, text.as_bytes()).map_err(|refused| refused.to_string())?;
        assert_eq!(disk.state(), Ok(State::Same));
        assert_eq!(disk.guid(), Ok(DISK.parse().unwrap()));
        let told = |p: &crate::Partition| (p.slot, p.first, p.last, p.attributes, p.name.to_text());
        Ok(disk.partitions().unwrap().iter().map(told).collect())
    }

    #[test]
    fn a_layout_string_becomes_a_table() {
        let text = |start: u64, size: u64| {
            format!("uuid_disk={DISK};start={start},name=boot,size={size},uuid={BOOT},bootable;name=root,uuid={ROOT},size=0;")
        };
        for block in BlockSize::ALL {
            let (b, first, last) = (block.bytes(), block.first_usable(), 100 - block.first_usable());
            let two = vec![(1, 50, 51, 4, "boot".into()), (2, first, 49, 0, "root".into())];
            assert_eq!(built(block, 1, &text(50 * b, 2 * b)), Ok(two));
            let after = vec![(1, first, first, 4, "boot".into()), (2, first + 1, last, 0, "root".into())];
            assert_eq!(built(block, 1, &text(first * b, b)), Ok(after));
        }
    }

    #[test]
    fn a_refused_string_tells_what_the_number_says() {
        let refused = |alignment, text: &str| built(BlockSize::Bytes512, alignment, text).unwrap_err();
        let text = format!("uuid_disk={DISK};name=boot,size=512,uuid={BOOT}");
        assert_eq!(refused(1, &text[1..]), "70: the layout string is out of form");
        let long = text.replace("=512", &format!("={:08000}", 512)) + &"0".repeat(8192);
        assert_eq!(refused(1, &long), "70: the layout string is out of form: more than 8192 bytes");
        assert_eq!(refused(3, &text), "27: the alignment is not 1, 8 or 2048 blocks: 3 blocks");
        let uneven = text.replace("512", "511");
        assert_eq!(refused(3, &uneven), "71: a start or a size is not a whole number of blocks");
        let low = text.clone() + ",start=16896";
        assert_eq!(refused(3, &low), "72: the start block is taken or not usable");
    }
}
