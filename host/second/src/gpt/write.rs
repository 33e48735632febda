use super::copies::Copy;
use super::header::{self, Subject};
use super::place::{buffer, entries_len, Geometry, BOTH};
use crate::bytes::{part, put, stored};
use crate::rules::{EditSlip, Holds, Rules, Which};

/// A disk's two lent buffers.
pub struct Buffers<'a> {
    pub head: &'a mut [u8],
    pub tail: &'a mut [u8],
    pub geometry: Geometry<'a>,
}

impl Buffers<'_> {
    pub fn of(&mut self, which: Which) -> &mut [u8] {
        buffer(&mut *self.head, &mut *self.tail, which)
    }

    /// D13, D14: both copies with no entries, and block 0.
    pub fn format(&mut self, disk_guid: &[u8]) {
        let copy = self.fresh(disk_guid, vec![0; entries_len(self.geometry.rules)]);
        self.write_block_0();
        BOTH.into_iter().for_each(|which| self.write_copy(which, &copy));
    }

    /// D14: a copy with these entries, which nothing was before.
    pub fn fresh(&self, disk_guid: &[u8], entries: Vec<u8>) -> Copy {
        let header_tail = vec![self.geometry.rules.gpt.format_tail_byte; self.geometry.header_tail_len()];
        Copy { disk_guid: disk_guid.to_vec(), entries, header_tail }
    }

    /// Header block and entries of one copy.
    pub fn write_copy(&mut self, which: Which, copy: &Copy) {
        let geometry = self.geometry;
        let gpt = &geometry.rules.gpt;
        let told_of = if gpt.backup_header_copied { Which::Primary } else { which };
        let subject =
            Subject { geometry, which: told_of, disk_guid: &copy.disk_guid, entries: &copy.entries };
        let header = header::header(&subject);
        let bytes = self.of(which);
        put(bytes, geometry.entries_at(which), &copy.entries);
        put(bytes, geometry.header_at(which), &header);
        put(bytes, geometry.header_at(which) + gpt.header_len, &copy.header_tail);
    }

    pub fn write_block_0(&mut self) {
        put(self.head, 0, &header::block_0(self.geometry));
    }

    /// The bytes after the copy's header, to the end of its block.
    pub fn header_tail(&mut self, which: Which) -> &mut [u8] {
        let geometry = self.geometry;
        let at = geometry.header_at(which);
        let bytes = self.of(which);
        let end = (at + geometry.shape.header_tail_end).min(bytes.len());
        let start = (at + geometry.rules.gpt.header_len).min(end);
        &mut bytes[start..end]
    }

    /// D23: writes one entry and the two CRCs, in both copies.
    pub fn edit(&mut self, index: usize, entry: &[u8]) {
        let slip = self.geometry.rules.gpt.edit_slip;
        for which in BOTH {
            let skipped = buffer(EditSlip::BackupAlone, EditSlip::PrimaryAlone, which);
            if slip != Some(skipped) {
                self.edit_copy(which, index, entry);
            }
        }
        match slip {
            Some(EditSlip::HeaderTailsZeroed) => {
                BOTH.into_iter().for_each(|which| self.header_tail(which).fill(0));
            }
            Some(EditSlip::Block0Written) => self.write_block_0(),
            _ => {}
        }
    }

    fn edit_copy(&mut self, which: Which, index: usize, entry: &[u8]) {
        let Geometry { rules, shape, .. } = self.geometry;
        let (header_at, entries_at) = (self.geometry.header_at(which), self.geometry.entries_at(which));
        let slip = rules.gpt.edit_slip;
        let bytes = self.of(which);
        put(bytes, entries_at + index * rules.gpt.entry_len, entry);
        if slip != Some(EditSlip::EntriesCrcKept) {
            let crc = header::entries_crc(rules, part(bytes, entries_at, entries_len(rules)));
            put_crc(rules, bytes, header_at, |holds| matches!(holds, Holds::EntriesCrc), crc);
        }
        if slip != Some(EditSlip::HeaderCrcKept) {
            let crc = header::header_crc(rules, part(bytes, header_at, shape.block_len));
            put_crc(rules, bytes, header_at, |holds| matches!(holds, Holds::HeaderCrc), crc);
        }
    }
}

fn put_crc(rules: &Rules, bytes: &mut [u8], header_at: usize, which: impl Fn(&Holds) -> bool, crc: u32) {
    if let Some(field) = header::field_of(rules, which) {
        let stored = stored(rules.gpt.little_endian, u64::from(crc), field.len);
        put(bytes, header_at + field.at, &stored);
    }
}
