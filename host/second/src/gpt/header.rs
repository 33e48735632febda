use super::entry;
use super::place::{other, Geometry};
use crate::bytes::{part, put, stored};
use crate::crc::crc32;
use crate::rules::{Field, Holds, Rules, Which, WholeIn};

/// What a header tells of: one copy on a disk.
pub struct Subject<'a> {
    pub geometry: Geometry<'a>,
    pub which: Which,
    pub disk_guid: &'a [u8],
    pub entries: &'a [u8],
}

/// D1, D4: the bytes of the header.
pub fn header(subject: &Subject) -> Vec<u8> {
    let gpt = &subject.geometry.rules.gpt;
    let mut bytes = vec![0; gpt.header_len];
    let (crc, rest): (Vec<_>, Vec<_>) = gpt.header.iter().partition(|field| is_header_crc(field));
    for field in rest.into_iter().chain(crc) {
        let value = value(subject, field, &bytes);
        put(&mut bytes, field.at, &value);
    }
    bytes
}

/// D8: every named field of the header that begins `block` holds.
pub fn is_good(subject: &Subject, block: &[u8]) -> bool {
    let mut judged = subject.geometry.rules.gpt.header.iter().filter(|field| field.judged);
    judged.all(|field| part(block, field.at, field.len) == value(subject, field, block))
}

/// D13, l2: block 0 of a formatted disk.
pub fn block_0(geometry: Geometry) -> Vec<u8> {
    let subject = Subject { geometry, which: Which::Primary, disk_guid: &[], entries: &[] };
    let mut bytes = vec![0; geometry.shape.block_0_len];
    for field in &geometry.rules.gpt.block_0 {
        put(&mut bytes, field.at, &value(&subject, field, &[]));
    }
    bytes
}

/// Where the header has what; `None` if nowhere.
pub fn field_of(rules: &Rules, holds: impl Fn(&Holds) -> bool) -> Option<&Field> {
    rules.gpt.header.iter().find(|field| holds(&field.holds))
}

pub fn is_header_crc(field: &Field) -> bool {
    matches!(field.holds, Holds::HeaderCrc)
}

/// D4: the CRC over a header with its own field as zero.
pub fn header_crc(rules: &Rules, header: &[u8]) -> u32 {
    let mut covered = part(header, 0, rules.gpt.header_crc_len).to_vec();
    for field in rules.gpt.header.iter().filter(|field| is_header_crc(field)) {
        put(&mut covered, field.at, &vec![rules.gpt.header_crc_own_byte; field.len]);
    }
    crc32(rules, &covered)
}

/// D1: the CRC over the entries.
pub fn entries_crc(rules: &Rules, entries: &[u8]) -> u32 {
    let entries = entry::whole(rules, WholeIn::EntriesCrc, entries);
    crc32(rules, part(&entries, 0, rules.gpt.entries_crc_len))
}

/// What a field must hold; `header` is the one that has the field.
fn value(subject: &Subject, field: &Field, header: &[u8]) -> Vec<u8> {
    let Geometry { rules, shape, .. } = subject.geometry;
    let block = |place| subject.geometry.block(place);
    let own = subject.geometry.place(subject.which);
    let number = match field.holds {
        Holds::Bytes(bytes) => return bytes.to_vec(),
        Holds::DiskGuid => return subject.disk_guid.to_vec(),
        Holds::Number(number) => number,
        Holds::FirstUsable => block(shape.header_first_usable),
        Holds::LastUsable => block(shape.header_last_usable),
        Holds::OwnBlock => block(own.header),
        Holds::OtherBlock => block(subject.geometry.place(other(subject.which)).header),
        Holds::EntriesBlock => block(own.entries),
        Holds::HeaderCrc => u64::from(header_crc(rules, header)),
        Holds::EntriesCrc => u64::from(entries_crc(rules, subject.entries)),
        Holds::RecordSize => block(shape.record_blocks).wrapping_mul(shape.record_counts),
    };
    stored(rules.gpt.little_endian, number, field.len)
}
