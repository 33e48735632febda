use super::place::Geometry;
use super::{attributes, names};
use crate::bytes::{is_zero, number, part, put, stored};
use crate::rules::{Rules, Unjudged, UsedIn, WholeIn};
use std::borrow::Cow;

const GUID_LEN: usize = 16;
const NUMBER_LEN: usize = 8;

/// A used entry; `last` is the partition's last block.
pub struct Entry {
    pub index: usize,
    pub unique: Vec<u8>,
    pub first: u64,
    pub last: u64,
    pub bytes: Vec<u8>,
}

impl Entry {
    /// D7, D21: whether a block of `first` to `last` lies in the partition.
    pub fn meets(&self, first: u64, last: u64) -> bool {
        self.first <= last && first <= self.last
    }

    /// The bytes of its name.
    pub fn name(&self, rules: &Rules) -> &[u8] {
        part(&self.bytes, rules.gpt.entry.name, 2 * rules.gpt.name_units)
    }
}

/// D5, D6, f2: the entries that a rule about used ones is about.
pub fn used(rules: &Rules, rule: UsedIn, entries: &[u8]) -> Vec<Entry> {
    let slots = entries.chunks(rules.gpt.entry_len).enumerate();
    let stale_too = rules.gpt.unused.stale_used_in == Some(rule);
    slots
        .filter(|(_, bytes)| is_used(rules, bytes) || stale_too && !is_zero(bytes))
        .map(|(index, bytes)| entry(rules, index, bytes))
        .collect()
}

/// D6, f1.
fn is_used(rules: &Rules, bytes: &[u8]) -> bool {
    let by = rules.gpt.unused.by;
    !is_zero(part(bytes, by.at, by.len))
}

/// D1, D10, D24, f3: all bytes of the entries.
pub fn whole<'a>(rules: &Rules, rule: WholeIn, entries: &'a [u8]) -> Cow<'a, [u8]> {
    let mut whole = Cow::Borrowed(entries);
    if rules.gpt.unused.stale_zero_in == Some(rule) {
        let slots = whole.to_mut().chunks_mut(rules.gpt.entry_len);
        slots.filter(|bytes| !is_used(rules, bytes)).for_each(|bytes| bytes.fill(0));
    }
    whole
}

/// The used entry that has these bytes.
pub fn entry(rules: &Rules, index: usize, bytes: &[u8]) -> Entry {
    let at = rules.gpt.entry;
    let number = |at| number(rules.gpt.little_endian, part(bytes, at, NUMBER_LEN));
    Entry {
        index,
        unique: part(bytes, at.unique, GUID_LEN).to_vec(),
        first: number(at.first),
        last: number(at.last).saturating_sub(rules.gpt.last_past),
        bytes: bytes.to_vec(),
    }
}

/// The bytes that hold `block` as a last block.
pub fn stored_last(rules: &Rules, block: u64) -> Vec<u8> {
    stored(rules.gpt.little_endian, block.wrapping_add(rules.gpt.last_past), NUMBER_LEN)
}

/// The bytes of units of a name.
pub fn stored_name(rules: &Rules, units: &[u16]) -> Vec<u8> {
    units.iter().flat_map(|unit| stored(rules.gpt.little_endian, u64::from(*unit), 2)).collect()
}

/// What the caller gives for a new partition: type, unique GUID, size and alignment in blocks, attributes with the number of
/// the rule that they are judged by, name.
#[derive(Clone, Copy, Debug)]
pub struct NewPartition<'a> {
    pub kind: &'a [u8],
    pub unique: &'a [u8],
    pub size: u64,
    pub alignment: u64,
    pub attributes: u64,
    pub rule: u64,
    pub name: &'a [u16],
}

/// D5, D15, f4: the entry of a new partition from block `first` on, in place of the bytes `before`.
pub fn new_entry(rules: &Rules, new: &NewPartition, first: u64, before: &[u8]) -> Vec<u8> {
    let at = rules.gpt.entry;
    let number = |number| stored(rules.gpt.little_endian, number, NUMBER_LEN);
    let mut bytes = vec![0; rules.gpt.entry_len];
    put(&mut bytes, at.kind, new.kind);
    put(&mut bytes, at.unique, new.unique);
    put(&mut bytes, at.first, &number(first));
    put(&mut bytes, at.last, &stored_last(rules, first.wrapping_add(new.size).wrapping_sub(1)));
    put(&mut bytes, at.attributes, &number(new.attributes));
    put(&mut bytes, at.name, &stored_name(rules, new.name));
    let kept = rules.gpt.unused.add_keeps;
    let both = bytes.iter_mut().zip(before).skip(kept.at).take(kept.len);
    both.filter(|(byte, _)| **byte == 0).for_each(|(byte, before)| *byte = *before);
    bytes
}

/// D7: every rule of entries holds.
pub fn are_good(geometry: Geometry, entries: &[u8]) -> bool {
    let gpt = &geometry.rules.gpt;
    let zero_unique = |entry: &Entry| gpt.zero_unique_bad && is_zero(&entry.unique);
    let equal = |one: &Entry, other: &Entry| gpt.uniques_differ && one.unique == other.unique;
    let meet = |one: &Entry, other: &Entry| gpt.ranges_disjoint && one.meets(other.first, other.last);
    let used = |rule| used(geometry.rules, rule, entries);
    !used(UsedIn::ZeroUnique).iter().any(zero_unique)
        && used(UsedIn::Range)
            .iter()
            .all(|entry| range_good(geometry, entry) && !also_bad(geometry.rules, entry))
        && !any_two(&used(UsedIn::EqualUniques), equal)
        && (gpt.names.doubles_good || !names::has_doubles(geometry.rules, &used(UsedIn::EqualUniques)))
        && !any_two(&used(UsedIn::SharedBlocks), meet)
}

fn range_good(geometry: Geometry, entry: &Entry) -> bool {
    let Geometry { rules, shape, .. } = geometry;
    let in_order = !rules.gpt.first_at_most_last || entry.first <= entry.last;
    let usable = geometry.block(shape.entry_first_min) <= entry.first
        && entry.last <= geometry.block(shape.entry_last_max);
    in_order && usable
}

pub fn any_two(entries: &[Entry], related: impl Fn(&Entry, &Entry) -> bool) -> bool {
    (1..entries.len()).any(|k| entries[..k].iter().any(|entry| related(entry, &entries[k])))
}

/// D9: by a slip, names or attributes are judged.
fn also_bad(rules: &Rules, entry: &Entry) -> bool {
    let at = rules.gpt.entry;
    match rules.gpt.also_judged {
        Some(Unjudged::Names) => name_is_bad(rules, &units(rules, entry.name(rules))),
        Some(Unjudged::Attributes) => !is_zero(part(&entry.bytes, at.attributes, NUMBER_LEN)),
        Some(Unjudged::AttributeBits) => attributes::entry_offends(rules, &entry.bytes),
        _ => false,
    }
}

fn units(rules: &Rules, name: &[u8]) -> Vec<u16> {
    name.chunks(2).map(|unit| number(rules.gpt.little_endian, unit) as u16).collect()
}

/// R12: a nonzero unit after a zero one.
pub fn name_is_bad(rules: &Rules, units: &[u16]) -> bool {
    let zero = |unit: &&u16| **unit & rules.gpt.name_unit_mask == 0;
    let judged = &units[..units.len().min(rules.gpt.name_judged_units)];
    judged.iter().skip_while(|unit| !zero(unit)).any(|unit| !zero(&unit))
}
