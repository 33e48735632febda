//! What a layout string says: b1 to b6.

use super::number::number;
use crate::bytes::is_zero;
use crate::guid::{guid_read, type_read};
use crate::rules::{Blanks, GuidOf, Key, Rules, StringRules};

const GUID_LEN: usize = 16;
const VALUE_SIGN: u8 = b'=';

/// A partition as the text has it; start and size are in bytes.
pub struct Partition {
    pub name: Vec<u16>,
    pub size: u64,
    /// b7: whether its size is 0.
    pub is_size_0: bool,
    pub unique: Vec<u8>,
    pub start: Option<u64>,
    pub kind: Vec<u8>,
    pub attributes: u64,
}

/// `None` stands for what is out of form.
pub struct Layout {
    pub disk_guid: Option<Vec<u8>>,
    pub partitions: Vec<Option<Partition>>,
    /// Whether a semicolon ends the text.
    pub has_last_sign: bool,
}

impl Layout {
    /// b6: no breach in the whole text.
    pub fn is_in_form(&self, rules: &StringRules) -> bool {
        self.beginning_in_form(rules) && self.partitions.iter().all(Option::is_some)
    }

    /// No breach but in partitions.
    pub fn beginning_in_form(&self, rules: &StringRules) -> bool {
        let counts = rules.partitions_min..=rules.partitions_max;
        self.disk_guid.is_some() && counts.contains(&self.partitions.len())
    }
}

/// b1, b4.
pub fn layout(rules: &Rules, text: &[u8]) -> Layout {
    let strings = &rules.gpt.strings;
    let short = text.len() <= strings.text_max;
    let text = without_blanks(strings, text);
    let mut parts: Vec<&[u8]> = text.split(|byte| *byte == strings.partition_sign).collect();
    let disk_guid = take_disk_guid(rules, &mut parts).filter(|_| short);
    let has_last_sign = parts.last().is_some_and(|part| part.is_empty());
    for _ in 0..strings.last_signs_max {
        parts.pop_if(|part| part.is_empty());
    }
    if strings.empty_partitions_taken {
        parts.retain(|part| !part.is_empty());
    }
    let disk_guid = disk_guid.filter(|_| has_last_sign || !strings.last_sign_demanded);
    let partitions = parts.into_iter().map(|part| partition(rules, part)).collect();
    Layout { disk_guid, partitions, has_last_sign }
}

/// b4: "No blanks stand in the text"; by a slip some are passed over.
fn without_blanks(rules: &StringRules, text: &[u8]) -> Vec<u8> {
    let signs = [rules.partition_sign, rules.field_sign, VALUE_SIGN];
    let behind = |at: usize, blanks: &[u8]| {
        let before = text[..at].iter().rev().find(|byte| !blanks.contains(byte));
        before.is_none_or(|byte| signs.contains(byte))
    };
    let at_end = |at: usize, blanks: &[u8]| text[at..].iter().all(|byte| blanks.contains(byte));
    let is_passed = |at: usize| match rules.blanks {
        Blanks::None => false,
        Blanks::AtEnd(blanks) => blanks.contains(&text[at]) && at_end(at, blanks),
        Blanks::BehindSigns(blanks) => blanks.contains(&text[at]) && behind(at, blanks),
        Blanks::Anywhere(blanks) => blanks.contains(&text[at]),
    };
    (0..text.len()).filter(|at| !is_passed(*at)).map(|at| text[at]).collect()
}

/// b1: "uuid_disk=" first.
fn take_disk_guid(rules: &Rules, parts: &mut Vec<&[u8]>) -> Option<Vec<u8>> {
    let strings = &rules.gpt.strings;
    let is_disk = |part: &&[u8]| is_key(strings, strings.disk_key, key_and_value(part).0);
    let at = if strings.disk_guid_first { 0 } else { parts.iter().position(is_disk)? };
    let part = parts.remove(at);
    let (_, value) = Some(key_and_value(part)).filter(|_| is_disk(&part))?;
    guid(rules, GuidOf::Disk, value?)
}

/// b5: the first = parts key and value.
fn key_and_value(field: &[u8]) -> (&[u8], Option<&[u8]>) {
    match field.iter().position(|byte| *byte == VALUE_SIGN) {
        Some(at) => (&field[..at], Some(&field[at + 1..])),
        None => (field, None),
    }
}

fn is_key(rules: &StringRules, key: &[u8], word: &[u8]) -> bool {
    word == key || rules.keys_in_any_case && word.eq_ignore_ascii_case(key)
}

/// b2.
fn partition(rules: &Rules, part: &[u8]) -> Option<Partition> {
    let strings = &rules.gpt.strings;
    let fields = fields(strings, part)?;
    let value = |key: Key| fields.iter().rev().find(|field| field.0 == key).map(|field| field.1);
    let no_name = || Some(vec![0; rules.gpt.name_units]);
    let no_guid = || Some(vec![0; GUID_LEN]);
    let number = |text| number(&strings.numbers, text);
    let size_text = value(Key::Size).unwrap_or(b"0");
    let size = number(size_text)?;
    Some(Partition {
        name: value(Key::Name).map_or_else(no_name, |text| name(rules, text))?,
        size,
        is_size_0: if strings.numbers.zero_by_value { size == 0 } else { size_text == b"0" },
        unique: value(Key::Uuid).map_or_else(no_guid, |text| guid(rules, GuidOf::Unique, text))?,
        start: value(Key::Start).map(|text| number(text).ok_or(())).transpose().ok()?,
        kind: kind(rules, value(Key::Type))?,
        attributes: strings.attributes[usize::from(value(Key::Bootable).is_some())],
    })
}

/// b2, b4: the fields, all that must be there among them, in any order, each once.
fn fields<'a>(rules: &StringRules, part: &'a [u8]) -> Option<Vec<(Key, &'a [u8])>> {
    let mut fields = Vec::new();
    for field in part.split(|byte| *byte == rules.field_sign) {
        match read_field(rules, field) {
            Some(field) => fields.push(field),
            None if is_passed_over(rules, field) => {}
            None => return None,
        }
    }
    let places = |key: Key| (0..fields.len()).filter(|place| fields[*place].0 == key).collect::<Vec<_>>();
    let once = |(key, _): &(Key, &[u8])| places(*key).len() <= 1 || rules.may_repeat == Some(*key);
    let present = |key: &Key| !places(*key).is_empty();
    let in_order = |(one, other): (Key, Key)| match (places(one).last(), places(other).first()) {
        (Some(place), Some(behind)) => place < behind,
        _ => true,
    };
    let in_form = fields.iter().all(once)
        && rules.required.iter().all(present)
        && rules.demanded_order.is_none_or(in_order);
    in_form.then_some(fields)
}

/// b2: a field's key and value; `bootable` has none.
fn read_field<'a>(rules: &StringRules, field: &'a [u8]) -> Option<(Key, &'a [u8])> {
    let (word, value) = key_and_value(field);
    let (key, _) = rules.keys.iter().find(|(_, key)| is_key(rules, key, word))?;
    match (key, value) {
        (Key::Bootable, None) => Some((*key, b"")),
        (Key::Bootable, Some(value)) => rules.bootable_may_have_value.then_some((*key, value)),
        (_, value) => value.map(|value| (*key, value)),
    }
}

/// By a slip, a field that is none of a partition's.
fn is_passed_over(rules: &StringRules, field: &[u8]) -> bool {
    let (word, _) = key_and_value(field);
    let is_known = rules.keys.iter().any(|(_, key)| is_key(rules, key, word));
    let is_disk = is_key(rules, rules.disk_key, word);
    field.is_empty() && rules.empty_fields_taken
        || is_disk && rules.disk_key_as_field
        || !is_known && !is_disk && !field.is_empty() && rules.unknown_fields_taken
}

/// b5.
fn name(rules: &Rules, text: &[u8]) -> Option<Vec<u16>> {
    let strings = &rules.gpt.strings;
    let bytes = strings.name_byte_min..=strings.name_byte_max;
    let legal = |byte: &u8| bytes.contains(byte) && !strings.name_without.contains(byte);
    let lengths = strings.name_min..=strings.name_max;
    if !lengths.contains(&text.len()) || !text.iter().all(legal) {
        return None;
    }
    let pair = |pair: &[u8]| u16::from(pair[0]) | u16::from(pair.get(1).copied().unwrap_or(0)) << 8;
    let mut units: Vec<u16> = match strings.name_bytes_packed {
        true => text.chunks(2).map(pair).collect(),
        false => text.iter().map(|byte| u16::from(*byte)).collect(),
    };
    units.resize(rules.gpt.name_units, 0);
    Some(units)
}

/// b2: "type (GUID or short name, else data)".
fn kind(rules: &Rules, text: Option<&[u8]>) -> Option<Vec<u8>> {
    let strings = &rules.gpt.strings;
    let mut no_type = vec![0; GUID_LEN];
    type_read(rules, strings.no_type, &mut no_type);
    let Some(text) = text else { return Some(no_type) };
    let other = strings.other_types.iter().find(|(name, _)| *name == text);
    let found = guid(rules, GuidOf::Type, other.map_or(text, |(_, guid)| guid));
    found.or_else(|| strings.bad_type_is_no_type.then_some(no_type))
}

/// b6: the stored bytes of a GUID that is none of the bad ones.
fn guid(rules: &Rules, of: GuidOf, text: &[u8]) -> Option<Vec<u8>> {
    let strings = &rules.gpt.strings;
    let mut stored = vec![0; GUID_LEN];
    let by_text = strings.guid_texts_as.contains(&of) && guid_read(rules, text, &mut stored) == 0;
    let by_name = strings.short_names_as.contains(&of)
        && guid_read(rules, text, &mut stored) != 0
        && type_read(rules, text, &mut stored) == 0;
    let bad = is_zero(&stored) && strings.zero_guid_bad == Some(of);
    (by_text || by_name).then_some(stored).filter(|_| !bad)
}
