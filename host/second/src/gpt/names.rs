//! Names that no two partitions carry.

use super::entry::{self, Entry};
use crate::bytes::{is_zero, part};
use crate::rules::{NameSlip, Rules};
use NameSlip::*;

/// a1, a2: whether another used slot carries the name that the slot at index `own` is to get.
pub fn is_taken(rules: &Rules, used: &[Entry], own: Option<usize>, name: &[u16]) -> bool {
    let name = entry::stored_name(rules, name);
    let carriers = used.iter().filter(|entry| is_same(rules, &name, entry.name(rules)));
    let carriers: Vec<usize> = carriers.map(|entry| entry.index).collect();
    match rules.gpt.names.slip {
        Some(OfDoubles) if has_doubles(rules, used) => true,
        Some(OwnName) if own.is_some_and(|own| carriers.contains(&own)) => false,
        _ => !may_repeat(rules, &name) && carriers.iter().any(|index| counts(rules, *index, own)),
    }
}

/// a3: whether two of the entries carry a name that may not repeat.
pub fn has_doubles(rules: &Rules, used: &[Entry]) -> bool {
    entry::any_two(used, |one, other| {
        let [name, other] = [one, other].map(|entry| entry.name(rules));
        !may_repeat(rules, name) && is_same(rules, name, other)
    })
}

/// a2.
fn may_repeat(rules: &Rules, name: &[u8]) -> bool {
    let empty_by = rules.gpt.names.empty_by;
    rules.gpt.names.empty_repeats && is_zero(part(name, empty_by.at, empty_by.len))
}

/// a1: "another used slot".
fn counts(rules: &Rules, index: usize, own: Option<usize>) -> bool {
    let names = &rules.gpt.names;
    let in_range = (names.slots.at..names.slots.at + names.slots.len).contains(&index);
    let side = match (names.slip, own) {
        (Some(SlotsBefore), Some(own)) => index < own,
        (Some(SlotsBehind), Some(own)) => index > own,
        _ => true,
    };
    in_range && side && (names.own_counts || Some(index) != own)
}

/// a1: "comparing all 72 bytes".
fn is_same(rules: &Rules, name: &[u8], carried: &[u8]) -> bool {
    let compared = rules.gpt.names.compared;
    let [name, carried] = [name, carried].map(|name| part(name, compared.at, compared.len));
    match rules.gpt.names.slip {
        Some(UpToZero) => text(name) == text(carried),
        Some(WithoutCase) => name.eq_ignore_ascii_case(carried),
        Some(LowBytes) => name.iter().step_by(2).eq(carried.iter().step_by(2)),
        Some(HighBytes) => name.iter().skip(1).step_by(2).eq(carried.iter().skip(1).step_by(2)),
        Some(BeginsAnother) => carried.starts_with(text(name)),
        Some(AnotherBegins) => name.starts_with(text(carried)) && !is_zero(carried),
        _ => name == carried,
    }
}

/// The units before the first zero one.
fn text(name: &[u8]) -> &[u8] {
    let end = name.chunks(2).position(is_zero).map_or(name.len(), |unit| 2 * unit);
    &name[..end]
}
