//! Attribute bits that a rule wants zero.

use super::copies::Disk;
use super::entry::{self, Entry, NewPartition};
use super::place::BOTH;
use crate::bytes::{number, part};
use crate::rules::{AddJudges, BitRules, Bits, Checked, Offender, Rules, UsedIn, Which};

const NUMBER_LEN: usize = 8;
const BITS: u32 = 64;

/// k2: whether attributes offend the rule that the number names.
fn offend(rules: &BitRules, rule: u64, attributes: u64) -> bool {
    let is_present = rules.named_present.contains(&(rule & rules.named_bits));
    let zero = if is_present { rules.present } else { rules.earlier };
    are_set(rules, zero, attributes)
}

/// k1: whether bits are set that must be zero, one by one.
fn are_set(rules: &BitRules, Bits { first, last }: Bits, attributes: u64) -> bool {
    let place = |bit: u32| if rules.from_highest { BITS - 1 - bit } else { bit };
    let set = (first..=last).filter(|bit| (attributes >> place(*bit)) % 2 == 1);
    set.count() >= rules.offending
}

fn attributes_at(rules: &Rules, at: usize, entry: &[u8]) -> u64 {
    number(rules.gpt.little_endian, part(entry, at, NUMBER_LEN))
}

/// k1, k6: whether the new partition offends the rule that the caller names; `before` is what its slot has.
pub fn new_offends(rules: &Rules, new: &NewPartition, used: &[Entry], before: &[u8]) -> bool {
    let attributes = &rules.gpt.attributes;
    let offend = |bits| offend(&attributes.in_add, new.rule, bits);
    let stored = |entry: &[u8]| offend(attributes_at(rules, rules.gpt.entry.attributes, entry));
    let besides = match attributes.add_judges {
        AddJudges::Given => false,
        AddJudges::TableToo => used.iter().any(|entry| stored(&entry.bytes)),
        AddJudges::SlotToo => stored(before),
    };
    offend(new.attributes) || besides
}

/// Whether an entry offends the present rule; by a slip, reading or an edit of the entry asks it.
pub fn entry_offends(rules: &Rules, entry: &[u8]) -> bool {
    let bits = &rules.gpt.attributes.in_check;
    are_set(bits, bits.present, attributes_at(rules, rules.gpt.entry.attributes, entry))
}

/// k3: the indexes of the used slots that offend the rule, in the copy that reading uses.
pub fn offenders(disk: &Disk, rule: u64) -> Vec<usize> {
    let rules = disk.geometry.rules;
    let attributes = &rules.gpt.attributes;
    let slots = attributes.slots.at..attributes.slots.at + attributes.slots.len;
    let mut offenders = Vec::new();
    for entries in checked(disk) {
        for entry in entry::used(rules, UsedIn::Check, entries) {
            let bits = attributes_at(rules, attributes.check_reads_at, &entry.bytes);
            if slots.contains(&entry.index) && offend(&attributes.in_check, rule, bits) {
                offenders.push(entry.index);
            }
        }
    }
    offenders.sort();
    offenders
}

/// The entries that a check goes by.
fn checked<'a>(disk: &'a Disk<'_>) -> Vec<&'a [u8]> {
    let of = |which| disk.copy(which).map(|copy| &copy.entries[..]);
    match disk.geometry.rules.gpt.attributes.checked {
        Checked::Used => vec![disk.entries()],
        Checked::Backup => vec![of(Which::Backup).unwrap_or(disk.entries())],
        Checked::Either => BOTH.into_iter().filter_map(of).collect(),
    }
}

/// k3: what a check answers.
pub fn answer(rules: &Rules, offenders: &[usize]) -> Option<u64> {
    let attributes = &rules.gpt.attributes;
    let slot = |index: &usize| *index as u64 + attributes.first_slot;
    let found = match attributes.answers {
        Offender::First => offenders.first().map(slot),
        Offender::Last => offenders.last().map(slot),
        Offender::Count => offenders.first().map(|_| offenders.len() as u64),
        Offender::Whether => offenders.first().map(|_| 1),
    };
    found.or(attributes.none_answers)
}
