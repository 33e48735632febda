//! The disk calls of the second implementation, under the right rules.

use second::{NewPartition, RULES};
use testkit::answered;
use testkit::disk::Disk;
use testkit::disk_calls::{Calls, New, Rule};
use testkit::listing::Partition;

const ENTRIES_LEN: usize = 16_384;
const ENTRY_LEN: usize = 128;

const CALLS: Calls = Calls {
    crc32: |bytes| second::crc32(&RULES, bytes),
    format: |Disk { head, tail, n, block }, guid| {
        answered(second::gpt_format(&RULES, head, tail, *n, *block, &stored(guid)), ())
    },
    build: |Disk { head, tail, n, block }, alignment, text| {
        answered(second::gpt_build(&RULES, head, tail, *n, *block, alignment, text), ())
    },
    state: |Disk { head, tail, n, block }| {
        let mut state = 0;
        answered(second::gpt_read(&RULES, head, tail, *n, *block, &mut state), state)
    },
    rows,
    free: |Disk { head, tail, n, block }| {
        let (mut free, mut longest) = (0, 0);
        let number = second::gpt_free(&RULES, head, tail, *n, *block, &mut free, &mut longest);
        answered(number, (free, longest))
    },
    check: |Disk { head, tail, n, block }, rule| {
        let mut slot = u64::MAX;
        answered(second::gpt_check(&RULES, head, tail, *n, *block, number(rule), &mut slot), slot)
    },
    add,
    delete: |Disk { head, tail, n, block }, slot| {
        answered(second::gpt_delete(&RULES, head, tail, *n, *block, slot), ())
    },
    rename: |Disk { head, tail, n, block }, slot, name| {
        answered(second::gpt_rename(&RULES, head, tail, *n, *block, slot, &units(name)), ())
    },
    resize: |Disk { head, tail, n, block }, slot, size| {
        answered(second::gpt_resize(&RULES, head, tail, *n, *block, slot, size), ())
    },
    repair: |Disk { head, tail, n, block }| {
        let mut state = 0;
        answered(second::gpt_repair(&RULES, head, tail, *n, *block, &mut state), state)
    },
};

testkit::disk_tests!(CALLS);

/// The used entries of the table part.
fn rows(Disk { head, tail, n, block }: &Disk) -> Result<Vec<Partition>, u32> {
    let (mut in_tail, mut offset) = (0, 0);
    answered(second::gpt_table(&RULES, head, tail, *n, *block, &mut in_tail, &mut offset), ())?;
    let buffer = if in_tail == 0 { head } else { tail };
    let entries = &buffer[offset as usize..offset as usize + ENTRIES_LEN];
    let used = entries.chunks(ENTRY_LEN).zip(1..).filter(|(entry, _)| entry[..16] != [0; 16]);
    Ok(used.map(|(entry, slot)| partition(entry, slot)).collect())
}

fn partition(entry: &[u8], slot: u64) -> Partition {
    let number = |at: usize| u64::from_le_bytes(entry[at..at + 8].try_into().unwrap());
    let units = entry[56..].chunks(2).map(|unit| u16::from_le_bytes([unit[0], unit[1]]));
    let name: Vec<u16> = units.take_while(|unit| *unit != 0).collect();
    Partition {
        slot,
        first: number(32),
        last: number(40),
        kind: guid_text(&entry[..16]),
        unique: guid_text(&entry[16..32]),
        attributes: number(48),
        name: String::from_utf16(&name).unwrap(),
    }
}

fn guid_text(guid: &[u8]) -> String {
    let mut text = [0; 36];
    assert_eq!(second::guid_write(&RULES, guid, &mut text), 0);
    String::from_utf8(text.to_vec()).unwrap()
}

/// The bytes of a type or of any GUID.
fn stored(text: &str) -> [u8; 16] {
    let mut guid = [0; 16];
    assert_eq!(second::type_read(&RULES, text.as_bytes(), &mut guid), 0);
    guid
}

fn units(name: &str) -> Vec<u16> {
    let mut units: Vec<u16> = name.encode_utf16().collect();
    units.resize(36, 0);
    units
}

fn number(rule: Rule) -> u64 {
    match rule {
        Rule::Present => 0,
        Rule::Earlier => 1,
    }
}

fn add(Disk { head, tail, n, block }: &mut Disk, new: &New) -> Result<u64, u32> {
    let New { kind, unique, size, alignment, attributes, rule, name } = *new;
    let (kind, unique, rule, name) = (&stored(kind), &stored(unique), number(rule), &units(name));
    let new = NewPartition { kind, unique, size, alignment, attributes, rule, name };
    let mut slot = 0;
    answered(second::gpt_add(&RULES, head, tail, *n, *block, &new, &mut slot, &mut 0), slot)
}
