use super::copies::Disk;
use super::entry::{self, Entry, NewPartition};
use super::place::Geometry;
use super::write::Buffers;
use super::{aligned, answer, attributes, leave_buffers, names, room};
use crate::bytes::{is_zero, part, put};
use crate::refuse::first_refusal;
use crate::rules::{Row, Rules, Slot, UsedIn};

/// D15, e2: adds a partition; answers its slot and first block.
pub fn gpt_add(
    rules: &Rules,
    head: &mut [u8],
    tail: &mut [u8],
    n: u64,
    block: u64,
    new: &NewPartition,
    slot: &mut u64,
    first: &mut u64,
) -> u32 {
    let disk = Disk::of(rules, head, tail, n, block);
    let used = |rule| entry::used(rules, rule, disk.entries());
    let runs = |rule| room::runs(disk.geometry, &used(rule));
    let parts = |rule| aligned::parts(disk.geometry, rule, new.alignment, &runs(rule));
    let index = free_slot(rules, &used(UsedIn::Slot));
    let refusal = first_refusal(rules, rules.gpt.add_order, |row| match row {
        Row::WrongLength => disk.holds(row) || new_lengths_wrong(rules, new),
        Row::ZeroSize => new.size < rules.gpt.size_min,
        Row::Alignment => !aligned::is_taken(rules, new.alignment),
        Row::ZeroType => is_zero(part(new.kind, 0, rules.gpt.zero_kind_len)),
        Row::UniqueTaken => unique_taken(rules, &used(UsedIn::UniqueTaken), new.unique),
        Row::BadName => entry::name_is_bad(rules, new.name),
        Row::NameTaken => names::is_taken(rules, &used(UsedIn::NameInAdd), index, new.name),
        Row::AttributeBits => {
            let before = index.map_or(&[][..], |index| disk.entry(index));
            attributes::new_offends(rules, new, &used(UsedIn::Check), before)
        }
        Row::NoSlot => free_slot(rules, &used(UsedIn::NoSlot)).is_none(),
        Row::NoRoom => room::none_fits(rules, &parts(UsedIn::NoRoom), new.size),
        _ => disk.holds(row),
    });
    let start = room::start(rules, &parts(UsedIn::Start), new.size);
    let found = index.zip(start);
    let added = found.map(|(index, start)| (index, entry::new_entry(rules, new, start, disk.entry(index))));
    finish(Buffers { head, tail, geometry: disk.geometry }, refusal, added);
    let told = found.map(|(index, start)| {
        let end = start.wrapping_add(new.size);
        [index as u64 + rules.gpt.slot_base, if rules.gpt.add_answers_first { start } else { end }]
    });
    answer(rules, refusal, told, [slot, first])
}

/// D16.
pub fn gpt_delete(rules: &Rules, head: &mut [u8], tail: &mut [u8], n: u64, block: u64, slot: u64) -> u32 {
    let disk = Disk::of(rules, head, tail, n, block);
    let target = target(rules, UsedIn::Delete, &disk, slot);
    let refusal = first_refusal(rules, rules.gpt.delete_order, |row| match row {
        Row::NoSuchSlot => no_such_slot(rules, slot),
        Row::UnusedSlot => target.is_none(),
        Row::AttributeBits => target_offends(rules, &target),
        _ => disk.holds(row),
    });
    let zeros = vec![0; rules.gpt.delete_zeroes];
    let deleted = target.map(|entry| (entry.index, with(&entry, 0, &zeros)));
    finish(Buffers { head, tail, geometry: disk.geometry }, refusal, deleted)
}

/// D17.
pub fn gpt_rename(
    rules: &Rules,
    head: &mut [u8],
    tail: &mut [u8],
    n: u64,
    block: u64,
    slot: u64,
    name: &[u16],
) -> u32 {
    let disk = Disk::of(rules, head, tail, n, block);
    let target = target(rules, UsedIn::Rename, &disk, slot);
    let refusal = first_refusal(rules, rules.gpt.rename_order, |row| match row {
        Row::WrongLength => disk.holds(row) || name.len() != rules.gpt.name_units,
        Row::NoSuchSlot => no_such_slot(rules, slot),
        Row::UnusedSlot => target.is_none(),
        Row::AttributeBits => target_offends(rules, &target),
        Row::BadName => entry::name_is_bad(rules, name),
        Row::NameTaken => {
            let used = entry::used(rules, UsedIn::NameInRename, disk.entries());
            names::is_taken(rules, &used, target.as_ref().map(|entry| entry.index), name)
        }
        _ => disk.holds(row),
    });
    let units = entry::stored_name(rules, renamed_units(rules, name));
    let renamed = target.map(|entry| (entry.index, with(&entry, rules.gpt.entry.name, &units)));
    finish(Buffers { head, tail, geometry: disk.geometry }, refusal, renamed)
}

/// D18.
pub fn gpt_resize(
    rules: &Rules,
    head: &mut [u8],
    tail: &mut [u8],
    n: u64,
    block: u64,
    slot: u64,
    size: u64,
) -> u32 {
    let disk = Disk::of(rules, head, tail, n, block);
    let used = entry::used(rules, UsedIn::ResizeRoom, disk.entries());
    let target = target(rules, UsedIn::Resize, &disk, slot);
    let refusal = first_refusal(rules, rules.gpt.resize_order, |row| match row {
        Row::NoSuchSlot => no_such_slot(rules, slot),
        Row::UnusedSlot => target.is_none(),
        Row::AttributeBits => target_offends(rules, &target),
        Row::ZeroSize => size < rules.gpt.size_min,
        Row::NoRoom => target.as_ref().is_some_and(|entry| no_room(disk.geometry, &used, entry, size)),
        _ => disk.holds(row),
    });
    let resized = target.map(|entry| (entry.index, resized(rules, &entry, size)));
    finish(Buffers { head, tail, geometry: disk.geometry }, refusal, resized)
}

/// Writes the edited entry of an accepted call.
fn finish(mut buffers: Buffers, refusal: Option<u32>, edited: Option<(usize, Vec<u8>)>) -> u32 {
    match (refusal, edited) {
        (None, Some((index, bytes))) => buffers.edit(index, &bytes),
        _ => leave_buffers(buffers.geometry.rules, &mut buffers),
    }
    refusal.unwrap_or(0)
}

/// The bytes of the entry with `new` from `at` on.
fn with(entry: &Entry, at: usize, new: &[u8]) -> Vec<u8> {
    let mut bytes = entry.bytes.clone();
    put(&mut bytes, at, new);
    bytes
}

fn new_lengths_wrong(rules: &Rules, new: &NewPartition) -> bool {
    new.kind.len() != rules.gpt.kind_len
        || new.unique.len() != rules.gpt.unique_len
        || new.name.len() != rules.gpt.name_units
}

/// R11.
pub fn unique_taken(rules: &Rules, used: &[Entry], unique: &[u8]) -> bool {
    let zero = rules.gpt.zero_unique_refused && is_zero(unique);
    let taken = rules.gpt.taken_unique_refused && used.iter().any(|entry| entry.unique == unique);
    zero || taken
}

/// D15: the index of the slot that a new partition takes.
fn free_slot(rules: &Rules, used: &[Entry]) -> Option<usize> {
    let mut unused = (0..rules.gpt.count).filter(|index| used.iter().all(|entry| entry.index != *index));
    match rules.gpt.slot {
        Slot::LowestUnused => unused.next(),
        Slot::HighestUnused => unused.next_back(),
        Slot::AfterLastUsed => unused.find(|index| used.iter().all(|entry| entry.index < *index)),
    }
}

/// R9.
fn no_such_slot(rules: &Rules, slot: u64) -> bool {
    !(rules.gpt.slot_min..=rules.gpt.slot_max).contains(&slot)
}

/// The used entry in that slot, which the call is about.
fn target(rules: &Rules, call: UsedIn, disk: &Disk, slot: u64) -> Option<Entry> {
    let index = slot.checked_sub(rules.gpt.slot_base)?;
    entry::used(rules, call, disk.entries()).into_iter().find(|entry| entry.index as u64 == index)
}

/// By a slip the row stands in the order of another edit than adding.
fn target_offends(rules: &Rules, target: &Option<Entry>) -> bool {
    target.as_ref().is_some_and(|entry| attributes::entry_offends(rules, &entry.bytes))
}

fn renamed_units<'a>(rules: &Rules, name: &'a [u16]) -> &'a [u16] {
    let units = &name[..name.len().min(rules.gpt.rename_units)];
    match units.iter().position(|unit| *unit == 0) {
        Some(end) if rules.gpt.rename_stops_at_zero => &units[..end],
        _ => units,
    }
}

/// D18: the last block of the new range, which may lie past the numbers of 64 bits.
fn resized_last(rules: &Rules, entry: &Entry, size: u64) -> u128 {
    (u128::from(entry.first) + u128::from(size)).saturating_sub(u128::from(rules.gpt.resize_last_less))
}

/// D18: a block of the new range lies past the last usable one or in another partition.
fn no_room(geometry: Geometry, used: &[Entry], resized: &Entry, size: u64) -> bool {
    let Geometry { rules, shape, .. } = geometry;
    let last = resized_last(rules, resized, size);
    if last > u128::from(geometry.block(shape.resize_last_max)) {
        return true;
    }
    let mut others = used.iter().filter(|entry| entry.index != resized.index);
    rules.gpt.resize_judges_others && others.any(|entry| entry.meets(resized.first, last as u64))
}

fn resized(rules: &Rules, entry: &Entry, size: u64) -> Vec<u8> {
    let last = resized_last(rules, entry, size) as u64;
    let mut bytes = with(entry, rules.gpt.entry.last, &entry::stored_last(rules, last));
    if rules.gpt.resize_zeroes_attributes {
        put(&mut bytes, rules.gpt.entry.attributes, &[0; 8]);
    }
    bytes
}
