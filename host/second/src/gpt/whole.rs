use super::copies::{Copy, Disk, State};
use super::write::Buffers;
use super::{answer, disk_refusal, entry, leave_buffers, place};
use crate::bytes::{is_zero, part};
use crate::refuse::first_refusal;
use crate::rules::{Row, Rules, Tail, Which, WholeIn};

/// D13: writes both copies with no entries, and block 0.
pub fn gpt_format(rules: &Rules, head: &mut [u8], tail: &mut [u8], n: u64, block: u64, guid: &[u8]) -> u32 {
    let disk = Disk::of(rules, head, tail, n, block);
    let refusal = first_refusal(rules, rules.gpt.format_order, |row| match row {
        Row::WrongLength => disk.holds(row) || guid.len() != rules.gpt.disk_guid_len,
        Row::ZeroDiskGuid => is_zero(part(guid, 0, rules.gpt.zero_disk_guid_len)),
        _ => disk.holds(row),
    });
    let mut buffers = Buffers { head, tail, geometry: disk.geometry };
    match refusal {
        None => buffers.format(guid),
        Some(_) => leave_buffers(rules, &mut buffers),
    }
    refusal.unwrap_or(0)
}

/// D24: makes both copies the same; answers the state found.
pub fn gpt_repair(
    rules: &Rules,
    head: &mut [u8],
    tail: &mut [u8],
    n: u64,
    block: u64,
    state: &mut u64,
) -> u32 {
    let disk = Disk::of(rules, head, tail, n, block);
    let refusal = disk_refusal(rules, rules.gpt.repair_order, &disk);
    let mut buffers = Buffers { head, tail, geometry: disk.geometry };
    match (refusal, disk.state()) {
        (None, Some(State::Same)) if !rules.gpt.repair_rewrites_same => {}
        (None, Some(found)) => write_other_copy(&disk, found, &mut buffers),
        _ => leave_buffers(rules, &mut buffers),
    }
    let told = if rules.gpt.repair_answers_found { disk.state() } else { Some(State::Same) };
    answer(rules, refusal, told.map(|state| [state.number(rules)]), [state])
}

/// D24: writes the copy that is not good, or not used, from the other.
fn write_other_copy(disk: &Disk, state: State, buffers: &mut Buffers) {
    let rules = disk.geometry.rules;
    let from = match state {
        State::Same | State::PrimaryOnly => Which::Primary,
        State::Different => rules.gpt.repair_from,
        State::BackupOnly => Which::Backup,
    };
    let Some(source) = disk.copy(from) else { return };
    let to = place::other(from);
    let header_tail = match rules.gpt.repair_tail {
        Tail::Zero => vec![0; source.header_tail.len()],
        Tail::Copied => source.header_tail.clone(),
        Tail::Kept => buffers.header_tail(to).to_vec(),
    };
    let keeps_guid = disk.copy(to).filter(|_| !rules.gpt.repair_takes_disk_guid);
    let disk_guid = keeps_guid.unwrap_or(source).disk_guid.clone();
    let entries = entry::whole(rules, WholeIn::Repair, &source.entries).into_owned();
    buffers.write_copy(to, &Copy { disk_guid, entries, header_tail });
    if rules.gpt.repair_writes_block_0 {
        buffers.write_block_0();
    }
}
