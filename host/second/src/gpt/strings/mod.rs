//! Layout strings of the boot loader become a disk.

mod number;
mod table;
mod text;

use super::copies::Disk;
use super::place::BOTH;
use super::write::Buffers;
use super::{leave_buffers, place};
use crate::bytes::{is_zero, part};
use crate::refuse::first_refusal;
use crate::rules::{Keeps, Row, Rules};
use table::Table;

/// b1: writes both copies with the partitions of the text, and block 0.
pub fn gpt_build(
    rules: &Rules,
    head: &mut [u8],
    tail: &mut [u8],
    n: u64,
    block: u64,
    alignment: u64,
    text: &[u8],
) -> u32 {
    let strings = &rules.gpt.strings;
    let disk = Disk::of(rules, head, tail, n, block);
    let layout = text::layout(rules, text);
    let disk_guid = layout.disk_guid.clone().unwrap_or_default();
    let refusal = first_refusal(rules, strings.order, |row| match row {
        Row::StringForm if strings.whole_text_judged => !layout.is_in_form(strings),
        Row::StringForm => !layout.beginning_in_form(strings),
        Row::ZeroDiskGuid => is_zero(part(&disk_guid, 0, rules.gpt.zero_disk_guid_len)),
        _ => disk.holds(row),
    });
    let built = refusal.map_or_else(|| Table::of(disk.geometry, alignment, &layout), Err);
    let mut buffers = Buffers { head, tail, geometry: disk.geometry };
    match built {
        Ok(entries) => {
            write(&disk, &mut buffers, &disk_guid, entries);
            0
        }
        Err(number) => {
            leave_buffers(rules, &mut buffers);
            number
        }
    }
}

/// b1: "a formatted head and tail".
fn write(disk: &Disk, buffers: &mut Buffers, disk_guid: &[u8], mut entries: Vec<u8>) {
    let keeps = disk.geometry.rules.gpt.strings.keeps;
    if keeps == Some(Keeps::Partitions) {
        let both = entries.iter_mut().zip(disk.entries());
        both.filter(|(byte, _)| **byte == 0).for_each(|(byte, before)| *byte = *before);
    }
    let fresh = buffers.fresh(disk_guid, entries);
    if keeps != Some(Keeps::Block0) {
        buffers.write_block_0();
    }
    for which in BOTH {
        let before = buffers.header_tail(which).to_vec();
        if keeps != Some(place::buffer(Keeps::Primary, Keeps::Backup, which)) {
            buffers.write_copy(which, &fresh);
        }
        if keeps == Some(Keeps::HeaderTails) {
            buffers.header_tail(which).copy_from_slice(&before);
        }
    }
}
