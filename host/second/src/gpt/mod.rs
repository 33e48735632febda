//! The disk calls. Arguments and answers are those of the C interface: 0 or the refusal's number,
//! number answers left alone on refusal.

mod aligned;
mod attributes;
mod copies;
mod edits;
mod entry;
mod header;
mod ledger;
mod names;
mod place;
mod reading;
mod room;
mod strings;
mod whole;
mod write;

pub use edits::{gpt_add, gpt_delete, gpt_rename, gpt_resize};
pub use entry::NewPartition;
pub use ledger::Ledger;
pub use reading::{gpt_check, gpt_free, gpt_read, gpt_table};
pub use strings::gpt_build;
pub use whole::{gpt_format, gpt_repair};

use crate::refuse::{first_refusal, leave, leave_answer};
use crate::rules::{Row, Rules};
use copies::Disk;
use write::Buffers;

/// R26: the refusal of a call whose rows head, tail, N and block size alone decide.
fn disk_refusal(rules: &Rules, order: &[Row], disk: &Disk) -> Option<u32> {
    first_refusal(rules, order, |row| disk.holds(row))
}

/// Sets the number answers of an accepted call.
fn answer<const K: usize>(
    rules: &Rules,
    refusal: Option<u32>,
    found: Option<[u64; K]>,
    answers: [&mut u64; K],
) -> u32 {
    match (refusal, found) {
        (None, Some(found)) => answers.into_iter().zip(found).for_each(|(answer, found)| *answer = found),
        (None, None) => {}
        (Some(_), _) => answers.into_iter().for_each(|answer| leave_answer(rules, answer)),
    }
    refusal.unwrap_or(0)
}

fn leave_buffers(rules: &Rules, buffers: &mut Buffers) {
    leave(rules, buffers.head);
    leave(rules, buffers.tail);
}
