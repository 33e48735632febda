//! A second implementation of the rules, to hold the library against: written from the rules alone,
//! for plainness and not for speed, with no code, table or generated data of the library.
//!
//! Every operand of a rule stands in a [`Rules`] value. [`RULES`] is the right one; a value with one
//! operand changed is a wrong implementation, by which a comparison shows that it would notice.

mod bytes;
mod crc;
mod fmap;
mod fmd;
mod gpt;
mod guid;
pub mod listing;
mod refuse;
pub mod rules;

pub use crc::crc32;
pub use fmap::{fmap_area, fmap_area_count, fmap_carry, fmap_fault, fmap_find, fmap_named};
pub use fmd::{fmd_read, fmd_records, fmd_write};
pub use gpt::{
    gpt_add, gpt_build, gpt_check, gpt_delete, gpt_format, gpt_free, gpt_read, gpt_rename, gpt_repair,
    gpt_resize, gpt_table, Ledger, NewPartition,
};
pub use guid::{guid_read, guid_write, type_read};
pub use rules::{Rules, RULES};
