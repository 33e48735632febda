//! The verbs on a disk.

mod attributes;
mod build;
mod check;
mod edits;
mod format;
mod found;
mod hints;
mod look;
mod names;
mod otherwise;
mod probe;
mod strings;
mod why;
mod words;

pub use build::build;
pub use check::check;
pub use edits::{add, delete, rename, repair, resize};
pub use format::format;
pub use look::{free, show, verify};

use crate::failure::{words, Failure};
use std::fs::File;
use std::io::Read;
use usigrambal::Guid;

fn random_guid() -> Result<Guid, Failure> {
    let mut bytes = [0; 16];
    let read = File::open("/dev/urandom").and_then(|mut source| source.read_exact(&mut bytes));
    read.map_err(|error| Failure::input_output(format!("/dev/urandom cannot be read: {}", words(&error))))?;
    Ok(Guid::version_4(bytes))
}
