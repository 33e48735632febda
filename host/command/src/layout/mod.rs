//! The verbs on layout texts.

mod causes;
mod list;
mod reading;
mod tokens;
mod write;

pub use list::list;
pub use write::write;

use crate::failure::Failure;
use crate::texts;
use std::path::Path;
use usigrambal::{Refused, TEXT_MAX};

/// A layout text, or one byte more than it may have: the library refuses that length.
fn read(path: &Path) -> Result<Vec<u8>, Failure> {
    texts::read(path, TEXT_MAX + 1)
}

/// A refusal of a text, with its cause.
fn refused(refused: Refused, path: &Path, text: &[u8]) -> Failure {
    let cause = causes::of(refused.refusal, text);
    let failure = Failure::from(refused).on("layout", path);
    match cause {
        Some(cause) => failure.hint(cause),
        None => failure,
    }
}
