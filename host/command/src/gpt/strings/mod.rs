//! Layout strings, as a boot loader's gpt command takes them: read, explained where they are refused, and printed from a disk.

mod causes;
mod fields;
mod numbers;
mod pieces;
mod printing;
mod reading;
#[cfg(test)]
mod tests;

pub use causes::{of as refused, Asked};
pub use printing::of_disk;

use crate::arguments::Given;
use crate::failure::Failure;
use crate::texts;
use std::os::unix::ffi::OsStrExt;
use std::path::Path;
use usigrambal::STRING_MAX;

/// A layout string, and where it came from.
pub struct Source<'a> {
    pub text: Vec<u8>,
    /// None where it was typed (`--text`).
    pub path: Option<&'a Path>,
}

const WAYS: &str = "LAYOUT is a file or -, or else --text has the string itself";

/// What LAYOUT or `--text` says.
pub fn given(given: &Given) -> Result<Source<'_>, Failure> {
    match (given.operands.get(1).map(Path::new), given.value("--text")) {
        // One byte more than it may have, beside a line feed: the library refuses that length.
        (Some(path), None) => {
            Ok(Source { text: unended(texts::read(path, STRING_MAX + 2)?), path: Some(path) })
        }
        (None, Some(text)) => Ok(Source { text: text.as_bytes().to_vec(), path: None }),
        (None, None) => Err(Failure::usage("LAYOUT is missing").hint(WAYS)),
        (Some(_), Some(_)) => Err(Failure::usage("LAYOUT and --text stand both").hint(WAYS)),
    }
}

/// Without the line feed that ends a file's last line.
fn unended(mut text: Vec<u8>) -> Vec<u8> {
    if text.last() == Some(&b'\n') {
        text.pop();
    }
    text
}

/// The names that look like a variable which is not filled in, with the numbers of their partitions.
pub fn unfilled_names(source: &Source) -> Vec<String> {
    let parts = reading::read(&source.text).unwrap_or_default();
    let odd = (1..).zip(&parts).filter(|(_, part)| part.name.contains("${"));
    odd.map(|(number, part)| {
        format!("the name of partition {number} is \"{}\": a variable that is not filled in?", part.name)
    })
    .collect()
}
