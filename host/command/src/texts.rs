//! Texts, from a file or from standard input.

use crate::failure::{words, Failure};
use crate::storage::unusable;
use std::fs::File;
use std::io::{self, Read};
use std::path::Path;

/// At most so many bytes of a file, or of standard input, which is `-`.
pub fn read(path: &Path, limit: usize) -> Result<Vec<u8>, Failure> {
    let mut text = Vec::new();
    if path == Path::new("-") {
        let read = io::stdin().lock().take(limit as u64).read_to_end(&mut text);
        read.map_err(|error| {
            Failure::input_output(format!("standard input cannot be read: {}", words(&error)))
        })?;
    } else {
        let read = File::open(path).and_then(|file| file.take(limit as u64).read_to_end(&mut text));
        read.map_err(|error| unusable(path, "cannot be read", &error))?;
    }
    Ok(text)
}
