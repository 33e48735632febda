//! A flash image: read whole, changed in memory, and written back.

use crate::failure::Failure;
use crate::show::Progress;
use crate::storage::{
    self, about, changed_runs, needed, open, put_told, same_file, unusable, Access, Kind, Opened,
};
use std::fs::Metadata;
use std::io::{Read, Seek};
use std::path::Path;
use usigrambal::IMAGE_MAX;

pub struct Image {
    pub metadata: Metadata,
    /// All its bytes, or one more than an image may have: the library refuses that length.
    pub bytes: Vec<u8>,
}

pub fn read(path: &Path) -> Result<Image, Failure> {
    let opened = open(path, Access::Read)?;
    let bytes = contents(path, &opened)?;
    Ok(Image { metadata: opened.metadata, bytes })
}

fn contents(path: &Path, opened: &Opened) -> Result<Vec<u8>, Failure> {
    let mut bytes = Vec::new();
    let mut file = &opened.file;
    let read = file.rewind().and_then(|()| file.take(IMAGE_MAX as u64 + 1).read_to_end(&mut bytes));
    read.map_err(|error| unusable(path, "cannot be read", &error))?;
    Ok(bytes)
}

/// Gives the image other bytes, of the same length: a file by a new one in its place, a device where they differ.
pub fn write(path: &Path, image: &Image, after: &[u8], force: bool) -> Result<(), Failure> {
    let opened = open(path, Access::Write { force })?;
    let replaced = !same_file(&storage::metadata(path)?, &opened.metadata);
    if replaced || contents(path, &opened)? != image.bytes {
        return Err(needed(path, "was changed by another program meanwhile; nothing was written"));
    }
    if opened.facts.kind == Kind::Regular {
        return storage::replace(path, &opened.metadata, after);
    }
    let progress = Progress::new();
    // The highest first: a new map stands before those in front of it are retired.
    let mut runs = changed_runs(&image.bytes, after);
    runs.reverse();
    let written = put_told(&opened.file, after, 0, &runs, |done, all| progress.tell(done, all));
    drop(progress);
    written.map_err(|unwritten| {
        let (done, wanted) = (unwritten.written, unwritten.wanted);
        let error = crate::failure::words(&unwritten.error);
        let what = format!("could not be written: {done} of {wanted} bytes were, then: {error}");
        about(path, &what).hint("the same call again writes what is missing")
    })
}
