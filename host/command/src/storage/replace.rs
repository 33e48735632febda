//! Whole files: a new one beside the old takes its place, so that at every moment one of the two is there.

use super::beside::Beside;
use super::{about, kind, needed, open, same, same_file, unusable, Access, Kind};
use crate::failure::{words, Failure};
use std::fs::{self, File, Metadata, OpenOptions};
use std::io::{self, Write};
use std::os::unix::fs::{fchown, MetadataExt};
use std::path::{Path, PathBuf};

/// Gives a regular file other bytes; mode and owner stay, and a symbolic link stays a link.
pub fn replace(path: &Path, old: &Metadata, bytes: &[u8]) -> Result<(), Failure> {
    let target = fs::canonicalize(path).map_err(|error| unusable(path, "cannot be found", &error))?;
    let written = filled(&target, 0o600, bytes).and_then(|beside| {
        like(beside.file(), old)?;
        beside.replace(&target)
    });
    written.map_err(|error| {
        about(path, &format!("is as it was: the new file beside it could not be written: {}", words(&error)))
    })?;
    flushed(path, &target)
}

/// Makes a file that was not there: its name appears when all its bytes are written.
pub fn create(path: &Path, bytes: &[u8]) -> Result<(), Failure> {
    let written = filled(path, 0o666, bytes).and_then(|beside| beside.name(path));
    written.map_err(|error| match error.kind() {
        io::ErrorKind::AlreadyExists => needed(path, "is already there, and is kept"),
        io::ErrorKind::NotFound => about(path, "cannot be made: its folder does not exist"),
        _ => about(path, &format!("was not made: {}", words(&error))),
    })?;
    flushed(path, path)
}

/// Writes what a call has made: into a new file, or in place of an old one, or to what is no regular file. It may not be
/// a file that the call reads.
pub fn save(target: &Path, bytes: &[u8], read: &[(&Path, &Metadata)]) -> Result<(), Failure> {
    let Ok(metadata) = fs::metadata(target) else {
        return create(target, bytes);
    };
    if let Some((path, _)) = read.iter().find(|(_, read)| same_file(read, &metadata)) {
        return Err(same(path, target));
    }
    if kind(&metadata) == Kind::Regular {
        let opened = open(target, Access::Write { force: false });
        let opened = opened.map_err(|failure| failure.hint("another file can be named"))?;
        return replace(target, &opened.metadata, bytes);
    }
    let opened = OpenOptions::new().write(true).open(target);
    let written = opened.and_then(|mut file| file.write_all(bytes));
    written.map_err(|error| unusable(target, "cannot be written", &error))
}

fn filled(target: &Path, mode: u32, bytes: &[u8]) -> io::Result<Beside> {
    let mut beside = Beside::new(target, mode)?;
    beside.fill(bytes)?;
    Ok(beside)
}

/// Owner and mode of the other file.
fn like(file: &File, old: &Metadata) -> io::Result<()> {
    let made = file.metadata()?;
    if (made.uid(), made.gid()) != (old.uid(), old.gid()) {
        fchown(file, Some(old.uid()), Some(old.gid()))?;
    }
    file.set_permissions(old.permissions())?;
    file.sync_all()
}

fn flushed(path: &Path, target: &Path) -> Result<(), Failure> {
    let flushed = File::open(folder(target)).and_then(|folder| folder.sync_all());
    flushed
        .map_err(|error| about(path, &format!("was written, but its folder not flushed: {}", words(&error))))
}

pub fn folder(path: &Path) -> PathBuf {
    let folder = path.parent().filter(|folder| !folder.as_os_str().is_empty());
    folder.unwrap_or(Path::new(".")).to_path_buf()
}
