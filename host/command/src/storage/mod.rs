//! Files and block devices: what they are, whether they suit, and how they are read and written.

mod beside;
mod device;
mod open;
mod put;
mod replace;
mod signals;
mod users;

pub use open::{open, Access, Opened};
pub use put::{changed_runs, put, put_told, Unwritten};
pub use replace::{create, folder, replace, save};
pub use users::{attached, in_use};

use crate::failure::Failure;
use crate::paths::shown;
use std::fs::{self, Metadata};
use std::io;
use std::os::unix::fs::{FileTypeExt, MetadataExt};
use std::path::Path;
use usigrambal::BlockSize;

#[derive(Clone, Copy, Debug, PartialEq, Eq)]
pub enum Kind {
    Regular,
    BlockDevice,
    /// What it is instead, with its article.
    Unsuitable(&'static str),
}

/// What is known of a file before a byte of it is used.
#[derive(Clone, Copy, Debug, PartialEq, Eq)]
pub struct Facts {
    pub kind: Kind,
    pub bytes: u64,
    /// Of a block device.
    pub logical_block: Option<u64>,
    /// Nobody may write it: a file by its mode, a device by its own state.
    pub read_only: bool,
}

impl Kind {
    /// Why it can be neither image nor disk.
    pub fn unsuitable(self) -> Option<String> {
        match self {
            Kind::Unsuitable(what) => Some(format!("is {what}, not an image file or a block device")),
            Kind::Regular | Kind::BlockDevice => None,
        }
    }
}

impl Facts {
    /// Why it can be no disk with such blocks; how many are too few or too many is for the library to refuse.
    pub fn ragged(&self, block: BlockSize) -> Option<String> {
        let ragged = !self.bytes.is_multiple_of(block.bytes());
        let size = crate::sizes::plural(self.bytes, "byte");
        ragged.then(|| format!("has {size}, which is no multiple of the block size, {block}"))
    }

    /// Why it can't be written.
    pub fn no_writing(&self) -> Option<String> {
        let how = match self.kind {
            Kind::Regular => " by its mode (chmod u+w makes it writable)",
            _ => "",
        };
        self.read_only.then(|| format!("is read-only{how}"))
    }
}

pub fn kind(metadata: &Metadata) -> Kind {
    let file_type = metadata.file_type();
    if file_type.is_file() {
        return Kind::Regular;
    }
    if file_type.is_block_device() {
        return Kind::BlockDevice;
    }
    Kind::Unsuitable(if file_type.is_dir() {
        "a folder"
    } else if file_type.is_char_device() {
        "a character device"
    } else if file_type.is_fifo() {
        "a pipe"
    } else {
        "a socket"
    })
}

/// Of the file that the path leads to, through symbolic links.
pub fn metadata(path: &Path) -> Result<Metadata, Failure> {
    fs::metadata(path).map_err(|error| unusable(path, "cannot be used", &error))
}

/// Whether both paths lead to one file or one device.
pub fn same_file(a: &Metadata, b: &Metadata) -> bool {
    match (kind(a), kind(b)) {
        (Kind::BlockDevice, Kind::BlockDevice) => a.rdev() == b.rdev(),
        _ => (a.dev(), a.ino()) == (b.dev(), b.ino()),
    }
}

/// A file that does not suit, or can't be read or written.
pub fn about(path: &Path, what: &str) -> Failure {
    Failure::input_output(format!("{} {what}", shown(path)))
}

/// Something is there, or in use, that is kept unless a word says otherwise.
pub fn needed(path: &Path, what: &str) -> Failure {
    Failure::needed(format!("{} {what}", shown(path)))
}

/// Two paths of a call that may not lead to one file.
pub fn same(path: &Path, other: &Path) -> Failure {
    Failure::usage(format!("{} and {} are the same file", shown(path), shown(other)))
}

/// A sentence for an error of the operating system.
pub fn unusable(path: &Path, what: &str, error: &io::Error) -> Failure {
    if error.kind() == io::ErrorKind::NotFound {
        return about(path, "does not exist");
    }
    about(path, &format!("{what}: {}", crate::failure::words(error)))
}

#[cfg(test)]
mod tests {
    use super::*;

    fn file(bytes: u64) -> Facts {
        Facts { kind: Kind::Regular, bytes, logical_block: None, read_only: false }
    }

    fn device(bytes: u64, logical_block: u64) -> Facts {
        Facts { kind: Kind::BlockDevice, logical_block: Some(logical_block), ..file(bytes) }
    }

    #[test]
    fn only_files_and_block_devices_suit() {
        assert_eq!(Kind::Regular.unsuitable(), None);
        assert_eq!(Kind::BlockDevice.unsuitable(), None);
        let said = "is a folder, not an image file or a block device";
        assert_eq!(Kind::Unsuitable("a folder").unsuitable(), Some(said.to_string()));
    }

    #[test]
    fn a_disk_has_whole_blocks() {
        for whole in [file(0), file(4096), file(1 << 44), device(1 << 20, 512)] {
            assert!(BlockSize::ALL.iter().all(|block| whole.ragged(*block).is_none()), "{whole:?}");
        }
        let ragged = "has 513 bytes, which is no multiple of the block size, 512";
        assert_eq!(file(513).ragged(BlockSize::Bytes512), Some(ragged.to_string()));
        assert_eq!(file(4608).ragged(BlockSize::Bytes512), None);
        let ragged = "has 4608 bytes, which is no multiple of the block size, 4096";
        assert_eq!(file(4608).ragged(BlockSize::Bytes4096), Some(ragged.to_string()));
    }

    #[test]
    fn what_is_read_only_is_not_written() {
        assert_eq!(file(512).no_writing(), None);
        assert_eq!(device(512, 512).no_writing(), None);
        let mode = "is read-only by its mode (chmod u+w makes it writable)";
        assert_eq!(Facts { read_only: true, ..file(512) }.no_writing(), Some(mode.to_string()));
        let marked = Facts { read_only: true, ..device(512, 512) };
        assert_eq!(marked.no_writing(), Some("is read-only".to_string()));
    }
}
