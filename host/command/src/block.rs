//! Which block size a disk is taken with.

use crate::arguments::Given;
use crate::failure::Failure;
use crate::paths::quoted;
use crate::sizes::{number, plural};
use crate::storage::{self, about, Facts, Kind};
use std::path::Path;
use usigrambal::BlockSize;

/// What decided the block size.
#[derive(Clone, Copy, Debug, PartialEq, Eq)]
pub enum By {
    Device,
    Option,
    /// 512, for a file of which nothing else is known.
    Default,
    /// The one with which a file reads.
    Table,
}

impl By {
    pub fn name(self) -> &'static str {
        match self {
            By::Device => "device",
            By::Option => "option",
            By::Default => "default",
            By::Table => "table",
        }
    }
}

/// What `--block` says. Another number than the two is the library's to refuse.
pub fn asked(given: &Given) -> Result<Option<BlockSize>, Failure> {
    let Some(text) = given.text("--block")? else { return Ok(None) };
    let hint = "--block is 512 or 4096, the bytes of a block";
    let bytes = number(text).map_err(|sentence| Failure::usage(sentence).hint(hint))?;
    let size = BlockSize::try_from(bytes);
    size.map(Some).map_err(|refused| Failure::from(refused).hint(hint).on("disk", given.path(0)))
}

/// A device has its own block size; a file has the one that is asked for, else 512.
pub fn of(path: &Path, facts: &Facts, asked: Option<BlockSize>) -> Result<(BlockSize, By), Failure> {
    match (facts.logical_block, asked) {
        (Some(bytes), asked) => of_device(path, bytes, asked).map(|size| (size, By::Device)),
        (None, Some(size)) => Ok((size, By::Option)),
        (None, None) => Ok((BlockSize::Bytes512, By::Default)),
    }
}

fn of_device(path: &Path, bytes: u64, asked: Option<BlockSize>) -> Result<BlockSize, Failure> {
    let own = BlockSize::try_from(bytes).map_err(|refused| {
        let way = as_device(path, BlockSize::Bytes512);
        let hint = format!("the device has logical blocks of {}; {way}", plural(bytes, "byte"));
        Failure::from(refused).hint(hint).on("disk", path)
    })?;
    match asked.filter(|asked| *asked != own) {
        Some(asked) => {
            let what = format!("has logical blocks of {own} bytes, and --block says {asked}");
            Err(about(path, &what).hint(format!("a device goes by its own; {}", as_device(path, asked))))
        }
        None => Ok(own),
    }
}

/// A line where the block size was found by reading.
pub fn note(block: BlockSize, by: By) -> String {
    match by {
        By::Table => format!("note: read with --block {block}, as it does not read with {}\n", block.other()),
        _ => String::new(),
    }
}

/// How a disk is given other blocks than its own, for this command and for others.
pub fn as_device(path: &Path, size: BlockSize) -> String {
    let path = quoted(path);
    format!("losetup -b {size} -f --show {path} makes a device of it with blocks of {size} bytes")
}

/// Whether its block size can be chosen.
pub fn is_file(path: &Path) -> bool {
    storage::metadata(path).is_ok_and(|metadata| storage::kind(&metadata) == Kind::Regular)
}

/// A disk as it stands in an advised command: a file needs the word for its block size, unless that is 512.
pub fn operand(path: &Path, size: BlockSize) -> String {
    match is_file(path) && size != BlockSize::Bytes512 {
        true => format!("{} --block {size}", quoted(path)),
        false => quoted(path),
    }
}

#[cfg(test)]
mod tests {
    use super::*;

    fn taken(logical_block: Option<u64>, asked: Option<BlockSize>) -> Result<(BlockSize, By), Vec<String>> {
        let kind = if logical_block.is_some() { Kind::BlockDevice } else { Kind::Regular };
        let facts = Facts { kind, bytes: 1 << 20, logical_block, read_only: false };
        of(Path::new("sdb"), &facts, asked).map_err(|failure| failure.lines())
    }

    #[test]
    fn a_file_goes_by_the_word() {
        assert_eq!(taken(None, None), Ok((BlockSize::Bytes512, By::Default)));
        for size in BlockSize::ALL {
            assert_eq!(taken(None, Some(size)), Ok((size, By::Option)));
        }
    }

    #[test]
    fn a_device_goes_by_its_own() {
        for size in BlockSize::ALL {
            assert_eq!(taken(Some(size.bytes()), None), Ok((size, By::Device)));
            assert_eq!(taken(Some(size.bytes()), Some(size)), Ok((size, By::Device)));
        }
        let lines = taken(Some(4096), Some(BlockSize::Bytes512)).unwrap_err();
        assert_eq!(lines[0], "usigrambal: sdb has logical blocks of 4096 bytes, and --block says 512");
        for asked in [None, Some(BlockSize::Bytes512)] {
            let lines = taken(Some(2048), asked).unwrap_err();
            assert_eq!(lines[0], "refused 6: sdb: the block size is neither 512 nor 4096: 2048 bytes");
        }
    }
}
