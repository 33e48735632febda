use super::users::{busy, busy_device, LOCKED};
use super::{about, device, kind, metadata, unusable, Facts, Kind};
use crate::failure::{words, Failure};
use std::fs::{File, Metadata, OpenOptions, TryLockError};
use std::io::{self, Seek, SeekFrom};
use std::os::unix::fs::{MetadataExt, OpenOptionsExt};
use std::path::Path;
use std::thread;
use std::time::{Duration, Instant};

/// fcntl.h and errno.h of Linux. A block device that is opened so is opened alone.
pub const O_EXCL: i32 = 0o200;
pub const EBUSY: i32 = 16;

/// How long a lock of another program is waited for.
const PATIENCE: Duration = Duration::from_secs(5);
/// How long programs that look at a device that was written may take.
const PROBES: Duration = Duration::from_millis(500);
const PAUSE: Duration = Duration::from_millis(10);

#[derive(Clone, Copy, Debug, PartialEq, Eq)]
pub enum Access {
    Read,
    /// Alone, unless forced.
    Write {
        force: bool,
    },
}

#[derive(Debug)]
pub struct Opened {
    pub file: File,
    pub facts: Facts,
    /// Of the file that is open, whatever the path leads to later.
    pub metadata: Metadata,
}

impl Opened {
    /// After the table of a block device was written: a warning if the kernel still goes by the old one.
    pub fn reread(&self) -> Option<String> {
        if self.facts.kind != Kind::BlockDevice {
            return None;
        }
        let mut answer = Ok(());
        patient(PROBES, || {
            answer = device::reread(&self.file);
            answer.as_ref().err().and_then(io::Error::raw_os_error) != Some(EBUSY)
        });
        let error = answer.err().filter(|error| error.kind() != io::ErrorKind::InvalidInput)?;
        Some(format!("the kernel still goes by the old table: {}", words(&error)))
    }
}

/// Opens an image file or a block device. What is neither is not opened, since that may wait or act.
pub fn open(path: &Path, access: Access) -> Result<Opened, Failure> {
    let metadata = metadata(path)?;
    let known = facts_of_mode(&metadata);
    let hindered = |facts: &Facts| if access == Access::Read { None } else { facts.no_writing() };
    refuse(path, known.kind.unsuitable().or_else(|| hindered(&known)))?;
    let file = opened(path, access, known.kind, metadata.rdev())?;
    let (metadata, facts) = facts(&file).map_err(|error| unusable(path, "cannot be measured", &error))?;
    refuse(path, hindered(&facts))?;
    Ok(Opened { file, facts, metadata })
}

pub fn refuse(path: &Path, fault: Option<String>) -> Result<(), Failure> {
    fault.map_or(Ok(()), |fault| Err(about(path, &fault)))
}

fn opened(path: &Path, access: Access, kind: Kind, device: u64) -> Result<File, Failure> {
    let mut options = OpenOptions::new();
    options.read(true);
    if let Access::Write { force } = access {
        options.write(true);
        if kind == Kind::BlockDevice && !force {
            options.custom_flags(O_EXCL);
        }
    }
    let file = options.open(path).map_err(|error| match (access, error.raw_os_error()) {
        (Access::Read, _) => unusable(path, "cannot be read", &error),
        (_, Some(EBUSY)) => busy_device(path, device),
        _ => unusable(path, "cannot be written", &error),
    })?;
    let alone = match access {
        Access::Read => {
            locked(|| file.try_lock_shared());
            true
        }
        Access::Write { force } => locked(|| file.try_lock()) || force,
    };
    match alone {
        true => Ok(file),
        false => Err(busy(path, LOCKED)),
    }
}

/// Calls at once follow each other: a reader waits for a writer, and a writer for both. Where locks can't be had it
/// goes on without.
pub fn locked(lock: impl Fn() -> Result<(), TryLockError>) -> bool {
    patient(PATIENCE, || !matches!(lock(), Err(TryLockError::WouldBlock)))
}

/// Tries until it succeeds or the time is over.
fn patient(time: Duration, mut succeeds: impl FnMut() -> bool) -> bool {
    let end = Instant::now() + time;
    while !succeeds() {
        if Instant::now() > end {
            return false;
        }
        thread::sleep(PAUSE);
    }
    true
}

fn facts(file: &File) -> io::Result<(Metadata, Facts)> {
    let metadata = file.metadata()?;
    let mut facts = facts_of_mode(&metadata);
    if facts.kind == Kind::BlockDevice {
        facts.bytes = (&*file).seek(SeekFrom::End(0))?;
        facts.logical_block = Some(device::logical_block(file)?);
        facts.read_only = device::read_only(file)?;
    }
    Ok((metadata, facts))
}

fn facts_of_mode(metadata: &Metadata) -> Facts {
    let kind = kind(metadata);
    let read_only = kind == Kind::Regular && metadata.mode() & 0o222 == 0;
    Facts { kind, bytes: metadata.len(), logical_block: None, read_only }
}
