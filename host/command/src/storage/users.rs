//! Who uses a block device or a file, as far as Linux tells.

use super::open::{locked, EBUSY, O_EXCL};
use super::{needed, Kind, Opened};
use crate::failure::Failure;
use crate::paths::shown;
use std::fs::{self, OpenOptions};
use std::os::unix::fs::{MetadataExt, OpenOptionsExt};
use std::path::{Path, PathBuf};

pub const LOCKED: &str = "locked by another program";

/// Why something is kept, if it is in use, without being opened for writing: a device by another program or a mount, an
/// image file as a loop device, both by another program's lock.
pub fn in_use(path: &Path, opened: &Opened) -> Option<Failure> {
    let used = match opened.facts.kind {
        Kind::BlockDevice => {
            let alone = OpenOptions::new().read(true).custom_flags(O_EXCL).open(path);
            let busy = alone.is_err_and(|error| error.raw_os_error() == Some(EBUSY));
            busy.then(|| busy_device(path, opened.metadata.rdev()))
        }
        _ => attached(path),
    };
    used.or_else(|| (!locked(|| opened.file.try_lock())).then(|| busy(path, LOCKED)))
}

pub fn busy_device(path: &Path, device: u64) -> Failure {
    let users = users(device);
    let by =
        if users.is_empty() { "mounted, or held by another program".to_string() } else { users.join(", ") };
    busy(path, &by)
}

pub fn busy(path: &Path, by: &str) -> Failure {
    needed(path, &format!("is in use ({by})")).hint("--force writes anyway")
}

/// An image file that is a loop device too.
pub fn attached(path: &Path) -> Option<Failure> {
    let target = fs::canonicalize(path).ok()?;
    let loops = fs::read_dir("/sys/block").ok()?.flatten().filter(|entry| {
        let backing = fs::read(entry.path().join("loop/backing_file")).unwrap_or_default();
        backing.strip_suffix(b"\n") == Some(target.as_os_str().as_encoded_bytes())
    });
    let devices: Vec<PathBuf> = loops.map(|entry| Path::new("/dev").join(entry.file_name())).collect();
    let device = devices.first()?;
    Some(busy(path, &format!("it is the device {} too", device.display())))
}

/// Mounts, swap and holders of the device and its partitions.
fn users(device: u64) -> Vec<String> {
    let folder = PathBuf::from(format!("/sys/dev/block/{}", numbers(device)));
    let own = fs::canonicalize(&folder).unwrap_or(folder);
    let entries = fs::read_dir(&own).into_iter().flatten().flatten().map(|entry| entry.path());
    let mut parts: Vec<PathBuf> = entries.filter(|entry| entry.join("partition").exists()).collect();
    parts.sort();
    parts.insert(0, own);
    parts.iter().flat_map(|part| users_of(part)).collect()
}

fn users_of(part: &Path) -> Vec<String> {
    let name = Path::new("/dev").join(part.file_name().unwrap_or_default());
    let name = shown(&name);
    let own = fs::read_to_string(part.join("dev")).unwrap_or_default().trim_end().to_string();
    let mounts = fs::read_to_string("/proc/self/mountinfo").unwrap_or_default();
    let swaps = fs::read_to_string("/proc/swaps").unwrap_or_default();
    let mut users =
        mounted(&mounts, &own).map_or(Vec::new(), |at| vec![format!("{name} is mounted at {at}")]);
    if swapped(&swaps, &name) {
        users.push(format!("{name} is swap"));
    }
    let holders = fs::read_dir(part.join("holders")).into_iter().flatten().flatten();
    users.extend(holders.map(|holder| format!("{} holds {name}", shown(Path::new(&holder.file_name())))));
    users
}

/// Where a device is mounted, by its numbers in the third column.
fn mounted(mounts: &str, numbers: &str) -> Option<String> {
    let mut rows = mounts.lines().map(|line| line.split(' ').collect::<Vec<_>>());
    let row = rows.find(|row| row.get(2) == Some(&numbers))?;
    row.get(4).map(|at| at.to_string())
}

fn swapped(swaps: &str, name: &str) -> bool {
    swaps.lines().any(|line| line.split(' ').next() == Some(name))
}

/// As Linux stores major and minor number.
fn numbers(device: u64) -> String {
    let major = (device >> 8) & 0xFFF | (device >> 32) & !0xFFF;
    let minor = device & 0xFF | (device >> 12) & 0xFFFF_FF00;
    format!("{major}:{minor}")
}

#[cfg(test)]
mod tests {
    use super::*;

    #[test]
    fn tables_of_the_kernel() {
        let mounts = "23 1 254:0 / / rw - ext4 /dev/vda rw\n90 23 259:1 / /mnt/my\\040disk rw - ext4 /dev/loop0p1 rw\n";
        assert_eq!(mounted(mounts, "259:1").as_deref(), Some("/mnt/my\\040disk"));
        assert_eq!(mounted(mounts, "259:2"), None);
        let swaps = "Filename Type Size\n/dev/sda2 partition 1\n";
        assert!(swapped(swaps, "/dev/sda2") && !swapped(swaps, "/dev/sda"));
    }

    /// `makedev(8, 3)`, `makedev(259, 5)` and `makedev(253, 1048575)` of the C library.
    #[test]
    fn numbers_of_a_device() {
        assert_eq!(numbers(0x803), "8:3");
        assert_eq!(numbers(0x10305), "259:5");
        assert_eq!(numbers(0xFFF_0FDFF), "253:1048575");
    }
}
