//! Files as block devices, whose blocks can have another size than the 512 bytes that tools take for a file's.

use std::path::{Path, PathBuf};
use std::process::Command;
use std::sync::OnceLock;
use std::thread;
use std::time::{Duration, Instant};

/// A loop device over a file, let go when it is dropped.
pub struct Loop {
    pub path: PathBuf,
}

impl Loop {
    /// Waits while other tests have all the devices.
    pub fn new(file: &Path, block: u64) -> Loop {
        attached(file, block, Duration::from_secs(120)).unwrap_or_else(|| panic!("no loop device is free"))
    }
}

impl Drop for Loop {
    fn drop(&mut self) {
        let _ = Command::new("losetup").arg("-d").arg(&self.path).status();
    }
}

fn attached(file: &Path, block: u64, wait: Duration) -> Option<Loop> {
    let begin = Instant::now();
    loop {
        let made =
            Command::new("losetup").args(["-b", &block.to_string(), "-f", "--show"]).arg(file).output();
        let made = made.ok()?;
        if made.status.success() {
            let path = String::from_utf8(made.stdout).ok()?.trim_end().into();
            return Some(Loop { path });
        }
        if begin.elapsed() > wait {
            return None;
        }
        thread::sleep(Duration::from_millis(100));
    }
}

/// Whether loop devices with blocks of 4,096 bytes can be had; says so where they can't.
pub fn present() -> bool {
    static PRESENT: OnceLock<bool> = OnceLock::new();
    *PRESENT.get_or_init(|| {
        let scratch = crate::disk::Scratch::new();
        std::fs::write(&scratch.path, [0; 1 << 16]).unwrap_or_else(|error| panic!("{error}"));
        let found = attached(&scratch.path, 4096, Duration::from_secs(3)).is_some();
        if !found {
            crate::skipped("loop devices with blocks of 4096 bytes");
        }
        found
    })
}
