//! The file that is written beside another one and then takes its name.

use super::signals;
use std::ffi::{c_int, CString, OsStr, OsString};
use std::fs::{self, File, OpenOptions};
use std::io::{self, Write};
use std::os::unix::ffi::{OsStrExt, OsStringExt};
use std::os::unix::fs::OpenOptionsExt;
use std::path::{Path, PathBuf};

/// How many bytes of the other file's name stand in the name: a name has at most 255.
const NAME_MAX: usize = 220;
const MARK: &str = ".usigrambal-";
/// How many names of one process are tried, should the first ones be taken.
const NAMES: u32 = 100;

pub struct Beside {
    path: PathBuf,
    file: File,
}

impl Beside {
    /// A new file, locked as long as it is written. A file that is already there is not taken.
    pub fn new(target: &Path, mode: u32) -> io::Result<Beside> {
        sweep(target);
        let mut options = OpenOptions::new();
        options.write(true).create_new(true).mode(mode);
        for k in 1..=NAMES {
            let path = target.with_file_name(name(target, k));
            let c_path = CString::new(path.as_os_str().as_bytes())?;
            match signals::unfinished(&c_path, || options.open(&path)) {
                Ok(file) => {
                    let _ = file.try_lock();
                    return Ok(Beside { path, file });
                }
                Err(error) if error.kind() == io::ErrorKind::AlreadyExists => {}
                Err(error) => return Err(error),
            }
        }
        Err(io::ErrorKind::AlreadyExists.into())
    }

    pub fn file(&self) -> &File {
        &self.file
    }

    /// Writes all bytes and flushes them.
    pub fn fill(&mut self, bytes: &[u8]) -> io::Result<()> {
        self.file.write_all(bytes)?;
        self.file.sync_all()
    }

    /// Takes the place of the other file.
    pub fn replace(self, target: &Path) -> io::Result<()> {
        fs::rename(&self.path, target)
    }

    /// Takes a name that no file has, also not one that was made meanwhile.
    pub fn name(self, target: &Path) -> io::Result<()> {
        match fs::hard_link(&self.path, target) {
            Err(error) if no_links(&error) && fs::symlink_metadata(target).is_err() => {
                fs::rename(&self.path, target)
            }
            linked => linked,
        }
    }
}

/// What did not take another name is removed.
impl Drop for Beside {
    fn drop(&mut self) {
        let _ = fs::remove_file(&self.path);
        signals::finished();
    }
}

/// Whether the file system has no hard links.
fn no_links(error: &io::Error) -> bool {
    matches!(error.kind(), io::ErrorKind::PermissionDenied | io::ErrorKind::Unsupported)
}

/// `.NAME.usigrambal-PID`; after that `.NAME.usigrambal-PID-2` and so on.
fn name(target: &Path, k: u32) -> OsString {
    let mut name = stem(target);
    name.extend(std::process::id().to_string().into_bytes());
    if k > 1 {
        name.extend(format!("-{k}").into_bytes());
    }
    OsString::from_vec(name)
}

fn stem(target: &Path) -> Vec<u8> {
    let name = target.file_name().unwrap_or_default().as_bytes();
    [b".", &name[..name.len().min(NAME_MAX)], MARK.as_bytes()].concat()
}

/// Removes what calls that were killed left beside the file: what no running process has the number of, and none has
/// locked (a process of another container, say).
fn sweep(target: &Path) {
    let stem = stem(target);
    let Ok(entries) = fs::read_dir(super::folder(target)) else { return };
    for entry in entries.flatten() {
        let left = process(&entry.file_name(), &stem).is_some_and(|process| !runs(process));
        if left && entry.file_type().is_ok_and(|kind| kind.is_file()) && unlocked(&entry.path()) {
            let _ = fs::remove_file(entry.path());
        }
    }
}

/// The number of the process that made a file of that name.
fn process(name: &OsStr, stem: &[u8]) -> Option<c_int> {
    let rest = std::str::from_utf8(name.as_bytes().strip_prefix(stem)?).ok()?;
    let (number, more) = rest.split_once('-').unwrap_or((rest, "2"));
    let digits = |text: &str| {
        text.starts_with(|c: char| ('1'..='9').contains(&c)) && text.bytes().all(|b| b.is_ascii_digit())
    };
    (digits(number) && digits(more)).then(|| number.parse().ok()).flatten()
}

fn runs(process: c_int) -> bool {
    extern "C" {
        fn kill(process: c_int, signal: c_int) -> c_int;
    }
    /// errno.h of Linux: no such process.
    const ESRCH: i32 = 3;
    // Safety: signal 0 is not sent; the number is judged alone.
    let answer = unsafe { kill(process, 0) };
    answer == 0 || io::Error::last_os_error().raw_os_error() != Some(ESRCH)
}

fn unlocked(path: &Path) -> bool {
    File::open(path).is_ok_and(|file| file.try_lock().is_ok())
}

#[cfg(test)]
mod tests {
    use super::*;

    #[test]
    fn names_say_whose_they_are() {
        let of = |name: &str| process(OsStr::new(name), &stem(Path::new("a/new.bin")));
        assert_eq!(of(".new.bin.usigrambal-17"), Some(17));
        assert_eq!(of(".new.bin.usigrambal-17-3"), Some(17));
        assert_eq!(
            process(&name(Path::new("new.bin"), 2), &stem(Path::new("new.bin"))),
            Some(std::process::id() as c_int)
        );
        for other in ["", "-", "017", "17-", "17-x", "x", "17.bak", "99999999999", "17-3-4", "+17"] {
            assert_eq!(of(&format!(".new.bin.usigrambal-{other}")), None, "{other}");
        }
        assert_eq!(of("new.bin.usigrambal-17"), None);
        assert_eq!(of(".old.bin.usigrambal-17"), None);
    }

    #[test]
    fn long_names_are_cut() {
        let long = "n".repeat(255);
        assert!(name(Path::new(&long), NAMES).len() <= 255);
    }

    #[test]
    fn processes() {
        assert!(runs(std::process::id() as c_int));
        let mut child = std::process::Command::new("true").spawn().expect("true");
        child.wait().expect("an end");
        assert!(!runs(child.id() as c_int));
    }
}
