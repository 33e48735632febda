//! Calls whose writes are watched, cut or made to fail.

use super::{Ended, Folder};
use std::fs;
use std::path::{Path, PathBuf};
use std::process::Command;
use std::sync::OnceLock;

/// `tests/c/disk_writes.c`, compiled.
fn watcher() -> &'static Path {
    static BUILT: OnceLock<PathBuf> = OnceLock::new();
    BUILT.get_or_init(|| {
        let source = testkit::host().join("../tests/c/disk_writes.c");
        let library = Path::new(env!("CARGO_TARGET_TMPDIR")).join("disk_writes.so");
        let options = ["-std=c99", "-O1", "-Wall", "-Wextra", "-Werror", "-shared", "-fPIC"];
        let made =
            Command::new("gcc").args(options).arg(&source).arg("-o").arg(&library).arg("-ldl").output();
        let made = made.expect("gcc");
        assert!(made.status.success(), "{}", String::from_utf8_lossy(&made.stderr));
        library
    })
}

/// By LD_PRELOAD, which a statically linked program does not heed: so it is the command that cargo built beside the tests.
pub fn disturbed(how: &str, log: &Path, words: &[&str]) -> Ended {
    let mut command = Command::new(env!("CARGO_BIN_EXE_usigrambal"));
    command.env("LD_PRELOAD", watcher()).env("DISTURB", how).env("WRITES_LOG", log).args(words);
    command.output().expect("the command").into()
}

/// What a call writes and flushes, in order.
pub fn logged(folder: &Folder, words: &[&str]) -> String {
    let log = folder.path("log");
    let _ = fs::remove_file(&log);
    disturbed("", &log, words);
    fs::read_to_string(&log).unwrap_or_default()
}
