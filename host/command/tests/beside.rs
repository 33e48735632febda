//! Files that are written beside others: what a call that was ended or killed leaves, and whose files are kept.

mod common;

use common::{Ended, Folder};
use std::ffi::{c_int, OsStr};
use std::fs;
use std::os::unix::process::{CommandExt, ExitStatusExt};
use std::path::PathBuf;
use std::process::{Child, Command, ExitStatus, Stdio};

const OLD: &str = "CHIP 16M { FMAP 1K CAL(PRESERVE)@2K 1M }";
const NEW: &str = "CHIP 16M { FMAP 1K CAL(PRESERVE)@8M 1M }";
const SIGHUP: c_int = 1;
const SIGINT: c_int = 2;
const SIGKILL: c_int = 9;
const SIGTERM: c_int = 15;

extern "C" {
    fn kill(process: c_int, signal: c_int) -> c_int;
    fn signal(number: c_int, handler: usize) -> usize;
}

const SIG_DFL: usize = 0;

struct Images {
    folder: Folder,
    old: PathBuf,
    new: PathBuf,
    old_layout: PathBuf,
}

fn images() -> Images {
    let folder = Folder::new();
    let (old_layout, new_layout) = (folder.file("old.fmd", OLD), folder.file("new.fmd", NEW));
    let (old, new) = (folder.path("old.bin"), folder.path("new.bin"));
    run!["fmd", "write", old_layout, old, "--create"].done();
    fs::write(&new, vec![0; 16 << 20]).expect("an image");
    run!["fmd", "write", new_layout, new].done();
    Images { folder, old, new, old_layout }
}

/// The number of a process that has ended.
fn ended_process() -> u32 {
    let mut child = Command::new("true").spawn().expect("true");
    child.wait().expect("an end");
    child.id()
}

fn hidden(folder: &Folder) -> Vec<String> {
    folder.names().into_iter().filter(|name| name.starts_with('.')).collect()
}

#[test]
fn what_a_killed_call_left_is_removed_by_the_next() {
    let Images { folder, old, new, old_layout } = images();
    let (made, taken) = (folder.path("made.bin"), folder.path("cal.bin"));
    let carry = ["fmap".as_ref(), "carry".as_ref(), old.as_os_str(), new.as_os_str()];
    let create =
        ["fmd".as_ref(), "write".as_ref(), old_layout.as_os_str(), made.as_os_str(), "--create".as_ref()];
    let extract = [
        "fmap".as_ref(),
        "extract".as_ref(),
        old.as_os_str(),
        "CAL".as_ref(),
        "-o".as_ref(),
        taken.as_os_str(),
    ];
    for (name, words) in [("new.bin", &carry[..]), ("made.bin", &create), ("cal.bin", &extract)] {
        let gone = ended_process();
        for left in [format!(".{name}.usigrambal-{gone}"), format!(".{name}.usigrambal-{gone}-2")] {
            folder.file(&left, "left");
        }
        // Of a process that runs, of another file, and no file at all.
        let kept =
            [format!(".{name}.usigrambal-{}", std::process::id()), format!(".other.usigrambal-{gone}")];
        kept.iter().for_each(|name| drop(folder.file(name, "kept")));
        let inner = folder.path(&format!(".{name}.usigrambal-{}-9", ended_process()));
        fs::create_dir(&inner).expect("a folder");
        common::run(words).done();
        let mut expected: Vec<_> = kept.to_vec();
        expected.push(inner.file_name().expect("a name").to_str().expect("UTF-8").to_string());
        expected.sort();
        assert_eq!(hidden(&folder), expected, "{name}");
        expected.iter().for_each(|name| {
            let path = folder.path(name);
            fs::remove_file(&path).or_else(|_| fs::remove_dir(&path)).expect("a file or a folder");
        });
    }
}

/// A file of another process that is not seen here (in another container, say) is locked while it is written.
#[test]
fn what_is_locked_stays() {
    let Images { folder, old, new, .. } = images();
    let name = format!(".new.bin.usigrambal-{}", ended_process());
    let held = fs::File::open(folder.file(&name, "kept")).expect("a file");
    held.lock().expect("a lock");
    run!["fmap", "carry", old, new].done();
    assert_eq!(hidden(&folder), [name]);
}

/// A shell that becomes the command keeps its number.
#[test]
fn a_file_that_it_did_not_make_is_not_taken() {
    let Images { folder, old, new, old_layout } = images();
    let shell = |name: &str, words: &[&OsStr]| -> Ended {
        let script = format!("printf mine > .{name}.usigrambal-$$; exec \"$@\"");
        let mut bash = Command::new("bash");
        bash.args(["-c", &script, "bash", common::program()]).args(words);
        bash.current_dir(&folder.0).output().expect("bash").into()
    };
    let made = folder.path("made.bin");
    let carry = ["fmap".as_ref(), "carry".as_ref(), old.as_os_str(), new.as_os_str()];
    let create =
        ["fmd".as_ref(), "write".as_ref(), old_layout.as_os_str(), made.as_os_str(), "--create".as_ref()];
    for (name, words) in [("new.bin", &carry[..]), ("made.bin", &create)] {
        shell(name, words).done();
        let names = hidden(&folder);
        assert_eq!(names.len(), 1, "{names:?}");
        let path = folder.path(&names[0]);
        assert_eq!(fs::read(&path).expect("a file"), b"mine");
        fs::remove_file(path).expect("a file");
    }
    assert_eq!(fs::read(&made).expect("an image").len(), 16 << 20);
}

/// With no signal ignored, whatever these tests were started with: a shell's background jobs ignore SIGINT.
fn spawned(words: &[&OsStr]) -> Child {
    let mut command = common::command();
    command.args(words).stdin(Stdio::null()).stdout(Stdio::null()).stderr(Stdio::null());
    let heeded = || {
        // Safety: it may be called between fork and exec.
        for number in [SIGINT, SIGTERM, SIGHUP] {
            unsafe { signal(number, SIG_DFL) };
        }
        Ok(())
    };
    // Safety: the closure calls nothing else.
    unsafe { command.pre_exec(heeded) };
    command.spawn().expect("the command")
}

/// Sends the signal as soon as a file is being written beside another one; how the call ended, if it was in time.
fn signalled(folder: &Folder, words: &[&OsStr], signal: c_int) -> Option<ExitStatus> {
    let mut child = spawned(words);
    loop {
        if !hidden(folder).is_empty() {
            // Safety: a process of our own, which was not waited for.
            unsafe { kill(child.id() as c_int, signal) };
            return Some(child.wait().expect("an end"));
        }
        if child.try_wait().expect("a state").is_some() {
            return None;
        }
    }
}

/// Calls until a signal came in time: `before` makes everything as it was.
fn in_time(folder: &Folder, words: &[&OsStr], signal: c_int, before: impl Fn()) {
    for _ in 0..200 {
        before();
        if signalled(folder, words, signal).is_some_and(|status| status.signal() == Some(signal)) {
            return;
        }
    }
    panic!("no signal came in time");
}

#[test]
fn a_signal_removes_what_is_being_written() {
    let Images { folder, old, new, old_layout } = images();
    let carry = ["fmap".as_ref(), "carry".as_ref(), old.as_os_str(), new.as_os_str()];
    let made = folder.path("made.bin");
    let create =
        ["fmd".as_ref(), "write".as_ref(), old_layout.as_os_str(), made.as_os_str(), "--create".as_ref()];
    let before = fs::read(&new).expect("an image");
    for signal in [SIGINT, SIGTERM, SIGHUP] {
        in_time(&folder, &carry, signal, || fs::write(&new, &before).expect("an image"));
        assert!(hidden(&folder).is_empty(), "{signal}");
        let after = fs::read(&new).expect("an image");
        let mut carried = before.clone();
        carried[8 << 20..9 << 20].fill(0xFF);
        assert!(after == before || after == carried, "{signal}");
        in_time(&folder, &create, signal, || drop(fs::remove_file(&made)));
        assert!(hidden(&folder).is_empty(), "{signal}");
        assert!(fs::metadata(&made).map_or(true, |made| made.len() == 16 << 20), "{signal}");
    }
}

#[test]
fn a_kill_leaves_the_old_file_and_the_next_call_tidies() {
    let Images { folder, old, new, .. } = images();
    let carry = ["fmap".as_ref(), "carry".as_ref(), old.as_os_str(), new.as_os_str()];
    let before = fs::read(&new).expect("an image");
    let mut left = 0;
    for _ in 0..5 {
        in_time(&folder, &carry, SIGKILL, || fs::write(&new, &before).expect("an image"));
        left += hidden(&folder).len();
        run!["fmap", "carry", old, new].done();
        assert!(hidden(&folder).is_empty());
        assert_eq!(fs::read(&new).expect("an image")[8 << 20..9 << 20], [0xFF; 1 << 20]);
    }
    assert!(left > 0, "nothing was left to tidy");
}

#[test]
fn a_signal_that_is_ignored_stays_ignored() {
    let Images { folder, old, new, .. } = images();
    let before = fs::read(&new).expect("an image");
    for _ in 0..8 {
        fs::write(&new, &before).expect("an image");
        let mut bash = Command::new("bash");
        bash.args(["-c", "trap '' INT; exec \"$@\"", "bash", common::program(), "fmap", "carry"]);
        let mut child = bash.args([&old, &new]).stdout(Stdio::null()).spawn().expect("bash");
        while hidden(&folder).is_empty() && child.try_wait().expect("a state").is_none() {}
        // Safety: a process of our own; if it has ended, no other can have its number before it is waited for.
        unsafe { kill(child.id() as c_int, SIGINT) };
        assert_eq!(child.wait().expect("an end").code(), Some(0));
    }
}
