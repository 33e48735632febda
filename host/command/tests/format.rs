//! `gpt format` writes only where nothing is, and says what it found.

mod common;

use common::{add, disk, spoil, Ended, Folder, Loop};
use std::fs::{self, File};
use std::os::unix::fs::FileExt;
use std::path::{Path, PathBuf};
use std::process::Command;
use testkit::json;
use testkit::peer;

const LEN: usize = 1 << 20;

/// The call is refused with these words, writes nothing, and --replace goes on; --force does not.
#[track_caller]
fn kept(path: &Path, words: &str) {
    let before = fs::read(path).expect("a disk");
    for extra in [&[][..], &["--force"], &["--dry-run"]] {
        let mut command = common::command();
        let ended = command.args(["gpt", "format"]).args(extra).arg(path).output().expect("the command");
        let said = String::from_utf8_lossy(&ended.stderr).into_owned();
        assert_eq!(ended.status.code(), Some(4), "{said}");
        let line = format!("usigrambal: {} holds {words}; nothing was written\n", path.display());
        assert!(said.starts_with(&line), "not {line}: {said}");
        assert!(said.ends_with("\nhint: --replace writes an empty table over it\n"), "{said}");
    }
    assert_eq!(fs::read(path).expect("a disk"), before);
    let json = json::parse(&run!["gpt", "format", path, "--json"].out).expect("JSON");
    assert!(json.text("error").contains(words));
    let replaced = run!["gpt", "format", path, "--replace", "--json"];
    assert_eq!(replaced.status, Some(0), "{}", replaced.err);
    assert_eq!(json::parse(&replaced.out).expect("JSON").text("replaced"), words);
    let shown = run!["gpt", "show", path, "--json"].json();
    assert_eq!((shown.number("state"), shown.list("partitions").len()), (1, 0));
}

fn with(folder: &Folder, name: &str, bytes: &[(usize, &[u8])]) -> PathBuf {
    let path = folder.sparse(name, LEN as u64);
    let file = File::options().write(true).open(&path).expect("a file");
    bytes.iter().for_each(|(at, bytes)| file.write_all_at(bytes, *at as u64).expect("bytes"));
    path
}

#[test]
fn where_nothing_is() {
    let folder = Folder::new();
    for (name, byte) in [("zero.img", 0x00), ("erased.img", 0xFF)] {
        let path = folder.file(name, vec![byte; LEN]);
        let json = run!["gpt", "format", path, "--json"].json();
        assert_eq!(json.at("replaced"), &json::Json::Null);
        let bytes = fs::read(&path).expect("an image");
        assert!(bytes[17_408..LEN - 16_896].iter().all(|found| *found == byte));
    }
    // Behind the first 128 KiB and in front of the tail any byte may stand.
    let path = with(&folder, "behind.img", &[(128 << 10, b"x"), (LEN - 16_897, b"x")]);
    run!["gpt", "format", path].done();
    // The smallest disk is shorter than 128 KiB.
    let path = folder.sparse("small.img", 68 * 512);
    run!["gpt", "format", path].done();
}

#[test]
fn other_bytes() {
    let folder = Folder::new();
    let words = "bytes that are neither all 00 nor all FF";
    kept(&with(&folder, "a.img", &[(17_408, b"x")]), &format!("{words}, from byte 17408 on"));
    kept(&with(&folder, "b.img", &[((128 << 10) - 1, b"x")]), &format!("{words}, from byte 131071 on"));
    kept(&with(&folder, "c.img", &[(LEN - 1, b"x")]), &format!("{words}, in the last 33 blocks"));
    kept(&with(&folder, "d.img", &[(LEN - 16_896, b"\xFF")]), &format!("{words}, in the last 33 blocks"));
}

#[test]
fn a_good_table() {
    let folder = Folder::new();
    let path = folder.sparse("disk.img", LEN as u64);
    let guid = "01234567-89AB-4CDE-8F01-23456789ABCD";
    run!["gpt", "format", path, "--guid", guid].done();
    // Also where no byte would change.
    run!["gpt", "format", path, "--guid", guid].needed("holds a good GPT with 0 partitions");
    kept(&path, "a good GPT with 0 partitions");
    add(&path, "10", "a");
    kept(&path, "a good GPT with 1 partition");
    add(&path, "10", "a");
    add(&path, "10", "b");
    spoil(&path, 512);
    kept(&path, "a GPT with 2 partitions (the primary copy is not good; the backup is used)");
}

#[test]
fn a_table_that_is_not_good() {
    let folder = Folder::new();
    let path = disk(&folder, "disk.img", 2048);
    spoil(&path, 512 + 56);
    spoil(&path, 2047 * 512);
    let said =
        "a GPT that is not good (primary copy: the header's CRC is wrong; backup copy: no GPT signature)";
    kept(&path, said);
    let path = disk(&folder, "record.img", 2048);
    let file = File::options().write(true).open(&path).expect("a file");
    for (at, len) in [(512, 16_896), (LEN - 16_896, 16_896)] {
        file.write_all_at(&vec![0; len], at as u64).expect("bytes");
    }
    kept(&path, "a protective MBR without its GPT");
}

#[test]
fn an_mbr() {
    let folder = Folder::new();
    let record = |kind: u8| [0, 0, 2, 0, kind, 0, 0, 0, 8, 0, 0, 0, 100, 0, 0, 0];
    let path = with(&folder, "a.img", &[(446, &record(0x83)), (478, &record(0x0C)), (510, b"\x55\xAA")]);
    kept(&path, "an MBR with 2 partitions (1: type 83 hex, 50 KiB; 3: type 0c hex, 50 KiB)");
    let path =
        with(&folder, "b.img", &[(446, &record(0x07)), (510, b"\x55\xAA"), (0, b"\xEB\x63\x90 boot code")]);
    let ended = run!["gpt", "format", path];
    let said = "usigrambal: warning: block 0 has boot code, which a new table overwrites\n";
    assert!(ended.status == Some(4) && ended.err.contains(said), "{}", ended.err);
    let ended = run!["gpt", "format", path, "--replace", "--dry-run"];
    assert!(
        ended.status == Some(0) && ended.err.ends_with("warning: the boot code in block 0 would be gone\n")
    );
    let ended = run!["gpt", "format", path, "--replace", "--json"];
    assert!(ended.status == Some(0) && ended.err.ends_with("warning: the boot code in block 0 is gone\n"));
    let json = json::parse(&ended.out).expect("JSON");
    assert_eq!(json.list("warnings"), [json::Json::Text("the boot code in block 0 is gone".into())]);
    assert_eq!(json.text("replaced"), "an MBR with 1 partition (1: type 07 hex, 50 KiB)");
    assert!(fs::read(&path).expect("an image")[..446].iter().all(|byte| *byte == 0));
}

#[test]
fn a_file_system_by_its_name() {
    if !peer::present("blkid", "util-linux") || !peer::present("mkfs.ext4", "e2fsprogs") {
        return;
    }
    let folder = Folder::new();
    let path = folder.sparse("ext4.img", 8 << 20);
    peer::run("mkfs.ext4", ["-q".as_ref(), "-L".as_ref(), "pages".as_ref(), path.as_os_str()]);
    kept(&path, "a file system, ext4, labelled \"pages\"");
    let path = folder.sparse("swap.img", 8 << 20);
    peer::run("mkswap", [&path]);
    kept(&path, "a signature of swap");
}

/// First usable block 2048, as sfdisk has it by default.
#[test]
fn a_table_by_sfdisks_defaults() {
    if !peer::present("sfdisk", "fdisk") {
        return;
    }
    let folder = Folder::new();
    let path = folder.sparse("disk.img", 64 << 20);
    peer::feed("sfdisk", ["-q".as_ref(), path.as_os_str()], "label: gpt\n,10M\n");
    let why = "its first usable block is 2048, where this library has 34";
    kept(&path, &format!("a GPT that is not good (both copies: {why})"));
    let path = folder.sparse("mbr.img", 64 << 20);
    peer::feed("sfdisk", ["-q".as_ref(), path.as_os_str()], "label: dos\n,10M\n,5M,c\n");
    kept(&path, "an MBR with 2 partitions (1: type 83 hex, 10 MiB; 2: type 0c hex, 5 MiB)");
}

/// In use by a lock: judged first, not lifted by --replace, and --force lifts nothing else.
#[test]
fn a_locked_disk() {
    let folder = Folder::new();
    let path = disk(&folder, "disk.img", 2048);
    let held = File::open(&path).expect("an image");
    held.lock_shared().expect("a lock");
    let locked = "is in use (locked by another program)";
    std::thread::scope(|scope| {
        for (words, said) in [
            (&[][..], locked),
            (&["--replace"], locked),
            (&["--replace", "--dry-run"], locked),
            (&["--force"], "holds a good GPT with 0 partitions"),
        ] {
            let path = &path;
            scope.spawn(move || {
                let output = common::command().args(["gpt", "format"]).args(words).arg(path).output();
                Ended::from(output.expect("the command")).needed(said);
            });
        }
    });
    run!["gpt", "format", path, "--force", "--replace"].done();
}

/// A mounted file system, unmounted when it is dropped.
struct Mounted(PathBuf);

impl Mounted {
    fn new(device: &Path, at: &Path) -> Option<Mounted> {
        let mounted = Command::new("mount").arg(device).arg(at).status();
        mounted.is_ok_and(|mounted| mounted.success()).then(|| Mounted(at.to_path_buf()))
    }
}

impl Drop for Mounted {
    fn drop(&mut self) {
        let _ = Command::new("umount").arg(&self.0).status();
    }
}

/// A mounted partition, which --replace does not lift; the disk's file is in use as the device.
#[test]
fn in_use_is_judged_first() {
    let folder = Folder::new();
    let file = disk(&folder, "disk.img", 65_536);
    add(&file, "16M", "pages");
    let Some(device) = Loop::new(&file, &["-P"]) else { return };
    let part = PathBuf::from(format!("{}p1", device.0.display()));
    if !part.exists() {
        // A kernel that reads no GPT is told.
        let _ = Command::new("addpart").arg(&device.0).args(["1", "34", "32768"]).status();
    }
    let made = Command::new("mkfs.ext4").arg("-q").arg(&part).status();
    let at = folder.path("mounted");
    fs::create_dir(&at).expect("a folder");
    let Some(mounted) = Mounted::new(&part, &at).filter(|_| made.is_ok_and(|made| made.success())) else {
        common::skipped("mounted partitions of loop devices");
        return;
    };
    let before = fs::read(&file).expect("an image");
    let in_use = format!("is in use ({} is mounted at {})", part.display(), at.display());
    run!["gpt", "format", device.0].needed(&in_use);
    run!["gpt", "format", device.0, "--replace"].needed(&in_use);
    run!["gpt", "format", device.0, "--replace", "--dry-run"].needed(&in_use);
    run!["gpt", "format", device.0, "--force"].needed("holds a good GPT with 1 partition");
    run!["gpt", "add", device.0, "--size", "1"].needed(&in_use);
    let tried = run!["gpt", "add", device.0, "--size", "1", "--dry-run"];
    assert!(
        tried.status == Some(0) && tried.err.contains(&format!("warning: {} {in_use}", device.0.display()))
    );
    let as_device = format!("is in use (it is the device {} too)", device.0.display());
    run!["gpt", "format", file].needed(&as_device);
    run!["gpt", "format", file, "--replace"].needed(&as_device);
    drop(mounted);
    let partition = |bytes: &[u8]| bytes[..17_408].to_vec();
    assert_eq!(partition(&fs::read(&file).expect("an image")), partition(&before));
    let ended = run!["gpt", "format", device.0, "--replace"];
    assert_eq!(ended.status, Some(0), "{}", ended.err);
}
