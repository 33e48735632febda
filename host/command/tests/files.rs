//! Files that suit and files that don't, and what is kept of those that are written.

mod common;

use common::{add, disk, Ended, Folder};
use std::ffi::OsStr;
use std::fs::{self, File, Permissions};
use std::os::unix::fs::{chown, symlink, MetadataExt, PermissionsExt};
use std::path::PathBuf;
use std::process::{Command, Stdio};

const OLD: &str = "CHIP 64K { FMAP 1K CAL(PRESERVE)@2K 1K }";
const NEW: &str = "CHIP 64K { FMAP 1K CAL(PRESERVE)@8K 1K }";

/// Layout, old image and new image: a carry changes the new one.
fn images(folder: &Folder) -> (PathBuf, PathBuf, PathBuf) {
    let layout = folder.file("new.fmd", NEW);
    let (old, new) = (folder.path("old.bin"), folder.path("new.bin"));
    let old_layout = folder.file("old.fmd", OLD);
    run!["fmd", "write", old_layout, old, "--create"].done();
    fs::write(&new, vec![0; 65_536]).expect("an image");
    run!["fmd", "write", layout, new].done();
    (layout, old, new)
}

#[test]
fn what_is_no_file_or_device_is_not_opened() {
    let folder = Folder::new();
    let (layout, old, _) = images(&folder);
    let pipe = folder.path("pipe");
    assert!(Command::new("mkfifo").arg(&pipe).status().expect("mkfifo").success());
    let missing = folder.path("missing");
    for (path, words) in [
        (folder.0.as_path(), "is a folder, not an image file or a block device"),
        (pipe.as_path(), "is a pipe"),
        ("/dev/null".as_ref(), "is a character device"),
        (missing.as_path(), "does not exist"),
    ] {
        run!["gpt", "show", path].unusable(words);
        run!["gpt", "format", path].unusable(words);
        run!["gpt", "add", path, "--size", "1"].unusable(words);
        run!["fmap", "show", path].unusable(words);
        run!["fmap", "carry", path, old].unusable(words);
        run!["fmap", "carry", old, path].unusable(words);
        run!["fmap", "extract", path, "FMAP"].unusable(words);
        run!["fmd", "write", layout, path].unusable(words);
    }
    run!["fmd", "list", missing].unusable("does not exist");
    run!["fmd", "list", folder.0].unusable("cannot be read: Is a directory");
    assert!(!missing.exists());
}

#[test]
fn a_read_only_file_is_not_written() {
    let folder = Folder::new();
    let (layout, old, new) = images(&folder);
    let image = disk(&folder, "disk.img", 100);
    fs::write(&new, vec![0; 65_536]).expect("an image");
    run!["fmd", "write", layout, new].done();
    for path in [&new, &image] {
        fs::set_permissions(path, Permissions::from_mode(0o444)).expect("a mode");
    }
    let before = (fs::read(&new).unwrap(), fs::read(&image).unwrap());
    run!["gpt", "add", image, "--size", "1", "--align", "1"].unusable("is read-only");
    run!["gpt", "format", image].unusable("is read-only");
    run!["fmap", "carry", old, new].unusable("is read-only");
    let other = folder.file("other.fmd", "CHIP 64K { FMAP 1K A 1K }");
    run!["fmd", "write", other, new].unusable("is read-only");
    run!["fmap", "extract", old, "CAL", "-o", new].unusable("is read-only");
    run!["fmap", "extract", old, "CAL", "-o", new].unusable("another file can be named");
    assert_eq!((fs::read(&new).unwrap(), fs::read(&image).unwrap()), before);
    // What writes nothing goes on.
    run!["gpt", "show", image].done();
    run!["gpt", "repair", image].done();
    run!["gpt", "add", image, "--size", "1", "--align", "1", "--dry-run"].done();
    run!["gpt", "add", image, "--size", "0"].refused(20);
    run!["fmap", "carry", old, new, "--dry-run"].done();
}

#[test]
fn one_file_by_two_paths() {
    let folder = Folder::new();
    let (layout, old, _) = images(&folder);
    let (link, hard) = (folder.path("link"), folder.path("hard"));
    symlink(&old, &link).expect("a link");
    fs::hard_link(&old, &hard).expect("a link");
    for other in [&old, &link, &hard] {
        run!["fmap", "carry", old, other].usage("are the same file");
        run!["fmap", "carry", other, old, "--dry-run"].usage("are the same file");
    }
    run!["fmd", "write", layout, layout].usage("are the same file");
}

#[test]
fn mode_owner_and_link_are_kept() {
    let folder = Folder::new();
    let (layout, old, new) = images(&folder);
    let link = folder.path("link.bin");
    symlink("new.bin", &link).expect("a link");
    fs::set_permissions(&new, Permissions::from_mode(0o640)).expect("a mode");
    let root = fs::metadata(&new).expect("a file").uid() == 0;
    if root {
        chown(&new, Some(1234), Some(4321)).expect("an owner");
    }
    let kept = |path: &PathBuf| {
        let found = fs::metadata(path).expect("a file");
        (found.mode(), found.uid(), found.gid())
    };
    let before = (kept(&new), fs::read(&new).unwrap());
    run!["fmap", "carry", old, link].done();
    assert!(fs::symlink_metadata(&link).expect("a link").is_symlink());
    assert_eq!(kept(&new), before.0);
    assert_eq!(fs::read(&new).unwrap()[0x2000..0x2400], [0xFF; 0x400]);
    let other = folder.file("other.fmd", "CHIP 64K { FMAP 1K A 1K }");
    run!["fmd", "write", other, link].done();
    assert!(fs::symlink_metadata(&link).expect("a link").is_symlink());
    assert_eq!(kept(&new), before.0);
    run!["fmd", "write", layout, link].done();
    // By name alone, in the folder itself.
    let here =
        common::command().current_dir(&folder.0).args(["fmd", "write", "other.fmd", "link.bin"]).output();
    Ended::from(here.expect("the command")).done();
    assert_eq!(folder.names(), ["link.bin", "new.bin", "new.fmd", "old.bin", "old.fmd", "other.fmd"]);
}

/// A file may have no more than 8 KiB here: the old file stays, and nothing lies beside it.
#[test]
fn a_new_file_that_cannot_be_written() {
    let folder = Folder::new();
    let (_, old, new) = images(&folder);
    let before = fs::read(&new).unwrap();
    let limited = |words: &[&OsStr]| -> Ended {
        let script = "trap '' XFSZ; ulimit -f 8; exec \"$@\"";
        let mut bash = Command::new("bash");
        bash.args(["-c", script, "bash", common::program()]).args(words);
        bash.output().expect("bash").into()
    };
    let carry = ["fmap".as_ref(), "carry".as_ref(), old.as_os_str(), new.as_os_str()];
    limited(&carry).unusable("is as it was: the new file beside it could not be written: File too large");
    assert_eq!(fs::read(&new).unwrap(), before);
    let made = folder.path("made.bin");
    let layout = folder.path("old.fmd");
    let create =
        ["fmd".as_ref(), "write".as_ref(), layout.as_os_str(), made.as_os_str(), "--create".as_ref()];
    limited(&create).unusable("was not made: File too large");
    assert_eq!(folder.names(), ["new.bin", "new.fmd", "old.bin", "old.fmd"]);
}

#[test]
fn calls_at_once_follow_each_other() {
    let folder = Folder::new();
    let image = disk(&folder, "disk.img", 1000);
    std::thread::scope(|scope| {
        for name in 0..5 {
            let image = &image;
            scope.spawn(move || add(image, "10", &name.to_string()));
        }
    });
    let shown = run!["gpt", "show", image, "--json"].json();
    assert_eq!((shown.number("state"), shown.list("partitions").len()), (1, 5));
}

/// Each carry that was told as done is in the image, however many are at work.
#[test]
fn carries_at_once_lose_nothing() {
    let folder = Folder::new();
    let names = ["A", "B", "C", "D", "E", "F"];
    let layout = |kept: &str| {
        let sections =
            names.map(|name| format!("{name}{} 1K ", if name == kept { "(PRESERVE)" } else { "" }));
        format!("CHIP 64K {{ FMAP 1K {}}}", sections.concat())
    };
    let new = folder.path("new.bin");
    fs::write(&new, vec![0; 65_536]).expect("an image");
    let new_layout = folder.file("new.fmd", layout(""));
    run!["fmd", "write", new_layout, new].done();
    let olds = names.map(|name| {
        let (old, text) = (folder.path(name), folder.file("old.fmd", layout(name)));
        run!["fmd", "write", text, old, "--create"].done();
        old
    });
    let carried: Vec<Ended> = std::thread::scope(|scope| {
        let new = &new;
        let calls = olds.iter().map(|old| scope.spawn(move || run!["fmap", "carry", old, new]));
        calls.collect::<Vec<_>>().into_iter().map(|call| call.join().expect("a call")).collect()
    });
    let mut done = 0;
    for (name, ended) in names.into_iter().zip(carried) {
        if ended.status == Some(0) {
            assert_eq!(run!["fmap", "extract", new, name].bytes, [0xFF; 1024], "{name}");
            done += 1;
        } else {
            ended.needed("was changed by another program meanwhile; nothing was written");
        }
    }
    assert!(done > 0);
}

#[test]
fn a_lock_of_another_program_is_heeded() {
    let folder = Folder::new();
    let image = disk(&folder, "disk.img", 100);
    let held = File::open(&image).expect("an image");
    held.lock_shared().expect("a lock");
    std::thread::scope(|scope| {
        scope.spawn(|| run!["gpt", "show", image].done());
        scope.spawn(|| {
            run!["gpt", "add", image, "--size", "1", "--align", "1"]
                .needed("is in use (locked by another program)")
        });
    });
    run!["gpt", "add", image, "--size", "1", "--align", "1", "--force"].done();
    drop(held);
    run!["gpt", "add", image, "--size", "1", "--align", "1"].done();
}

#[test]
fn standard_output_that_is_gone_or_full() {
    let folder = Folder::new();
    let image = disk(&folder, "disk.img", 100);
    let mut child = common::command()
        .args(["gpt".as_ref(), "show".as_ref(), image.as_os_str()])
        .stdin(Stdio::null())
        .stdout(Stdio::piped())
        .stderr(Stdio::piped())
        .spawn()
        .expect("the command");
    drop(child.stdout.take());
    Ended::from(child.wait_with_output().expect("the command")).done();
    let full = File::options().write(true).open("/dev/full").expect("/dev/full");
    let output =
        common::command().args(["gpt".as_ref(), "show".as_ref(), image.as_os_str()]).stdout(full).output();
    Ended::from(output.expect("the command")).unusable("standard output cannot be written: No space left");
}

/// util-linux's `script` runs a command on a terminal.
#[test]
fn raw_bytes_do_not_go_to_a_terminal() {
    if !testkit::peer::present("script", "bsdutils") {
        return;
    }
    let folder = Folder::new();
    let (_, old, _) = images(&folder);
    let line = format!("{} fmap extract {} CAL", common::program(), old.display());
    let output = Command::new("script").args(["-qec", &line, "/dev/null"]).stdin(Stdio::null()).output();
    let ended = Ended::from(output.expect("script"));
    assert_eq!(ended.status, Some(2), "{}", ended.out);
    assert!(ended.out.contains("standard output is a terminal"), "{}", ended.out);
}

#[test]
fn paths_need_not_be_utf_8() {
    use std::os::unix::ffi::OsStrExt;
    let folder = Folder::new();
    let image = folder.0.join(OsStr::from_bytes(b"disk-\xFF.img"));
    File::create(&image).and_then(|file| file.set_len(51_200)).expect("a file");
    run!["gpt", "format", image].done();
    run!["gpt", "show", image, "--json"].json();
}
