//! Block devices, where loop devices can be had.

mod common;

use common::strings::string;
use common::{add, Ended, Folder, Loop};
use std::fs::{self, File};
use std::os::unix::fs::{symlink, FileExt, OpenOptionsExt};
use std::path::{Path, PathBuf};
use std::process::{Command, Stdio};
use std::thread;
use std::time::{Duration, Instant};
use testkit::{listing, peer};

const O_EXCL: i32 = 0o200;

#[test]
fn a_disk_on_a_device() {
    let folder = Folder::new();
    let file = folder.sparse("disk.img", 1 << 20);
    let Some(device) = Loop::new(&file, &[]) else { return };
    let path = &device.0;
    let formatted = run!["gpt", "format", path].done();
    assert!(formatted.contains("2048 blocks (1 MiB) of 512 bytes, usable 34 to 2014"), "{formatted}");
    assert_eq!(add(path, "100K", "a").number("last"), 233);
    assert_eq!(add(path, "1", "b").number("first"), 234);
    run!["gpt", "resize", path, "2", "9"].done();
    run!["gpt", "rename", path, "2", "c"].done();
    run!["gpt", "delete", path, "1"].done();
    run!["gpt", "add", path, "--size", "1M"].refused(25);
    let shown = run!["gpt", "show", path, "--json"].json();
    assert_eq!((shown.number("state"), shown.number("blocks")), (1, 2048));
    assert_eq!(shown.list("partitions")[0].text("name"), "c");
    run!["gpt", "verify", path].done();
    // The bytes are in the file behind it.
    run!["gpt", "verify", file].done();
}

/// Of one string on devices of both block sizes: the same bytes of each belong to a partition.
#[test]
fn a_layout_string_on_a_device() {
    let string = string(&["name=a,size=64KiB,start=512KiB,bootable", "name=b,size=0,type=linux"]);
    for (block, scale) in [("512", 8), ("4096", 1)] {
        let folder = Folder::new();
        let file = folder.sparse("disk.img", 1 << 20);
        let Some(device) = Loop::new(&file, &["-b", block]) else { return };
        let path = &device.0;
        run!["gpt", "build", path, "--text", string, "--align", "8"].done();
        let rows = common::partitions(&run!["gpt", "show", path, "--json"].json());
        let places: Vec<_> = rows.iter().map(|row| (row.first, row.last)).collect();
        let lowest = if scale == 1 { 8 } else { 40 };
        assert_eq!(places, [(128 * scale, 144 * scale - 1), (lowest, 128 * scale - 1)]);
        if peer::present("sgdisk", "gdisk") {
            assert_eq!(listing::sgdisk(path), rows);
        }
        let held = File::options().read(true).custom_flags(O_EXCL).open(path).expect("a device");
        run!["gpt", "build", path, "--text", string, "--align", "8", "--replace"].needed("is in use");
        drop(held);
        wait_until_free(path);
        run!["gpt", "build", path, "--text", string, "--align", "1"]
            .needed("holds a good GPT with 2 partitions");
        run!["gpt", "verify", path].done();
    }
}

#[test]
fn a_device_in_use() {
    in_use("512");
    in_use("4096");
}

fn in_use(block: &str) {
    let folder = Folder::new();
    let file = folder.sparse("disk.img", 1 << 20);
    let Some(device) = Loop::new(&file, &["-b", block]) else { return };
    let path = &device.0;
    run!["gpt", "format", path].done();
    let held = File::options().read(true).custom_flags(O_EXCL).open(path).expect("a device");
    let before = fs::read(path).expect("a device");
    run!["gpt", "add", path, "--size", "1", "--align", "1"]
        .needed("is in use (mounted, or held by another program)");
    run!["gpt", "format", path].needed("is in use");
    assert_eq!(fs::read(path).expect("a device"), before);
    run!["gpt", "show", path].done();
    let tried = run!["gpt", "add", path, "--size", "1", "--align", "1", "--dry-run"];
    assert!(tried.out.starts_with("would add partition 1"), "{}", tried.err);
    let warning = "usigrambal: warning: ";
    assert!(tried.err.starts_with(warning) && tried.err.contains("is in use"), "{}", tried.err);
    // The kernel does not read the table of a device in use.
    let forced = run!["gpt", "add", path, "--size", "1", "--align", "8", "--force"];
    assert_eq!(forced.status, Some(0), "{}", forced.err);
    assert!(forced.err.is_empty() || forced.err.contains("warning: the kernel still goes by the old table"));
    drop(held);
    wait_until_free(path);
    run!["gpt", "add", path, "--size", "1", "--align", "1"].done();
    assert_eq!(run!["gpt", "show", path, "--json"].json().list("partitions").len(), 2);
}

/// A program that another test is just starting has a copy of the descriptor until it runs.
fn wait_until_free(path: &Path) {
    let held = || File::options().read(true).custom_flags(O_EXCL).open(path).is_err();
    (0..500).take_while(|_| held()).for_each(|_| thread::sleep(Duration::from_millis(10)));
}

/// A device goes by its own blocks: no word is needed.
#[test]
fn logical_blocks_of_4096_bytes() {
    let folder = Folder::new();
    let file = folder.sparse("disk.img", 1 << 20);
    let Some(device) = Loop::new(&file, &["-b", "4096"]) else { return };
    let path = &device.0;
    let formatted = run!["gpt", "format", path].done();
    assert!(formatted.contains("256 blocks (1 MiB) of 4096 bytes, usable 6 to 250"), "{formatted}");
    assert_eq!(add(path, "100K", "a").number("last"), 30);
    assert_eq!(add(path, "1", "b").number("first"), 31);
    run!["gpt", "resize", path, "2", "36K"].done();
    run!["gpt", "rename", path, "2", "c"].done();
    run!["gpt", "delete", path, "1"].done();
    run!["gpt", "add", path, "--size", "1M"].refused(25);
    run!["gpt", "add", path, "--size", "1K"].usage("1K is no whole number of blocks of 4096 bytes");
    for words in [&[][..], &["--block", "4096"]] {
        let mut command = common::command();
        let output = command.args(["gpt", "show", "--json"]).arg(path).args(words).output();
        let shown = Ended::from(output.expect("the command")).json();
        assert_eq!((shown.number("blocks"), shown.number("block_bytes")), (256, 4096));
        assert_eq!((shown.text("block_by"), shown.number("state")), ("device", 1));
        let part = &shown.list("partitions")[0];
        assert_eq!((part.text("name"), part.number("first"), part.number("last")), ("c", 31, 39));
    }
    run!["gpt", "verify", path].done();
    common::spoil(path, 4096);
    let ended = run!["gpt", "verify", path];
    let repair = format!("hint: usigrambal gpt repair {} makes both copies alike\n", path.display());
    assert!(ended.status == Some(1) && ended.out.ends_with(&repair), "{}", ended.out);
    run!["gpt", "repair", path].done();
    // The bytes are in the file behind it.
    assert_eq!(run!["gpt", "verify", file, "--json"].json().text("block_by"), "table");
    common::at_4096("verify", &file, &[]).done();
}

/// sgdisk, sfdisk and cgpt list a device with such blocks as the command does.
#[test]
fn other_tools_list_longer_blocks() {
    let folder = Folder::new();
    let file = folder.sparse("disk.img", 64 << 20);
    let Some(device) = Loop::new(&file, &["-b", "4096"]) else { return };
    let path = &device.0;
    run!["gpt", "format", path].done();
    for (size, kind, name, attributes) in [
        ("10M", "system", "EFI System", "0x1"),
        ("2048", "linux", "boot", "4"),
        ("4MiB", "swap", "swap", "0"),
        ("4K", "msft", "", "0x8000000000000000"),
    ] {
        let ended = run![
            "gpt",
            "add",
            path,
            "--size",
            size,
            "--type",
            kind,
            "--name",
            name,
            "--attributes",
            attributes
        ];
        ended.done();
    }
    run!["gpt", "delete", path, "3"].done();
    run!["gpt", "resize", path, "2", "4M"].done();
    let shown = common::partitions(&run!["gpt", "show", path, "--json"].json());
    // By hand: each from the next multiple of 2048 on. 10 MiB are 2560 blocks; 2048 follow, of which 1024 stay; 1024 were
    // behind these, from 8192 on.
    let places: Vec<_> = shown.iter().map(|row| (row.slot, row.first, row.last)).collect();
    assert_eq!(places, [(1, 2048, 4607), (2, 6144, 7167), (4, 10_240, 10_240)]);
    if peer::present("sgdisk", "gdisk") {
        assert_eq!(listing::sgdisk(path), shown);
        let verdict = peer::printed("sgdisk", ["-v".as_ref(), path.as_os_str()]);
        assert!(verdict.contains("No problems found"), "{verdict}");
    }
    if peer::present("sfdisk", "fdisk") {
        let listed = peer::printed("sfdisk", ["-d".as_ref(), path.as_os_str()]);
        assert!(listed.contains("\nfirst-lba: 6\nlast-lba: 16378\nsector-size: 4096\n"), "{listed}");
        // By a name without digits, behind which it puts a partition's number.
        let name = folder.path("device");
        symlink(path, &name).expect("a link");
        assert_eq!(listing::sfdisk(&name), shown);
    }
    if peer::present("cgpt", "cgpt") {
        assert_eq!(listing::cgpt(path, [1, 2, 4]), shown);
    }
}

/// A table of sgdisk's and one of sfdisk's.
#[test]
fn longer_blocks_of_other_tools() {
    let folder = Folder::new();
    let file = folder.sparse("disk.img", 4 << 20);
    let Some(device) = Loop::new(&file, &["-b", "4096"]) else { return };
    let path = &device.0;
    if peer::present("sgdisk", "gdisk") {
        peer::run("sgdisk", ["-a", "1", "-n", "1:100:149", "-c", "1:a", path.to_str().expect("UTF-8")]);
        let placed = add(path, "94", "b");
        assert_eq!((placed.number("number"), placed.number("first"), placed.number("last")), (2, 6, 99));
        run!["gpt", "verify", path].done();
    }
    if peer::present("sfdisk", "fdisk") {
        let script = "label: gpt\nfirst-lba: 6\nstart=100, size=50, name=a\n";
        let options = ["-q", "--wipe", "always", path.to_str().expect("UTF-8")];
        peer::feed("sfdisk", options, script);
        assert_eq!(add(path, "94", "b").number("last"), 99);
        run!["gpt", "verify", path].done();
    }
}

/// --block may say what the device has, and nothing else.
#[test]
fn a_device_and_the_option() {
    let folder = Folder::new();
    for (own, asked) in [("512", "4096"), ("4096", "512")] {
        let file = folder.sparse(&format!("{own}.img"), 1 << 20);
        let Some(device) = Loop::new(&file, &["-b", own]) else { return };
        let said = format!("has logical blocks of {own} bytes, and --block says {asked}");
        for verb in ["show", "free", "verify", "format", "repair"] {
            let ended = run!["gpt", verb, device.0, "--block", asked];
            let way = format!("losetup -b {asked} -f --show {}", device.0.display());
            let made = format!("{way} makes a device of it with blocks of {asked} bytes");
            assert_eq!(ended.hint(), format!("a device goes by its own; {made}"));
            ended.unusable(&said);
        }
        assert!(fs::read(&file).expect("a file").iter().all(|byte| *byte == 0));
        run!["gpt", "format", device.0, "--block", own].done();
    }
}

/// A disk that was written by way of another adapter: the hint says what is there, and how it is reached.
#[test]
fn a_device_with_a_table_of_other_blocks() {
    let folder = Folder::new();
    let file = common::disk(&folder, "disk.img", 2048);
    add(&file, "10", "a");
    let Some(device) = Loop::new(&file, &["-b", "4096"]) else { return };
    let path = device.0.display();
    let way = format!("losetup -b 512 -f --show {path} makes a device of it with blocks of 512 bytes");
    let there = "a table for blocks of 512 bytes is there (both copies are good and the same)";
    for verb in ["show", "free", "verify", "repair"] {
        let refused = run!["gpt", verb, device.0];
        assert_eq!(refused.hint(), format!("{there}, but the device has blocks of 4096; {way}"));
        refused.refused(10);
    }
    run!["gpt", "format", device.0].needed("holds a good GPT with 1 partition, for blocks of 512 bytes");
    let Some(other) = Loop::new(&device.0, &["-b", "512"]) else { return };
    let shown = run!["gpt", "show", other.0, "--json"].json();
    assert_eq!((shown.number("block_bytes"), shown.list("partitions").len()), (512, 1));
}

/// Blocks of neither size.
#[test]
fn other_logical_blocks() {
    let folder = Folder::new();
    let file = folder.sparse("disk.img", 1 << 20);
    for bytes in ["1024", "2048"] {
        let Some(device) = Loop::new(&file, &["-b", bytes]) else { return };
        let path = device.0.display();
        for verb in ["show", "free", "verify", "format", "repair"] {
            let refused = run!["gpt", verb, device.0];
            let way =
                format!("losetup -b 512 -f --show {path} makes a device of it with blocks of 512 bytes");
            assert_eq!(refused.hint(), format!("the device has logical blocks of {bytes} bytes; {way}"));
            let said = format!("{path}: the block size is neither 512 nor 4096: {bytes} bytes");
            assert_eq!(refused.refused(6), said);
        }
    }
    assert!(fs::read(&file).expect("a file").iter().all(|byte| *byte == 0));
}

#[test]
fn a_read_only_device() {
    let folder = Folder::new();
    let file = common::disk(&folder, "disk.img", 2048);
    let Some(device) = Loop::new(&file, &["-r"]) else { return };
    run!["gpt", "add", device.0, "--size", "1", "--align", "1"].unusable("is read-only");
    run!["gpt", "show", device.0].done();
}

/// The kernel reads the new table, if it can read a GPT.
#[test]
fn partitions_appear() {
    let folder = Folder::new();
    let file = common::disk(&folder, "disk.img", 2048);
    add(&file, "10", "a");
    let Some(device) = Loop::new(&file, &["-P"]) else { return };
    let path = &device.0;
    let name = path.file_name().and_then(|name| name.to_str()).expect("a name");
    let size = |slot: u64| fs::read_to_string(format!("/sys/block/{name}/{name}p{slot}/size")).ok();
    if size(1).is_none() {
        common::skipped("partitions of loop devices");
        return;
    }
    add(path, "30", "b");
    assert_eq!(size(2).as_deref(), Some("30\n"));
    run!["gpt", "resize", path, "2", "20"].done();
    assert_eq!(size(2).as_deref(), Some("20\n"));
    run!["gpt", "delete", path, "1"].done();
    assert_eq!((size(1), size(2).as_deref()), (None, Some("20\n")));
}

/// On a device the changed bytes alone are written, and the device stays.
#[test]
fn a_flash_image_on_a_device() {
    let folder = Folder::new();
    let old_layout = folder.file("old.fmd", "CHIP 64K { FMAP 1K CAL(PRESERVE)@2K 1K }");
    let new_layout = folder.file("new.fmd", "CHIP 64K { FMAP 1K CAL(PRESERVE)@8K 1K }");
    let (old, file) = (folder.path("old.bin"), folder.file("new.bin", vec![0xA5; 65_536]));
    run!["fmd", "write", old_layout, old, "--create"].done();
    let bytes: Vec<u8> = (0..1024u32).map(|k| (k * 7) as u8).collect();
    File::options().write(true).open(&old).and_then(|old| old.write_all_at(&bytes, 0x800)).expect("an image");
    let Some(device) = Loop::new(&file, &[]) else { return };
    let path = &device.0;
    run!["fmd", "write", new_layout, path].done();
    run!["fmap", "carry", old, path, "--dry-run"].done();
    run!["fmap", "carry", path, path].usage("are the same file");
    run!["fmap", "carry", old, path].done();
    assert!(run!["fmap", "carry", old, path].done().contains("the same bytes already"));
    let after = fs::read(path).expect("a device");
    assert_eq!(after[0x2000..0x2400], bytes);
    assert!(after[0x400..0x2000].iter().chain(&after[0x2400..]).all(|byte| *byte == 0xA5));
    let ended = run!["fmap", "extract", path, "CAL"];
    assert_eq!(ended.bytes, bytes);
}

/// Every second byte of 15 MiB differs.
fn dotted(folder: &Folder) -> (PathBuf, PathBuf) {
    let layout = folder.file("dotted.fmd", "CHIP 16M { FMAP 1K CAL(PRESERVE)@1M 15M }");
    let (old, new) = (folder.path("dotted.bin"), folder.path("plain.bin"));
    for path in [&old, &new] {
        run!["fmd", "write", layout, path, "--create"].done();
    }
    let bytes: Vec<u8> = (0..15 << 20).map(|k: u32| if k % 2 == 0 { 0xFF } else { 0 }).collect();
    let file = File::options().write(true).open(&old).expect("an image");
    file.write_all_at(&bytes, 1 << 20).expect("an image");
    (old, new)
}

#[test]
fn neighbouring_changes_are_written_together() {
    let folder = Folder::new();
    let (old, new) = dotted(&folder);
    let Some(device) = Loop::new(&new, &[]) else { return };
    let start = Instant::now();
    run!["fmap", "carry", old, device.0].done();
    let taken = start.elapsed();
    assert!(taken < Duration::from_secs(10), "{taken:?}");
    assert!(fs::read(&device.0).expect("a device") == fs::read(&old).expect("an image"));
}

/// util-linux's `script` runs a command on a terminal.
#[test]
fn a_long_write_shows_how_far_it_is() {
    if !testkit::peer::present("script", "bsdutils") {
        return;
    }
    let folder = Folder::new();
    let (old, new) = dotted(&folder);
    let Some(device) = Loop::new(&new, &[]) else { return };
    let program = common::program();
    let line = format!("{program} fmap carry {} {}", old.display(), device.0.display());
    let output = Command::new("script").args(["-qec", &line, "/dev/null"]).stdin(Stdio::null()).output();
    let ended = Ended::from(output.expect("script"));
    assert_eq!(ended.status, Some(0), "{}", ended.out);
    assert!(ended.out.contains("..]  53 %, 8 MiB of 14.9 MiB"), "{}", ended.out);
    let wiped = ended.out.rsplit('\r').find(|line| line.contains("carried from")).map(str::to_string);
    assert!(ended.out.contains("\r\u{1b}[K") && wiped.is_some(), "{}", ended.out);
}
