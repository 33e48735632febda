//! `gpt show --layout`: a disk as a layout string, of which `gpt build` makes the same table.

mod common;

use common::strings::{string, DISK};
use common::{add, at_4096, change_slots, disk, disk_of_4096, partitions, set_name, spoil, Folder};
use std::fs;
use std::path::{Path, PathBuf};
use testkit::json::Json;
use testkit::peer;

/// The string of a disk; the JSON document has it too.
#[track_caller]
fn told(image: &Path) -> String {
    let line = run!["gpt", "show", image, "--layout"].done();
    let string = line.strip_suffix('\n').expect("a line");
    assert!(!string.contains('\n'));
    let json = run!["gpt", "show", image, "--layout", "--json"].json();
    assert_eq!(json.text("layout_string"), string);
    assert_eq!(json.list("partitions"), run!["gpt", "show", image, "--json"].json().list("partitions"));
    string.to_string()
}

/// A new disk of the same size that is built of the string, from a file, as it was printed.
fn rebuilt(folder: &Folder, image: &Path, block: u64) -> PathBuf {
    let bytes = fs::metadata(image).expect("a disk").len();
    let other = folder.sparse("rebuilt.img", bytes);
    let layout = folder.file("layout.txt", told(image) + "\n");
    run!["gpt", "build", other, layout, "--block", block.to_string()].done();
    other
}

/// The disk of a string has the bytes of the disk that told it.
#[track_caller]
fn round_trip(folder: &Folder, image: &Path, block: u64) {
    let other = rebuilt(folder, image, block);
    assert_eq!(fs::read(&other).expect("a disk"), fs::read(image).expect("a disk"));
}

#[test]
fn a_string_of_a_disk_by_hand() {
    let folder = Folder::new();
    let image = folder.sparse("disk.img", 64 << 20);
    let text = string(&[
        "name=boot,start=1MiB,size=16MiB,type=system",
        "name=a=b,start=17KiB,size=1536,type=data",
        "name=!~${x},start=40MiB,size=8192KiB,type=FE3A2A5D-4F32-41A7-B725-ACCC3285A309",
        "name=swap,start=20MiB,size=1GiB,type=swap",
    ]);
    let text = text.replace("1GiB", "4MiB") + ",bootable";
    let warned = run!["gpt", "build", image, "--text", text];
    assert_eq!(warned.status, Some(0), "{}", warned.err);
    // The string has its fields in this order, and the largest suffix that is exact.
    assert_eq!(told(&image), text.replace("8192KiB", "8MiB"));
}

/// Start, size, type and bootable of a partition by hand, as `string` has the rest.
#[test]
fn disks_of_each_block_size_come_back() {
    let folder = Folder::new();
    for (image, block) in
        [(disk(&folder, "a.img", 10_000), 512), (disk_of_4096(&folder, "b.img", 10_000), 4096)]
    {
        let adding = |more: &[&str]| {
            let words = [&["--align", "1"], more].concat();
            match block {
                512 => {
                    let words = [&["gpt", "add", image.to_str().expect("UTF-8")], &words[..]].concat();
                    common::run(&words.iter().map(std::ffi::OsStr::new).collect::<Vec<_>>()).done()
                }
                _ => at_4096("add", &image, &words).done(),
            }
        };
        adding(&["--size", "10", "--name", "first", "--type", "msft"]);
        adding(&["--size", "1", "--name", "second", "--attributes", "legacy-boot"]);
        adding(&["--size", "9000", "--name", &"x".repeat(36), "--type", "swap"]);
        round_trip(&folder, &image, block);
        // Slots need not be in the order of their blocks.
        match block {
            512 => drop(run!["gpt", "delete", image, "1"].done()),
            _ => drop(at_4096("delete", &image, &["1"]).done()),
        }
        adding(&["--size", "11", "--name", "later", "--type", "linux"]);
        assert_eq!(partitions(&run!["gpt", "show", image, "--json"].json())[0].name, "later");
        round_trip(&folder, &image, block);
    }
}

/// The copy that is used is told, and bytes of deleted partitions behind the last one do not count.
#[test]
fn one_good_copy_and_stale_bytes() {
    let folder = Folder::new();
    let image = disk(&folder, "disk.img", 1000);
    add(&image, "10", "a");
    let string = told(&image);
    spoil(&image, 512);
    assert_eq!(told(&image), string);
    spoil(&image, 512);
    add(&image, "10", "b");
    common::clear_types(&image, 512, [2]);
    assert_eq!(told(&image), string);
}

#[test]
fn several_disks_in_turn() {
    let folder = Folder::new();
    let (first, second, empty) =
        (disk(&folder, "a.img", 1000), disk(&folder, "b.img", 1000), disk(&folder, "c.img", 1000));
    add(&first, "10", "a");
    add(&second, "10", "b");
    let ended = run!["gpt", "show", first, empty, second, "--layout"];
    assert_eq!((ended.status, ended.out), (Some(3), format!("{}\n{}\n", told(&first), told(&second))));
    assert!(ended.err.contains("c.img cannot be told as a layout string"), "{}", ended.err);
}

/// A disk that no string says, with what it has no words for.
#[track_caller]
fn unsaid(image: &Path, what: &str) {
    let ended = run!["gpt", "show", image, "--layout"];
    assert_eq!((ended.status, ended.out.as_str()), (Some(3), ""), "{}", ended.err);
    let line = ended.err.lines().next().expect("a line").to_string();
    let expected = format!("usigrambal: {} cannot be told as a layout string: {what}", image.display());
    assert_eq!(line, expected);
    let json = testkit::json::parse(&run!["gpt", "show", image, "--layout", "--json"].out).expect("JSON");
    assert_eq!(format!("usigrambal: {}", json.text("error")), expected);
}

#[test]
fn what_a_string_cannot_say() {
    let folder = Folder::new();
    let image = disk(&folder, "disk.img", 1000);
    unsaid(&image, "it has no partition, and a layout string has at least one");
    (1..=4).for_each(|number| drop(add(&image, "10", &format!("p{number}"))));
    told(&image);
    run!["gpt", "delete", image, "2"].done();
    let gap = "is unused, and a layout string fills them from 1 on without a gap";
    unsaid(&image, &format!("slot 2 {gap}"));
    run!["gpt", "delete", image, "1"].done();
    unsaid(&image, &gap.replace("is unused", "slots 1, 2 are unused"));
    (1..=2).for_each(|number| drop(add(&image, "10", &format!("q{number}"))));
    let string = told(&image);
    let named = "is not 1 to 36 bytes of 21 to 7E hex without comma and semicolon";
    for (name, shown) in
        [("", ""), ("a b", "a b"), ("a,b", "a,b"), ("a;b", "a;b"), ("Größe", "Größe"), ("a\0z", "a")]
    {
        set_name(&image, 512, [3], name);
        let hint =
            format!("usigrambal gpt rename {} 3 NAME gives that partition another name", image.display());
        assert_eq!(run!["gpt", "show", image, "--layout"].hint(), hint);
        unsaid(&image, &format!("the name of partition 3, \"{shown}\", {named}"));
    }
    set_name(&image, 512, [3], "p3");
    assert_eq!(told(&image), string);
    for (bits, shown) in [(1, "required"), (6, "no-block-io,legacy-boot"), (8, "bit-3"), (1 << 60, "60")] {
        change_slots(&image, 512, [1], |entry| entry[48..56].copy_from_slice(&u64::to_le_bytes(bits)));
        let what =
            format!("partition 1 has the attributes {shown}, and a layout string says none or legacy-boot");
        unsaid(&image, &what);
    }
    change_slots(&image, 512, [1], |entry| entry[48..56].fill(0));
    set_name(&image, 512, [1, 4], "same");
    let taken = "26: the name is already in another used slot";
    unsaid(&image, &format!("a build of it would be refused, {taken}"));
}

/// Of many the first are told, and how many more there are.
#[test]
fn much_that_a_string_cannot_say() {
    let folder = Folder::new();
    let image = disk(&folder, "disk.img", 1000);
    (1..=6).for_each(|_| drop(add(&image, "10", "")));
    let ended = run!["gpt", "show", image, "--layout"];
    assert_eq!(ended.err.matches("the name of partition ").count(), 4);
    assert!(ended.err.contains("; and 2 more\n"), "{}", ended.err);
    // Of 128 partitions none fits in 8192 bytes: each has a start and a unique GUID.
    let image = disk(&folder, "long.img", 100_000);
    (1..=128).for_each(|number| drop(add(&image, "1", &format!("{number}"))));
    let ended = run!["gpt", "show", image, "--layout"];
    let (_, bytes) = ended.err.split_once("it would have ").expect("a length");
    assert!(bytes.ends_with(" bytes, of at most 8192\n"), "{}", ended.err);
}

/// A disk that sfdisk made.
#[test]
fn a_disk_of_another_tool_comes_back() {
    if !peer::present("sfdisk", "fdisk") {
        return;
    }
    let folder = Folder::new();
    let image = folder.sparse("disk.img", 64 << 20);
    let script = format!(
        "label: gpt\nlabel-id: {DISK}\nfirst-lba: 34\nstart=2048, size=100, name=\"one\", type=S\n\
         start=40, size=7, name=\"two\", attrs=\"LegacyBIOSBootable\"\n"
    );
    peer::feed("sfdisk", [Path::new("-q"), &image], &script);
    let other = rebuilt(&folder, &image, 512);
    let shown = |image: &Path| -> Json { run!["gpt", "show", image, "--json"].json() };
    let (theirs, ours) = (shown(&image), shown(&other));
    assert_eq!(
        (theirs.list("partitions"), theirs.text("guid")),
        (ours.list("partitions"), ours.text("guid"))
    );
    assert_eq!(theirs.list("partitions").len(), 2);
}
