//! Every refusal names the file, and says what would help.

mod common;

use common::{add, disk, refused, set_name, spoil, Ended, Folder};
use std::ffi::OsStr;
use std::os::unix::ffi::OsStrExt;
use std::process::Command;

const GUID: &str = "01234567-89AB-4CDE-8F01-23456789ABCD";

#[test]
fn what_would_help() {
    let folder = Folder::new();
    let image = disk(&folder, "disk.img", 100);
    run!["gpt", "add", image, "--size", "10", "--align", "1", "--guid", GUID, "--name", "a"].done();
    add(&image, "5", "b");
    add(&image, "6", "c");
    run!["gpt", "delete", image, "2"].done();
    let path = image.to_str().expect("UTF-8");
    let zero = "00000000-0000-0000-0000-000000000000";
    let types = "system, msft, data, linux, swap";
    let digits = "32 hex digits in groups of 8, 4, 4, 4 and 12";
    let used = "the numbers in use are 1, 3";
    let random = "without --guid a random one is taken";
    let two = "the longest free run has 12 blocks (6 KiB); 17 blocks (8.5 KiB) are free in 2 runs";
    for (words, number, said, hint) in [
        (&["delete", "0"][..], 12, "the partition number is not 1 to 128: slot 0", used),
        (&["delete", "2"], 13, "the slot is unused: slot 2", used),
        (&["rename", "2", "x"], 13, "the slot is unused: slot 2", used),
        (&["add", "--size", "0"], 20, "the size is zero", "the least is 1 block (512 B)"),
        (&["resize", "1", "0"], 20, "the size is zero", "the least is 1 block (512 B)"),
        (
            &["add", "--size", "1", "--type", zero],
            21,
            "the type GUID is zero",
            &format!("a type is a GUID that is not zero, or one of {types}"),
        ),
        (
            &["add", "--size", "1", "--guid", GUID],
            22,
            "the unique GUID is zero or already in a used slot",
            &format!("partition 1 has it; {random}"),
        ),
        (
            &["add", "--size", "1", "--guid", zero],
            22,
            "the unique GUID is zero or already in a used slot",
            random,
        ),
        (&["add", "--size", "13", "--align", "1"], 25, "no room: no run of 13 free blocks", two),
        (&["add", "--size", "13"], 25, "no room: no multiple of 2048 has 13 free blocks from it on", two),
        (
            &["resize", "1", "16"],
            25,
            "no room: slot 1 cannot have 16 blocks",
            "partition 1 begins at block 34 and can have at most 15 blocks (7.5 KiB)",
        ),
        (
            &["add", "--size", "1", "--type", "Linux"],
            30,
            "not a GUID text: --type \"Linux\"",
            &format!("a type is one of {types} in lower case, or a GUID: {digits}"),
        ),
        (
            &["add", "--size", "1", "--guid", "12\u{1b}"],
            30,
            "not a GUID text: --guid \"12\\u{1b}\"",
            &format!("a GUID is {digits} ({types} are types); {random}"),
        ),
        (&["format", "--guid", zero], 3, "the disk GUID is all zero", random),
    ] {
        let (verb, rest) = words.split_first().expect("a verb");
        refused(&[&["gpt", verb, path], rest].concat(), number, said, hint);
    }
}

#[test]
fn tables_that_cannot_be_edited() {
    let folder = Folder::new();
    let image = disk(&folder, "disk.img", 100);
    let path = image.to_str().expect("UTF-8");
    let said = "the GPT copies are not both good and the same";
    let repair = format!("usigrambal gpt repair {path} writes the");
    spoil(&image, 512);
    let hint = format!("the primary copy is not good; the backup is used; {repair} primary from the backup");
    refused(&["gpt", "add", path, "--size", "1"], 11, said, &hint);
    spoil(&image, 512);
    spoil(&image, 99 * 512);
    let hint = format!("the backup copy is not good; the primary is used; {repair} backup from the primary");
    refused(&["gpt", "add", path, "--size", "1"], 11, said, &hint);
    spoil(&image, 512);
    let hint =
        format!("both copies: no GPT signature; usigrambal gpt format {path} --dry-run tells what is there");
    for verb in ["show", "free", "check", "verify", "repair"] {
        refused(&["gpt", verb, path], 10, "neither GPT copy is good", &hint);
    }
    let small = folder.sparse("small.img", 67 * 512);
    let path = small.to_str().expect("UTF-8");
    let hint = "a disk has 68 to 4294967296 blocks of 512 bytes (34 KiB to 2 TiB)";
    for verb in ["show", "free", "check", "verify", "repair", "format"] {
        refused(&["gpt", verb, path], 2, "the number of blocks is outside its range: 67 blocks", hint);
    }
}

#[test]
fn a_full_table() {
    let folder = Folder::new();
    let image = disk(&folder, "disk.img", 1000);
    (0..128).for_each(|_| drop(add(&image, "1", "")));
    let path = image.to_str().expect("UTF-8");
    let hint = format!("all numbers are in use; usigrambal gpt delete {path} NUMBER frees one");
    refused(&["gpt", "add", path, "--size", "1"], 24, "no unused slot", &hint);
    refused(
        &["gpt", "delete", path, "129"],
        12,
        "the partition number is not 1 to 128: slot 129",
        "the numbers in use are 1 to 128",
    );
}

/// A partition by its number, its name or its unique GUID.
#[test]
fn partitions_by_name() {
    let folder = Folder::new();
    let image = disk(&folder, "disk.img", 1000);
    for name in ["boot", "pages", "", "7", GUID] {
        add(&image, "10", name);
    }
    set_name(&image, 512, [3], "pages");
    run!["gpt", "add", image, "--size", "10", "--align", "1", "--guid", GUID, "--name", "last"].done();
    let told = |words: &[&str]| {
        let (verb, rest) = words.split_first().expect("a verb");
        let rest: Vec<&OsStr> = rest.iter().map(OsStr::new).collect();
        common::run(&[&[OsStr::new("gpt"), OsStr::new(verb), image.as_os_str()], &rest[..]].concat())
    };
    assert!(told(&["resize", "boot", "5"]).done().starts_with("resized partition 1: blocks 34 to 38"));
    assert!(told(&["rename", "last", "end"]).done().starts_with("renamed partition 6"));
    let ended = told(&["delete", "pages"]);
    assert_eq!(ended.hint(), "the numbers 2, 3 tell them apart");
    ended.usage("2 partitions are called \"pages\"");
    let ended = told(&["delete", &GUID.to_lowercase()]);
    assert!(ended.done().starts_with("deleted partition 6"));
    // Now the text is a name alone.
    assert!(told(&["delete", GUID]).done().starts_with("deleted partition 5"));
    let ended = told(&["rename", "Boot", "x"]);
    assert_eq!(ended.hint(), r#"there are 1 "boot", 2 "pages", 3 "pages", 4 "7""#);
    ended.usage("no partition has the number, the name or the unique GUID \"Boot\"");
    // Digits are a number.
    told(&["delete", "7"]).refused(13);
    assert!(told(&["delete", "0x4", "--dry-run"]).done().starts_with("would delete partition 4"));
}

/// Advised commands run as they stand, in a shell.
#[test]
fn paths_are_quoted_and_escaped() {
    let folder = Folder::new();
    for name in [&b"my disk.img"[..], b"it's $HOME.img", b"a\nb\x1b[2J.img", b"\xFF.img", b"-x.img"] {
        let path = folder.0.join(OsStr::from_bytes(name));
        std::fs::File::create(&path).and_then(|file| file.set_len(51_200)).expect("a file");
        run!["gpt", "format", path].done();
        spoil(&path, 512);
        let ended = run!["gpt", "add", path, "--size", "1"];
        assert!(ended.err.chars().all(|c| c == '\n' || !c.is_control()), "{:?}", ended.err);
        let hint = ended.hint();
        assert_eq!(ended.err.lines().count(), 2, "{:?}", ended.err);
        let (_, advised) = hint.split_once("used; usigrambal ").expect("a command");
        let (advised, _) = advised.split_once(" writes the primary").expect("a command");
        let line = format!("{} {advised}", common::program());
        let repaired: Ended = Command::new("bash").args(["-c", &line]).output().expect("bash").into();
        assert!(repaired.done().ends_with("the primary was written from the backup\n"), "{line}");
        run!["gpt", "verify", path].done();
    }
}
