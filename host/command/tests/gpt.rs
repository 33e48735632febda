//! The verbs on disks.

mod common;

use common::{add, disk, spoil, Folder};
use std::fs;
use testkit::json::{self, Json};

const GUID: &str = "01234567-89AB-4CDE-8F01-23456789ABCD";

/// Samples S2 to S5 from a shell.
#[test]
fn a_disk_of_100_blocks() {
    let folder = Folder::new();
    let image = disk(&folder, "disk.img", 100);
    let placed =
        |partition: Json| (partition.number("number"), partition.number("first"), partition.number("last"));
    assert_eq!(placed(add(&image, "10", "a")), (1, 34, 43));
    assert_eq!(placed(add(&image, "5", "b")), (2, 44, 48));
    let deleted = run!["gpt", "delete", image, "1"].done();
    assert_eq!(deleted, "deleted partition 1: blocks 34 to 43, 10 blocks (5 KiB), linux, \"a\"\n");
    assert_eq!(placed(add(&image, "11", "c")), (1, 49, 59));
    assert_eq!(placed(add(&image, "10", "d")), (3, 34, 43));
    let free = run!["gpt", "free", image].done();
    let runs = "  Free  First  Last  Blocks     Size\n           60    66       7  3.5 KiB\n";
    let expected = "free:        7 blocks (3.5 KiB)\nlongest run: 7 blocks (3.5 KiB)\n";
    assert_eq!(free, format!("{}:\n{expected}\n{runs}", image.display()));
    let words = run!["gpt", "resize", image, "1", "19"].refused(25);
    assert_eq!(words, format!("{}: no room: slot 1 cannot have 19 blocks", image.display()));
    let resized = run!["gpt", "resize", image, "1", "9K"].done();
    assert!(resized.contains("blocks 49 to 66, 18 blocks (9 KiB)") && resized.contains("before: 11 blocks"));
    let free = run!["gpt", "free", image, "--json"].json();
    assert_eq!((free.number("free_blocks"), free.number("longest_run")), (0, 0));
    assert!(free.list("free_runs").is_empty());
}

#[test]
fn show_is_a_table_and_a_drawing() {
    let folder = Folder::new();
    let image = folder.sparse("disk.img", 163 * 512);
    let formatted = run!["gpt", "format", image, "--guid", GUID].done();
    let facts = format!("163 blocks (81.5 KiB) of 512 bytes, usable 34 to 129, disk GUID {GUID}");
    assert_eq!(formatted, format!("formatted {}: {facts}\n", image.display()));
    let unique = "AAAAAAAA-BBBB-4CCC-8DDD-EEEEEEEEEEEE";
    let small = ["--size", "24", "--align", "1"];
    let added = |options: &[&str]| {
        let words = ["gpt", "add", image.to_str().expect("UTF-8")];
        let words = words.iter().chain(&small).chain(options).map(std::ffi::OsStr::new);
        common::run(&words.collect::<Vec<_>>()).done();
    };
    added(&["--type", "system", "--guid", unique, "--name", "boot"]);
    let foreign = "FE3A2A5D-4F32-41A7-B725-ACCC3285A309";
    added(&["--type", foreign, "--guid", GUID, "--attributes", "0x5"]);
    let shown = run!["gpt", "show", image].done();
    let expected = format!(
        "\
{path}: 163 blocks (81.5 KiB) of 512 bytes
disk GUID:     {GUID}
table:         both copies are good and the same
usable blocks: 34 to 129
free:          48 blocks (24 KiB), longest run 48 blocks (24 KiB)

Number  First  Last  Blocks    Size  Type                                  Unique GUID                           Attributes            Name
     1     34    57      24  12 KiB  system                                {unique}  -                     boot
     2     58    81      24  12 KiB  {foreign}  {GUID}  required,legacy-boot

  Free  First  Last  Blocks    Size
           82   129      48  24 KiB

1{part}2{part}{free}
",
        path = image.display(),
        part = "=".repeat(15),
        free = ".".repeat(32)
    );
    assert_eq!(shown, expected);
    let narrow = run!["gpt", "show", image, "--width", "8"].done();
    assert_eq!(narrow.lines().last(), Some("1=2=...."));
    run!["gpt", "show", image, "--width", "0"].usage("--width must be 1 to");

    let json = run!["gpt", "show", image, "--json"].json();
    assert_eq!((json.number("blocks"), json.number("state")), (163, 1));
    assert_eq!((json.number("first_usable"), json.number("last_usable")), (34, 129));
    assert_eq!(json.text("guid"), GUID);
    let partitions = json.list("partitions");
    assert_eq!((partitions[0].text("type_name"), partitions[0].text("guid")), ("system", unique));
    assert_eq!((partitions[0].text("name"), partitions[0].number("bytes")), ("boot", 24 * 512));
    assert_eq!((partitions[1].text("type"), partitions[1].at("type_name")), (foreign, &Json::Null));
    assert_eq!(partitions[1].text("attributes"), "0x5");
    let runs = json.list("free_runs");
    assert_eq!(runs.len(), 1);
    assert_eq!((runs[0].number("first"), runs[0].number("last")), (82, 129));
}

#[test]
fn an_empty_and_a_full_table_are_drawn() {
    let folder = Folder::new();
    let image = disk(&folder, "disk.img", 100_000);
    let shown = run!["gpt", "show", image].done();
    assert!(shown.contains("\nno partitions\n"), "{shown}");
    assert_eq!(shown.lines().last(), Some(".".repeat(64).as_str()));
    for _ in 0..128 {
        add(&image, "1", "");
    }
    run!["gpt", "add", image, "--size", "1"].refused(24);
    for slot in (1..=128).step_by(2) {
        run!["gpt", "delete", image, slot.to_string()].done();
    }
    let shown = run!["gpt", "show", image, "--width", "128"].done();
    let drawing = shown.lines().last().expect("a drawing");
    // 64 partitions of a block, each behind a free one, have their columns; the run at the end has half of the width.
    assert_eq!(drawing.chars().count(), 128 + 64);
    assert_eq!(drawing.chars().filter(|c| *c == '.').count(), 64 + 64);
}

#[test]
fn names_come_through() {
    let folder = Folder::new();
    let image = disk(&folder, "disk.img", 200);
    add(&image, "1", "Größe \"3½\" \u{1F600}\\ \u{1b}[2J\n");
    let json = run!["gpt", "show", image, "--json"].json();
    assert_eq!(json.list("partitions")[0].text("name"), "Größe \"3½\" \u{1F600}\\ \u{1b}[2J\n");
    let shown = run!["gpt", "show", image].done();
    assert!(shown.contains("Größe \"3½\" \u{1F600}\\\\ \\u{1b}[2J\\n\n"), "{shown}");
    let renamed = run!["gpt", "rename", image, "1", "boot"].done();
    assert!(renamed.starts_with(
        "renamed partition 1: blocks 34 to 34, 1 block (512 B), linux, \"boot\"; before: \"Größe"
    ));
    let added = run!["gpt", "add", image, "--size", "1", "--align", "1", "--name", "--json"].done();
    assert!(added.ends_with("linux, \"--json\"\n"), "{added}");
    let long = "x".repeat(36);
    run!["gpt", "rename", image, "1", long].done();
    run!["gpt", "rename", image, "1", format!("{long}x")].usage("the name has 37 UTF-16 units");
    run!["gpt", "add", image, "--size", "1", "--name", format!("{long}x")].usage("at most 36");
    assert_eq!(run!["gpt", "show", image, "--json"].json().list("partitions")[0].text("name"), long);
}

#[test]
fn every_refusal_is_told_and_writes_nothing() {
    let folder = Folder::new();
    let image = disk(&folder, "disk.img", 100);
    run!["gpt", "add", image, "--size", "10", "--align", "1", "--guid", GUID].done();
    let before = fs::read(&image).expect("an image");
    let zero = "00000000-0000-0000-0000-000000000000";
    let max = u64::MAX.to_string();
    for (number, words) in [
        (3, &["format", "--guid", zero][..]),
        (12, &["delete", "0"]),
        (12, &["rename", "129", "x"]),
        (13, &["delete", "2"]),
        (13, &["resize", "2", "1"]),
        (20, &["add", "--size", "0"]),
        (20, &["resize", "1", "0"]),
        (21, &["add", "--size", "1", "--type", zero]),
        (22, &["add", "--size", "1", "--guid", zero]),
        (22, &["add", "--size", "1", "--guid", GUID]),
        (25, &["add", "--size", "24", "--align", "1"]),
        (25, &["add", "--size", "1"]),
        (25, &["add", "--size", &max, "--align", "1"]),
        (27, &["add", "--size", "1", "--align", "4"]),
        (25, &["resize", "1", "1T"]),
        (30, &["add", "--size", "1", "--type", "Linux"]),
        (30, &["add", "--size", "1", "--guid", "1234"]),
        (30, &["format", "--guid", "linux"]),
    ] {
        for extra in [&[][..], &["--json"], &["--dry-run"]] {
            let (verb, rest) = words.split_first().expect("a verb");
            let mut line = vec!["gpt", verb, image.to_str().expect("UTF-8")];
            line.extend(rest.iter().chain(extra));
            let line: Vec<&std::ffi::OsStr> = line.iter().map(std::ffi::OsStr::new).collect();
            let mut ended = common::run(&line);
            if extra == ["--json"] {
                let json = json::parse(&ended.out).expect("JSON");
                assert_eq!(json.number("refused"), u64::from(number), "{line:?}");
                assert_eq!(json.text("disk"), image.to_str().expect("UTF-8"));
                let line = format!("refused {number}: {}: {}", image.display(), json.text("words"));
                assert_eq!(ended.err.lines().next(), Some(line.as_str()));
                ended.out.clear();
            }
            ended.refused(number);
        }
    }
    assert_eq!(fs::read(&image).expect("an image"), before);
}

#[test]
fn wrong_words_are_told_in_a_sentence() {
    let folder = Folder::new();
    let image = disk(&folder, "disk.img", 100);
    let before = fs::read(&image).expect("an image");
    run!["gpt", "add", image].usage("--size SIZE is missing");
    run!["gpt", "add", image, "--size", "1.5M"].usage("\"1.5M\" is no size");
    run!["gpt", "add", image, "--size", "1000B"].usage("no whole number of blocks");
    run!["gpt", "add", image, "--size", "18446744073709551616"].usage("too large");
    run!["gpt", "add", image, "--size", "1", "--attributes", "x"].usage("\"x\" is no attribute");
    run!["gpt", "delete", image, "one"]
        .usage("no partition has the number, the name or the unique GUID \"one\"");
    run!["gpt", "delete", image].usage("PARTITION is missing");
    run!["gpt", "wipe", image].usage("gpt has no verb wipe");
    run!["gpt"].usage("a verb is missing");
    run!["disk"].usage("there is no group disk");
    let ended = run!["gpt", "delete", image, "--json", "one"];
    let line = format!("usigrambal: {}", json::parse(&ended.out).expect("JSON").text("error"));
    assert_eq!(ended.err.lines().next(), Some(line.as_str()));
    assert_eq!(fs::read(&image).expect("an image"), before);
}

#[test]
fn the_number_of_blocks_is_judged() {
    let folder = Folder::new();
    for (n, number) in
        [(0, 2), (1, 2), (33, 2), (66, 2), (67, 2), (68, 10), (1 << 32, 10), ((1 << 32) + 1, 2)]
    {
        let image = folder.sparse("disk.img", n * 512);
        let words = run!["gpt", "show", image].refused(number);
        assert!(number != 2 || words.contains(&format!(": {n} block")), "{words}");
        let format = run!["gpt", "format", image];
        match number {
            2 => drop(format.refused(2)),
            _ => drop(format.done()),
        }
    }
    let ragged = folder.sparse("ragged.img", 100 * 512 + 1);
    run!["gpt", "show", ragged].unusable("has 51201 bytes, which is no multiple of the block size, 512");
    run!["gpt", "format", ragged].unusable("no multiple");
}

/// RFC 9562: 122 random bits, version 4, variant 10.
#[test]
fn guids_that_are_not_given_are_random() {
    let folder = Folder::new();
    let image = folder.sparse("disk.img", 51_200);
    let mut seen = Vec::new();
    for _ in 0..8 {
        seen.push(run!["gpt", "format", image, "--replace", "--json"].json().text("guid").to_string());
        seen.push(add(&image, "1", "a").text("guid").to_string());
    }
    for guid in &seen {
        assert_eq!(&guid[14..15], "4", "{guid}");
        assert!("89AB".contains(&guid[19..20]), "{guid}");
    }
    seen.sort();
    seen.dedup();
    assert_eq!(seen.len(), 16);
}

/// State 2: a partition was added to the backup alone.
fn two_tables(folder: &Folder) -> std::path::PathBuf {
    let image = disk(folder, "disk.img", 100);
    let before = fs::read(&image).expect("an image");
    add(&image, "1", "a");
    let mut after = fs::read(&image).expect("an image");
    after[..17_408].copy_from_slice(&before[..17_408]);
    fs::write(&image, after).expect("an image");
    image
}

#[test]
fn verify_and_repair_by_states() {
    let folder = Folder::new();
    let image = disk(&folder, "disk.img", 100);
    add(&image, "10", "a");
    let good = fs::read(&image).expect("an image");
    assert!(run!["gpt", "verify", image].done().ends_with(": both copies are good and the same\n"));
    assert!(run!["gpt", "repair", image].done().ends_with("\nnothing to repair\n"));
    let backup_header = 99 * 512;
    for (at, state, words, repaired) in [
        (512, 4, "the primary copy is not good", "the primary was written from the backup"),
        (1024, 4, "the primary copy is not good", "the primary was written from the backup"),
        (backup_header, 3, "the backup copy is not good", "the backup was written from the primary"),
    ] {
        spoil(&image, at);
        let ended = run!["gpt", "verify", image];
        assert_eq!((ended.status, ended.err.as_str()), (Some(1), ""));
        assert!(ended.out.contains(words), "{}", ended.out);
        let json = json::parse(&run!["gpt", "verify", image, "--json"].out).expect("JSON");
        assert_eq!((json.number("state"), json.at("verified")), (state, &Json::Bool(false)));
        run!["gpt", "add", image, "--size", "1"].refused(11);
        assert!(run!["gpt", "show", image].done().contains(words));
        let spoiled = fs::read(&image).expect("an image");
        let would = run!["gpt", "repair", image, "--dry-run"].done();
        assert!(would.contains(&repaired.replace("was", "would be")), "{would}");
        assert_eq!(fs::read(&image).expect("an image"), spoiled);
        assert!(run!["gpt", "repair", image].done().contains(repaired));
        assert_eq!(fs::read(&image).expect("an image"), good);
    }
    for at in [450, 510, 511] {
        spoil(&image, at);
        let ended = run!["gpt", "verify", image];
        assert_eq!((ended.status, ended.err.as_str()), (Some(1), ""));
        assert!(ended.out.contains("block 0 has no protective record (EE at byte 450, 55 AA at byte 510)"));
        let json = json::parse(&run!["gpt", "verify", image, "--json"].out).expect("JSON");
        assert_eq!((json.number("state"), json.at("verified")), (1, &Json::Bool(false)));
        assert_eq!(json.at("protective_record"), &Json::Bool(false));
        assert!(run!["gpt", "show", image].err.contains("other systems see no table"));
        spoil(&image, at);
    }
    spoil(&image, 512);
    spoil(&image, backup_header);
    run!["gpt", "verify", image].refused(10);
    run!["gpt", "repair", image].refused(10);
}

#[test]
fn copies_that_differ() {
    let folder = Folder::new();
    let image = two_tables(&folder);
    let ended = run!["gpt", "verify", image];
    assert_eq!(ended.status, Some(1));
    assert!(ended.out.contains("both copies are good, but they differ"), "{}", ended.out);
    let json = run!["gpt", "repair", image, "--json"].json();
    assert_eq!((json.number("state_found"), json.at("changed")), (2, &Json::Bool(true)));
    run!["gpt", "verify", image].done();
    assert!(run!["gpt", "show", image].done().contains("no partitions"));
}

#[test]
fn a_dry_run_tells_the_same_and_writes_nothing() {
    let folder = Folder::new();
    let image = disk(&folder, "disk.img", 1000);
    add(&image, "10", "a");
    for words in [
        &["format", "--replace", "--guid", GUID][..],
        &["add", "--size", "10", "--align", "8", "--guid", GUID],
        &["delete", "1"],
        &["resize", "1", "20"],
        &["rename", "1", "b"],
    ] {
        let before = fs::read(&image).expect("an image");
        let call = |extra: &[&str]| {
            let (verb, rest) = words.split_first().expect("a verb");
            let mut line = vec!["gpt", verb, image.to_str().expect("UTF-8")];
            line.extend(rest.iter().chain(extra));
            common::run(&line.iter().map(std::ffi::OsStr::new).collect::<Vec<_>>())
        };
        let told = call(&["--dry-run"]).done();
        assert!(told.starts_with("would "), "{told}");
        assert_eq!(call(&["--dry-run", "--json"]).json().at("dry_run"), &Json::Bool(true));
        assert_eq!(fs::read(&image).expect("an image"), before, "{words:?}");
        let done = call(&[]).done();
        assert_eq!(
            told.split_once(' ').unwrap().1.split_once(' ').unwrap().1,
            done.split_once(' ').unwrap().1
        );
        assert_ne!(fs::read(&image).expect("an image"), before, "{words:?}");
        fs::write(&image, before).expect("an image");
    }
}

/// Only head and tail are written: what stands between them stays, and a large sparse file stays small.
#[test]
fn between_head_and_tail_nothing_is_written() {
    use std::os::unix::fs::MetadataExt;
    let folder = Folder::new();
    let image = folder.file("disk.img", vec![0xA5; 512 * 512]);
    assert_eq!(run!["gpt", "format", image, "--replace"].status, Some(0));
    add(&image, "100", "a");
    let bytes = fs::read(&image).expect("an image");
    assert!(bytes[17_408..512 * 512 - 16_896].iter().all(|byte| *byte == 0xA5));
    let large = disk(&folder, "large.img", 1 << 32);
    add(&large, "1T", "a");
    assert!(fs::metadata(&large).expect("a file").blocks() < 256);
    assert_eq!(run!["gpt", "show", large, "--json"].json().list("partitions")[0].number("blocks"), 1 << 31);
}
