//! `gpt add --align`: where a partition starts, and what is told where it can't.

mod common;

use common::{at_4096, disk, disk_of_4096, refused, spoil, Folder};
use std::ffi::OsStr;
use std::fs;
use std::path::Path;
use testkit::json::Json;

/// `gpt add DISK` with options.
fn add(disk: &Path, options: &str) -> common::Ended {
    let words = ["gpt", "add"].into_iter().map(OsStr::new).chain([disk.as_os_str()]);
    common::run(&words.chain(options.split(' ').map(OsStr::new)).collect::<Vec<_>>())
}

/// First and last block of what was added, and its alignment.
fn places(added: Json) -> (u64, u64, u64) {
    (added.number("first"), added.number("last"), added.number("alignment"))
}

/// The next multiple of 2048 each time: 1 MiB.
#[test]
fn the_default_is_2048_blocks() {
    let folder = Folder::new();
    let image = disk(&folder, "disk.img", 131_072);
    let said = add(&image, "--size 1000 --name a").done();
    assert_eq!(said, "added partition 1: blocks 2048 to 3047, 1000 blocks (500 KiB), linux, \"a\"\n");
    assert_eq!(places(add(&image, "--size 1M --json").json()), (4096, 6143, 2048));
    assert_eq!(places(add(&image, "--size 1 --json").json()), (6144, 6144, 2048));
    assert_eq!(places(add(&image, "--size 2049 --align 2048 --json").json()), (8192, 10_240, 2048));
    // A lower one that is free again comes first, if it has room.
    run!["gpt", "delete", image, "2"].done();
    assert_eq!(places(add(&image, "--size 2049 --json").json()), (12_288, 14_336, 2048));
    run!["gpt", "delete", image, "2"].done();
    assert_eq!(places(add(&image, "--size 2048 --json").json()), (4096, 6143, 2048));
}

#[test]
fn smaller_alignments() {
    let folder = Folder::new();
    let image = disk(&folder, "disk.img", 100);
    // Usable are 34 to 66; the multiples of 8 among them are 40, 48, 56 and 64.
    for (options, first, last, alignment) in [
        ("--size 9 --align 8", 40, 48, 8),
        ("--size 6 --align 1", 34, 39, 1),
        ("--size 3 --align=0x8", 56, 58, 8),
        ("--size 8 --align 1", 59, 66, 1),
        ("--size 7 --align 1", 49, 55, 1),
    ] {
        let added = add(&image, &format!("{options} --json")).json();
        assert_eq!(places(added), (first, last, alignment), "{options}");
    }
    let ended = add(&image, "--size 1");
    assert_eq!(ended.hint(), "no block is free");
    ended.refused(25);
}

/// 2048 blocks are 8 MiB there.
#[test]
fn longer_blocks() {
    let folder = Folder::new();
    let image = disk_of_4096(&folder, "disk.img", 10_000);
    for (options, first, last, alignment) in [
        (&["--size", "4000K"][..], 2048, 3047, 2048),
        (&["--size", "8M"], 4096, 6143, 2048),
        (&["--size", "9", "--align", "8"], 8, 16, 8),
        (&["--size", "2", "--align", "1"], 6, 7, 1),
        (&["--size", "1", "--align", "8"], 24, 24, 8),
    ] {
        let added = at_4096("add", &image, &[options, &["--json"]].concat()).json();
        assert_eq!(places(added), (first, last, alignment), "{options:?}");
    }
    let said = at_4096("add", &image, &["--size", "1", "--dry-run"]).done();
    assert_eq!(said, "would add partition 6: blocks 6144 to 6144, 1 block (4 KiB), linux, \"\"\n");
}

#[test]
fn a_dry_run_places_alike() {
    let folder = Folder::new();
    let image = disk(&folder, "disk.img", 8192);
    let before = fs::read(&image).expect("an image");
    for (align, block) in [("", 2048), (" --align 8", 40), (" --align 1", 34)] {
        let said = add(&image, &format!("--size 1{align} --dry-run")).done();
        let place = format!("blocks {block} to {block}, 1 block (512 B), linux, \"\"");
        assert_eq!(said, format!("would add partition 1: {place}\n"));
    }
    let ended = add(&image, "--size 8000 --dry-run");
    assert_eq!(ended.hint(), "--align 8 would place it at block 40");
    ended.refused(25);
    assert!(fs::read(&image).expect("an image") == before);
}

/// The largest alignment that has room is named, with the block; where none has it, what is free is told.
#[test]
fn no_room_at_an_alignment() {
    let folder = Folder::new();
    let (short, long) = (disk(&folder, "short.img", 100), disk_of_4096(&folder, "long.img", 44));
    let eight = |block: u64| format!("--align 8 would place it at block {block}");
    let one = |block: u64| format!("--align 1 would place it at block {block}");
    let free = |size: &str| format!("the one free run has 33 blocks ({size})");
    // 33 blocks are usable: 34 to 66, of which 27 from 40 on; or 6 to 38, of which 31 from 8 on.
    for (image, block, most_at_8, hints) in [
        (&short, "512", 27, [eight(40), one(34), free("16.5 KiB")]),
        (&long, "4096", 31, [eight(8), one(6), free("132 KiB")]),
    ] {
        let before = fs::read(image).expect("an image");
        let path = image.to_str().expect("UTF-8");
        let no_room = |size: u64, align: &[&str], said: &str, hint: &str| {
            let size = size.to_string();
            let words = ["gpt", "add", path, "--size", &size, "--block", block];
            refused(&[&words, align].concat(), 25, &format!("no room: {said}"), hint);
        };
        let [by_8, by_1, none] = &hints;
        for (size, hint) in
            [(1, by_8), (most_at_8, by_8), (most_at_8 + 1, by_1), (33, by_1), (34, none), (u64::MAX, none)]
        {
            let blocks = if size == 1 { "block" } else { "blocks" };
            let said = format!("no multiple of 2048 has {size} free {blocks} from it on");
            no_room(size, &[], &said, hint);
            no_room(size, &["--align", "2048"], &said, hint);
        }
        for (size, hint) in [(most_at_8 + 1, by_1), (33, by_1), (34, none)] {
            let said = format!("no multiple of 8 has {size} free blocks from it on");
            no_room(size, &["--align", "8"], &said, hint);
        }
        no_room(34, &["--align", "1"], "no run of 34 free blocks", none);
        assert!(fs::read(image).expect("an image") == before);
    }
    // What the hint says is what the option does.
    assert_eq!(places(add(&short, "--size 27 --align 8 --json").json()), (40, 66, 8));
    assert_eq!(places(at_4096("add", &long, &["--size", "32", "--align", "1", "--json"]).json()), (6, 37, 1));
}

/// Rule e4: the longest run may be longer than the size.
#[test]
fn runs_without_a_multiple() {
    let folder = Folder::new();
    let image = disk(&folder, "disk.img", 10_000);
    for first in [2048, 4096, 6144, 8192] {
        assert_eq!(places(add(&image, "--size 2 --json").json()), (first, first + 1, 2048));
    }
    // Behind each are 2046 free blocks but the last, and in front of the first 2014.
    let free = run!["gpt", "free", image, "--json"].json();
    assert_eq!((free.number("longest_run"), free.list("free_runs").len()), (2046, 5));
    let path = image.to_str().expect("UTF-8");
    let said = |size: u64| format!("no room: no multiple of 2048 has {size} free blocks from it on");
    for (size, block) in [("2008", 40), ("2009", 2056), ("2040", 2056)] {
        let hint = format!("--align 8 would place it at block {block}");
        refused(&["gpt", "add", path, "--size", size], 25, &said(size.parse().expect("a size")), &hint);
    }
    let hint = "--align 1 would place it at block 2050";
    refused(&["gpt", "add", path, "--size", "2041"], 25, &said(2041), hint);
    let blocks = "9925 blocks (4.8 MiB) are free in 5 runs";
    let hint = format!("the longest free run has 2046 blocks (1023 KiB); {blocks}");
    refused(&["gpt", "add", path, "--size", "2047"], 25, &said(2047), &hint);
    // Resizing does not look at alignment.
    run!["gpt", "resize", image, "1", "2048"].done();
    run!["gpt", "resize", image, "2", "1"].done();
}

/// Refusal 27: after 20, before 21; the hint says what the three are on this disk.
#[test]
fn other_alignments() {
    let folder = Folder::new();
    let (short, long) = (disk(&folder, "short.img", 10_000), disk_of_4096(&folder, "long.img", 10_000));
    let zero = "00000000-0000-0000-0000-000000000000";
    for (image, block, sizes) in
        [(&short, "512", ["512 B", "4 KiB", "1 MiB"]), (&long, "4096", ["4 KiB", "32 KiB", "8 MiB"])]
    {
        let before = fs::read(image).expect("an image");
        let path = image.to_str().expect("UTF-8");
        let [one, some, most] = sizes;
        let hint = format!("--align is 1 block ({one}), 8 blocks ({some}) or 2048 blocks ({most})");
        for (align, told) in [
            ("0", "0 blocks"),
            ("2", "2 blocks"),
            ("4096", "4096 blocks"),
            ("0x10", "16 blocks"),
            ("18446744073709551615", "18446744073709551615 blocks"),
        ] {
            let words = |size| ["gpt", "add", path, "--block", block, "--align", align, "--size", size];
            let said = format!("the alignment is not 1, 8 or 2048 blocks: {told}");
            refused(&words("1"), 27, &said, &hint);
            refused(&words("1T"), 27, &said, &hint);
            refused(&[&words("1")[..], &["--type", zero]].concat(), 27, &said, &hint);
            let least = format!("the least is 1 block ({one})");
            refused(&[&words("0")[..], &["--type", zero]].concat(), 20, "the size is zero", &least);
        }
        assert!(fs::read(image).expect("an image") == before);
    }
    spoil(&short, 512);
    add(&short, "--size 1 --align 3").refused(11);
}

#[test]
fn words_that_are_no_number() {
    let folder = Folder::new();
    let image = disk(&folder, "disk.img", 10_000);
    for align in ["1M", "x", "-1", "8.0"] {
        let ended = add(&image, &format!("--size 1 --align {align}"));
        assert_eq!(ended.hint(), "--align is 1, 8 or 2048, in blocks");
        ended.usage(&format!("\"{align}\" is no number"));
    }
    add(&image, "--size 1 --align").usage("--align needs 1|8|2048 behind it");
    run!["gpt", "resize", image, "1", "1", "--align", "8"].usage("there is no option --align");
}
