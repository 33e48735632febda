//! Every verb on disks, on files with blocks of 4096 bytes.

mod common;

use common::{add, at_4096, disk, disk_of_4096, spoil, Folder};
use std::fs::{self, File};
use std::os::unix::fs::FileExt;
use testkit::json::Json;
use usigrambal::crc32;

const GUID: &str = "01234567-89AB-4CDE-8F01-23456789ABCD";
/// As it is stored: the first three groups with their bytes in reverse.
const GUID_BYTES: [u8; 16] =
    [0x67, 0x45, 0x23, 0x01, 0xAB, 0x89, 0xDE, 0x4C, 0x8F, 0x01, 0x23, 0x45, 0x67, 0x89, 0xAB, 0xCD];

fn put(bytes: &mut [u8], at: usize, field: &[u8]) {
    bytes[at..at + field.len()].copy_from_slice(field);
}

/// A header block of an empty table, by the UEFI specification.
fn header(n: u64, own: u64, other: u64, entries: u64) -> Vec<u8> {
    let mut block = vec![0; 4096];
    put(&mut block, 0, b"EFI PART");
    put(&mut block, 8, &[0, 0, 1, 0, 92, 0, 0, 0]);
    for (at, number) in [(24, own), (32, other), (40, 6), (48, n - 6), (72, entries)] {
        put(&mut block, at, &number.to_le_bytes());
    }
    put(&mut block, 56, &GUID_BYTES);
    put(&mut block, 80, &[128, 0, 0, 0, 128, 0, 0, 0]);
    put(&mut block, 88, &crc32(&[0; 16_384]).to_le_bytes());
    let sum = crc32(&block[..92]);
    put(&mut block, 16, &sum.to_le_bytes());
    block
}

/// Block 0 is as with 512 bytes, and zero behind these; 6 blocks in front, 5 behind, and nothing between.
#[test]
fn a_new_table_byte_for_byte() {
    let folder = Folder::new();
    let n = 44;
    let path = folder.sparse("disk.img", n * 4096);
    let said = at_4096("format", &path, &["--guid", GUID]).done();
    let facts = format!("44 blocks (176 KiB) of 4096 bytes, usable 6 to 38, disk GUID {GUID}");
    assert_eq!(said, format!("formatted {}: {facts}\n", path.display()));
    let mut block_0 = vec![0; 4096];
    put(&mut block_0, 446, &[0, 0, 2, 0, 0xEE, 0xFF, 0xFF, 0xFF, 1, 0, 0, 0, 43, 0, 0, 0]);
    put(&mut block_0, 510, &[0x55, 0xAA]);
    let parts = [block_0, header(n, 1, 43, 2), vec![0; 37 * 4096 + 16_384], header(n, 43, 1, 39)];
    assert!(fs::read(&path).expect("an image") == parts.concat());
}

/// The history of samples S2 to S5: 33 usable blocks, 6 to 38.
#[test]
fn every_verb() {
    let folder = Folder::new();
    let image = disk_of_4096(&folder, "disk.img", 44);
    let place = |json: &Json| (json.number("number"), json.number("first"), json.number("last"));
    let added = |size: &str, name: &str| {
        let json = at_4096("add", &image, &["--size", size, "--align", "1", "--name", name, "--json"]).json();
        assert_eq!((json.number("block_bytes"), json.number("bytes")), (4096, json.number("blocks") * 4096));
        place(&json)
    };
    assert_eq!(added("10", "a"), (1, 6, 15));
    assert_eq!(added("20K", "b"), (2, 16, 20));
    let said = at_4096("delete", &image, &["a"]).done();
    assert_eq!(said, "deleted partition 1: blocks 6 to 15, 10 blocks (40 KiB), linux, \"a\"\n");
    assert_eq!(added("45056B", "c"), (1, 21, 31));
    assert_eq!(added("10", "d"), (3, 6, 15));
    let free = at_4096("free", &image, &[]).done();
    let runs = "  Free  First  Last  Blocks    Size\n           32    38       7  28 KiB\n";
    let counts = "free:        7 blocks (28 KiB)\nlongest run: 7 blocks (28 KiB)\n";
    assert_eq!(free, format!("{}:\n{counts}\n{runs}", image.display()));
    let refused = at_4096("resize", &image, &["1", "19"]);
    assert_eq!(refused.hint(), "partition 1 begins at block 21 and can have at most 18 blocks (72 KiB)");
    refused.refused(25);
    let said = at_4096("resize", &image, &["1", "72K"]).done();
    let resized = "resized partition 1: blocks 21 to 38, 18 blocks (72 KiB), linux, \"c\"";
    assert_eq!(said, format!("{resized}; before: 11 blocks (44 KiB)\n"));
    at_4096("rename", &image, &["3", "boot"]).done();
    let refused = at_4096("add", &image, &["--size", "1"]);
    assert_eq!(refused.hint(), "no block is free");
    refused.refused(25);
    let shown = at_4096("show", &image, &["--json"]).json();
    assert_eq!((shown.number("blocks"), shown.number("block_bytes"), shown.number("state")), (44, 4096, 1));
    assert_eq!((shown.number("first_usable"), shown.number("last_usable")), (6, 38));
    let places: Vec<_> = shown.list("partitions").iter().map(place).collect();
    assert_eq!(places, [(1, 21, 38), (2, 16, 20), (3, 6, 15)]);
    let text = at_4096("show", &image, &[]).done();
    assert!(text.starts_with(&format!("{}: 44 blocks (176 KiB) of 4096 bytes\ndisk GUID:", image.display())));
    assert_eq!(
        at_4096("verify", &image, &[]).done(),
        format!("{}: both copies are good and the same\n", image.display())
    );
    spoil(&image, 4096);
    let said = at_4096("repair", &image, &[]).done();
    assert!(said.ends_with("\nthe primary was written from the backup\n"), "{said}");
    spoil(&image, 43 * 4096);
    let said = at_4096("repair", &image, &[]).done();
    assert!(said.ends_with("\nthe backup was written from the primary\n"), "{said}");
    at_4096("verify", &image, &[]).done();
}

/// What an edit does not change stays: the blocks between, and the bytes of the header blocks behind the header.
#[test]
fn other_bytes_stay() {
    let folder = Folder::new();
    let image = disk_of_4096(&folder, "disk.img", 44);
    for at in [600, 4096 + 92, 8191, 24_576, 39 * 4096 - 1, 43 * 4096 + 92, 44 * 4096 - 1] {
        spoil(&image, at);
    }
    let before = fs::read(&image).expect("an image");
    at_4096("add", &image, &["--size", "1", "--align", "1"]).done();
    let after = fs::read(&image).expect("an image");
    let differs: Vec<usize> = (0..before.len()).filter(|at| before[*at] != after[*at]).collect();
    // The CRCs of both headers, and the first entry of both tables.
    let changed = [(4096, 4188), (8192, 8320), (159_744, 159_872), (176_128, 176_220)];
    assert!(
        differs.iter().all(|at| changed.iter().any(|(from, to)| (*from..*to).contains(at))),
        "{differs:?}"
    );
    assert!(!differs.is_empty());
    at_4096("verify", &image, &[]).done();
}

#[test]
fn a_dry_run_writes_nothing() {
    let folder = Folder::new();
    let image = folder.sparse("disk.img", 44 * 4096);
    let said = at_4096("format", &image, &["--dry-run"]).done();
    assert!(said.starts_with("would format") && said.contains("44 blocks (176 KiB) of 4096 bytes"), "{said}");
    assert!(fs::read(&image).expect("an image").iter().all(|byte| *byte == 0));
    at_4096("format", &image, &[]).done();
    let before = fs::read(&image).expect("an image");
    let said = at_4096("add", &image, &["--size", "8K", "--align", "1", "--dry-run"]).done();
    assert_eq!(said, "would add partition 1: blocks 6 to 7, 2 blocks (8 KiB), linux, \"\"\n");
    assert!(fs::read(&image).expect("an image") == before);
}

/// 12 to 2^32 blocks, and whole ones.
#[test]
fn how_long_a_disk_is() {
    let folder = Folder::new();
    let small = disk_of_4096(&folder, "small.img", 12);
    let free = at_4096("free", &small, &["--json"]).json();
    assert_eq!((free.number("free_blocks"), free.list("free_runs")[0].number("first")), (1, 6));
    let smaller = folder.sparse("smaller.img", 11 * 4096);
    for verb in ["format", "show", "free", "check", "verify", "repair"] {
        let refused = at_4096(verb, &smaller, &[]);
        assert_eq!(refused.hint(), "a disk has 12 to 4294967296 blocks of 4096 bytes (48 KiB to 16 TiB)");
        let words = refused.refused(2);
        assert!(words.ends_with("the number of blocks is outside its range: 11 blocks"), "{words}");
    }
    let ragged = folder.sparse("ragged.img", 44 * 4096 + 512);
    let said = "has 180736 bytes, which is no multiple of the block size, 4096";
    for verb in ["format", "show", "repair"] {
        let ended = at_4096(verb, &ragged, &[]);
        assert_eq!(ended.hint(), "with --block 512 it has 353 blocks");
        ended.unusable(said);
    }
    run!["gpt", "format", ragged].done();
}

/// Beyond 2 TiB, where blocks of 512 bytes are too many.
#[test]
fn a_file_beyond_2_tib() {
    let folder = Folder::new();
    let path = folder.path("large.img");
    if File::create(&path).and_then(|file| file.set_len(3 << 40)).is_err() {
        common::skipped("files of 3 TiB");
        return;
    }
    let limits = "a disk has 68 to 4294967296 blocks of 512 bytes (34 KiB to 2 TiB)";
    for verb in ["format", "show", "repair"] {
        let refused = run!["gpt", verb, path];
        assert_eq!(refused.hint(), format!("{limits}; with --block 4096 a file has up to 16 TiB"));
        refused.refused(2);
    }
    let said = at_4096("format", &path, &[]).done();
    assert!(said.contains("805306368 blocks (3 TiB) of 4096 bytes, usable 6 to 805306362"), "{said}");
    let shown = run!["gpt", "show", path, "--json"].json();
    assert_eq!((shown.number("block_bytes"), shown.text("block_by")), (4096, "table"));
    let refused = run!["gpt", "add", path, "--size", "1M"];
    assert_eq!(refused.hint(), "with --block 4096 it reads: both copies are good and the same");
    refused.refused(2);
    let added = at_4096("add", &path, &["--size", "2T", "--json"]).json();
    assert_eq!((added.number("first"), added.number("blocks")), (2048, 1 << 29));
}

/// Bytes become blocks of the disk's size; what is no whole number of them is usage.
#[test]
fn sizes() {
    let folder = Folder::new();
    let image = disk_of_4096(&folder, "disk.img", 1000);
    for (size, blocks) in [("3", 3), ("8K", 2), ("1M", 256), ("12288B", 3)] {
        let json = at_4096("add", &image, &["--size", size, "--align", "1", "--json", "--dry-run"]).json();
        assert_eq!((json.number("blocks"), json.number("bytes")), (blocks, blocks * 4096), "{size}");
    }
    let before = fs::read(&image).expect("an image");
    for size in ["1K", "512B", "6K", "4097B"] {
        let said = format!("{size} is no whole number of blocks of 4096 bytes");
        at_4096("add", &image, &["--size", size]).usage(&said);
        at_4096("resize", &image, &["1", size]).usage(&said);
    }
    let refused = at_4096("add", &image, &["--size", "0"]);
    assert_eq!(refused.hint(), "the least is 1 block (4 KiB)");
    refused.refused(20);
    assert!(fs::read(&image).expect("an image") == before);
}

/// What stands there is named also where it is a table of the other block size.
#[test]
fn formatting_over_the_other_block_size() {
    let folder = Folder::new();
    let long = disk_of_4096(&folder, "long.img", 44);
    at_4096("add", &long, &["--size", "1", "--align", "1"]).done();
    let ended = run!["gpt", "format", long];
    let anew = "--replace writes an empty table for blocks of 512 bytes over it";
    assert_eq!(ended.hint(), format!("{anew}, with --block 4096 one for 4096"));
    ended.needed("holds a good GPT with 1 partition, for blocks of 4096 bytes;");
    at_4096("format", &long, &[]).needed("holds a good GPT with 1 partition; nothing was written");
    let short = disk(&folder, "short.img", 352);
    add(&short, "1", "a");
    add(&short, "1", "b");
    at_4096("format", &short, &[]).needed("holds a good GPT with 2 partitions, for blocks of 512 bytes;");
    // The backup alone.
    for (path, lost) in [(&long, 6 * 4096), (&short, 34 * 512)] {
        let file = File::options().write(true).open(path).expect("an image");
        file.write_all_at(&vec![0; lost], 0).expect("bytes");
    }
    let alone = "the primary copy is not good; the backup is used";
    run!["gpt", "format", long]
        .needed(&format!("a GPT with 1 partition ({alone}), for blocks of 4096 bytes;"));
    at_4096("format", &short, &[])
        .needed(&format!("holds a GPT with 2 partitions ({alone}), for blocks of 512 bytes;"));
    // Written over, neither is found again.
    let json = run!["gpt", "format", long, "--replace", "--json"].json();
    assert_eq!(json.number("block_bytes"), 512);
    assert_eq!(json.text("replaced"), format!("a GPT with 1 partition ({alone}), for blocks of 4096 bytes"));
    let json = at_4096("format", &short, &["--replace", "--json"]).json();
    assert_eq!((json.number("block_bytes"), json.number("blocks")), (4096, 44));
    run!["gpt", "format", long].needed("holds a good GPT with 0 partitions; nothing was written");
    at_4096("format", &short, &[]).needed("holds a good GPT with 0 partitions; nothing was written");
    assert_eq!(run!["gpt", "show", long, "--json"].json().text("block_by"), "default");
    assert_eq!(run!["gpt", "show", short, "--json"].json().text("block_by"), "table");
}

/// A header of the other block size, without anything else.
#[test]
fn formatting_over_a_header_of_the_other_block_size() {
    let folder = Folder::new();
    let path = folder.sparse("disk.img", 1 << 20);
    let file = File::options().write(true).open(&path).expect("an image");
    file.write_all_at(b"EFI PART", 4096).expect("bytes");
    let why = "primary copy: its revision is 0, where this library has 65536; backup copy: no GPT signature";
    let said = format!("holds a GPT that is not good ({why}), for blocks of 4096 bytes; nothing was written");
    run!["gpt", "format", path].needed(&said);
    run!["gpt", "format", path, "--replace"].done();
}

/// All 00 or all FF in the first 128 KiB and the last 5 blocks; what stands between is not looked at.
#[test]
fn formatting_where_nothing_is() {
    let folder = Folder::new();
    let len = 1 << 20;
    let with = |name: &str, at: u64| {
        let path = folder.sparse(name, len);
        spoil(&path, at);
        path
    };
    at_4096("format", &with("a.img", len - 20_481), &[]).done();
    at_4096("format", &with("b.img", 128 << 10), &[]).done();
    let words = "holds bytes that are neither all 00 nor all FF";
    let behind = format!("{words}, in the last 5 blocks; nothing was written");
    at_4096("format", &with("c.img", len - 20_480), &[]).needed(&behind);
    at_4096("format", &with("d.img", (128 << 10) - 1), &[]).needed(&format!("{words}, from byte 131071 on;"));
    let short = folder.sparse("short.img", 44 * 4096);
    spoil(&short, (128 << 10) - 1);
    at_4096("format", &short, &[]).needed(&format!("{words}, from byte 131071 on;"));
    let path = folder.file("erased.img", vec![0xFF; len as usize]);
    at_4096("format", &path, &[]).done();
    let bytes = fs::read(&path).expect("an image");
    assert!(bytes[24_576..len as usize - 20_480].iter().all(|byte| *byte == 0xFF));
}

/// Where sgdisk can't be given the file itself.
#[test]
fn a_lost_protective_record() {
    let folder = Folder::new();
    let image = disk_of_4096(&folder, "disk.img", 44);
    at_4096("add", &image, &["--size", "1", "--align", "1"]).done();
    spoil(&image, 450);
    let ended = at_4096("verify", &image, &[]);
    let path = image.display();
    let device = format!("losetup -b 4096 -f --show {path} makes a device of it with blocks of 4096 bytes");
    let hint =
        format!("hint: gpt repair leaves block 0 as it is; {device}, on which sgdisk -e writes the record\n");
    assert!(ended.status == Some(1) && ended.out.ends_with(&hint), "{}", ended.out);
    let ended = run!["gpt", "show", image];
    assert!(ended.status == Some(0) && ended.err.contains("warning: block 0 has no protective record"));
    at_4096("delete", &image, &["1"]).done();
    let ended = run!["gpt", "verify", image];
    let hint = format!(
        "hint: usigrambal gpt format {path} --block 4096 --replace writes the record, with an empty table\n"
    );
    assert!(ended.status == Some(1) && ended.out.ends_with(&hint), "{}", ended.out);
}
