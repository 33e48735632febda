//! Disks on which unused slots still hold bytes of deleted partitions.

mod common;

use common::{add, at_4096, change_slots, clear_types, disk, disk_of_4096, Ended, Folder};
use std::fs;
use std::path::{Path, PathBuf};
use std::process::Command;
use testkit::disk::Disk;
use testkit::fixture::{self, DiskFixture};
use testkit::json::{self, Json};
use testkit::{device, listing, peer};
use usigrambal::crc32;

const GUID: &str = "01234567-89AB-4CDE-8F01-23456789ABCD";
/// As it is stored: the first three groups with their bytes in reverse.
const GUID_BYTES: [u8; 16] =
    [0x67, 0x45, 0x23, 0x01, 0xAB, 0x89, 0xDE, 0x4C, 0x8F, 0x01, 0x23, 0x45, 0x67, 0x89, 0xAB, 0xCD];
/// 0657FD6D-A4AB-43C4-84E5-0933C84B4F4F, type `swap`.
const SWAP_BYTES: [u8; 16] =
    [0x6D, 0xFD, 0x57, 0x06, 0xAB, 0xA4, 0xC4, 0x43, 0x84, 0xE5, 0x09, 0x33, 0xC8, 0x4B, 0x4F, 0x4F];

/// Partitions a, b and c of 10, 5 and 6 blocks, on a disk of 100.
fn three(folder: &Folder) -> PathBuf {
    let image = disk(folder, "disk.img", 100);
    for (size, name) in [("10", "a"), ("5", "b"), ("6", "c")] {
        add(&image, size, name);
    }
    image
}

/// `gpt VERB DISK`, more words, and the block size.
fn gpt(image: &Path, block: u64, words: &[&str]) -> Command {
    let mut command = common::command();
    command.args(["gpt", words[0]]).arg(image).args(&words[1..]).args(["--block", &block.to_string()]);
    command
}

fn ended(mut command: Command) -> Ended {
    command.output().expect("the command").into()
}

fn slots(document: &Json) -> Vec<u64> {
    let number = |slot: &Json| match slot {
        Json::Number(number) => *number,
        other => panic!("no number: {other:?}"),
    };
    document.list("stale_slots").iter().map(number).collect()
}

/// What is shown is what is shown after `gpt delete`, and a line more.
#[test]
fn they_are_told_and_are_no_fault() {
    let folder = Folder::new();
    let image = three(&folder);
    let full = fs::read(&image).expect("an image");
    let told = |verb: &str| run!["gpt", verb, image].done();
    let document = |verb: &str| run!["gpt", verb, image, "--json"].json();
    for (cleared, words) in [
        (&[2][..], "1 unused entry holds bytes of a deleted partition (slot 2)"),
        (&[1, 3], "2 unused entries hold bytes of deleted partitions (slots 1, 3)"),
        (&[1, 2, 3], "3 unused entries hold bytes of deleted partitions (slots 1 to 3)"),
    ] {
        cleared.iter().for_each(|slot| drop(run!["gpt", "delete", image, slot.to_string()].done()));
        let deleted = ["show", "free", "verify"].map(told);
        assert!(deleted.iter().all(|text| !text.contains("deleted")), "{deleted:?}");
        let rows = common::partitions(&document("show"));
        assert_eq!(["show", "verify"].map(|verb| slots(&document(verb))), [vec![], vec![]]);
        fs::write(&image, &full).expect("an image");
        clear_types(&image, 512, cleared.iter().copied());
        let stale = ["show", "free", "verify"].map(told);
        let line = format!("stale:         {words}\n");
        assert_eq!(stale[0].replace(&line, ""), deleted[0]);
        assert!(stale[0].split("\n\n").next().is_some_and(|head| format!("{head}\n").ends_with(&line)));
        assert_eq!(stale[1], deleted[1]);
        let note = format!("note: {words}; that is no fault, and adding overwrites them\n");
        assert_eq!(stale[2], format!("{}{note}", deleted[2]));
        let shown = document("show");
        assert_eq!((shown.number("state"), slots(&shown)), (1, cleared.to_vec()));
        assert_eq!(common::partitions(&shown), rows);
        let verified = document("verify");
        assert_eq!((verified.at("verified"), slots(&verified)), (&Json::Bool(true), cleared.to_vec()));
        fs::write(&image, &full).expect("an image");
    }
}

/// The 128 bytes of an entry, by the UEFI specification: type GUID, unique GUID, first and last block, attributes, name.
fn entry(first: u64, last: u64, attributes: u64, name: &str) -> Vec<u8> {
    let mut bytes = [SWAP_BYTES, GUID_BYTES].concat();
    [first, last, attributes].iter().for_each(|number| bytes.extend(number.to_le_bytes()));
    name.encode_utf16().for_each(|unit| bytes.extend(unit.to_le_bytes()));
    bytes.resize(128, 0);
    bytes
}

/// Of bytes that are all FF none is left, and no other byte of the disk changes but the CRCs.
#[test]
fn an_add_overwrites_every_byte() {
    let folder = Folder::new();
    for (block, image, first) in
        [(512, disk(&folder, "short.img", 100), 34), (4096, disk_of_4096(&folder, "long.img", 44), 6)]
    {
        let on = |words: &[&str]| ended(gpt(&image, block, words)).done();
        ["10", "5", "6"].iter().for_each(|size| drop(on(&["add", "--size", size, "--align", "1"])));
        change_slots(&image, block, [2], |entry| {
            entry[..16].fill(0);
            entry[16..].fill(0xFF);
        });
        let mut expected = Disk::read(&image, block).expect("a disk");
        let new = entry(first + 10, first + 12, 0x8000_0000_0000_0004, "größer");
        expected.entry(2).into_iter().for_each(|entry| entry.copy_from_slice(&new));
        expected.set_crcs(crc32);
        let options =
            ["--align", "1", "--type", "swap", "--guid", GUID, "--attributes", "0x8000000000000004"];
        let said = on(&[&["add", "--size", "3", "--name", "größer"], &options[..]].concat());
        assert!(said.starts_with("added partition 2: blocks "), "{said}");
        assert_eq!(expected.difference(&Disk::read(&image, block).expect("a disk")), None);
        let plain = format!("{}: both copies are good and the same\n", image.display());
        assert_eq!(on(&["verify"]), plain);
    }
}

/// `delete`, `rename` and `resize` say that an add alone overwrites the bytes, and write nothing.
#[test]
fn edits_of_such_a_slot() {
    let folder = Folder::new();
    let short = three(&folder);
    let long = disk_of_4096(&folder, "long.img", 44);
    for name in ["a", "b", "c"] {
        at_4096("add", &long, &["--size", "1", "--align", "1", "--name", name]).done();
    }
    clear_types(&short, 512, [2]);
    clear_types(&long, 4096, [2]);
    let hint = "slot 2 still holds bytes of a deleted partition, which delete does not clear; \
                an add that takes the slot overwrites them all; the numbers in use are 1, 3";
    for (image, block) in [(&short, 512), (&long, 4096)] {
        let before = fs::read(image).expect("an image");
        for words in
            [&["delete", "2"][..], &["rename", "2", "x"], &["resize", "2", "1"], &["resize", "2", "0"]]
        {
            let refused = ended(gpt(image, block, words));
            assert_eq!(refused.hint(), hint, "{words:?}");
            assert_eq!(refused.refused(13), format!("{}: the slot is unused: slot 2", image.display()));
            let refused = ended(gpt(image, block, &[words, &["--json"]].concat()));
            assert_eq!(json::parse(&refused.out).expect("JSON").text("hint"), hint);
        }
        assert!(fs::read(image).expect("an image") == before);
    }
    // A slot of zeros is told as before, and a name among stale bytes is nobody's.
    let ended = run!["gpt", "delete", short, "4"];
    assert_eq!(ended.hint(), "the numbers in use are 1, 3");
    ended.refused(13);
    run!["gpt", "delete", short, "b"].usage("no partition has the number, the name or the unique GUID \"b\"");
}

/// Where the copies differ in stale bytes alone they still differ: an edit is refused, and repair copies them.
#[test]
fn copies_that_differ_in_them() {
    let folder = Folder::new();
    let image = three(&folder);
    clear_types(&image, 512, [2]);
    let stale = fs::read(&image).expect("an image");
    change_slots(&image, 512, [2], |entry| entry.fill(0));
    let zeroed = fs::read(&image).expect("an image");
    for (front, behind, known) in [(&stale, &zeroed, vec![2]), (&zeroed, &stale, vec![])] {
        fs::write(&image, [&front[..17_408], &behind[17_408..]].concat()).expect("an image");
        let ended = run!["gpt", "verify", image, "--json"];
        assert_eq!(ended.status, Some(1));
        let json = json::parse(&ended.out).expect("JSON");
        assert_eq!((json.number("state"), json.at("verified")), (2, &Json::Bool(false)));
        assert_eq!(slots(&json), known);
        let copies = "both copies are good, but they differ; the primary is used";
        assert_eq!(json.text("copies"), copies);
        let ended = run!["gpt", "add", image, "--size", "1"];
        let repair = format!("usigrambal gpt repair {} writes the backup from the primary", image.display());
        assert_eq!(ended.hint(), format!("{copies}; {repair}"));
        ended.refused(11);
        run!["gpt", "repair", image].done();
        assert!(fs::read(&image).expect("an image") == *front);
    }
}

/// Such a table is not full: it has no partition, and an add takes slot 1.
#[test]
fn a_table_of_nothing_else() {
    let folder = Folder::new();
    let image = disk(&folder, "disk.img", 1000);
    (0..128).for_each(|_| drop(add(&image, "1", "")));
    run!["gpt", "add", image, "--size", "1"].refused(24);
    clear_types(&image, 512, 1..=128);
    let shown = run!["gpt", "show", image].done();
    let line = "stale:         128 unused entries hold bytes of deleted partitions (slots 1 to 128)";
    assert!(shown.lines().any(|found| found == line) && shown.contains("\nno partitions\n"), "{shown}");
    let free = run!["gpt", "free", image, "--json"].json();
    assert_eq!((free.number("free_blocks"), free.number("longest_run")), (933, 933));
    run!["gpt", "format", image].needed("holds a good GPT with 0 partitions; nothing was written");
    let ended = run!["gpt", "delete", image, "128"];
    assert!(ended.hint().ends_with("overwrites them all; the table has no partitions"), "{}", ended.err);
    ended.refused(13);
    let added = add(&image, "933", "y");
    assert_eq!((added.number("number"), added.number("first")), (1, 34));
    let shown = run!["gpt", "show", image, "--json"].json();
    assert_eq!(slots(&shown), (2..=128).collect::<Vec<_>>());
    assert_eq!(common::partitions(&shown).len(), 1);
}

/// The fixtures that cgpt made by deleting, with the slots that it deleted.
fn by_cgpt() -> Vec<(DiskFixture, Vec<u64>)> {
    let fixture = |name: &str| {
        let path = fixture::files("gpt", "disk").into_iter().find(|path| path.ends_with(name));
        fixture::disk(&path.expect(name)).expect("a fixture")
    };
    let mut all = vec![(fixture("cgpt-deleted.disk"), vec![2, 4])];
    if device::present() {
        all.push((fixture("cgpt-4096-deleted.disk"), vec![1]));
    }
    all
}

/// What cgpt left is read, listed and added to, and the other tools list the result alike.
#[test]
fn disks_from_which_cgpt_deleted() {
    for (fixture, deleted) in by_cgpt() {
        let image = fixture.disk.image();
        let path = &image.path;
        let shown = || run!["gpt", "show", path, "--json"].json();
        assert_eq!((shown().number("state"), slots(&shown())), (1, deleted.clone()));
        assert_eq!(common::partitions(&shown()), fixture.partitions);
        run!["gpt", "verify", path].done();
        for slot in deleted {
            let added = add(path, "7", &format!("new {slot}"));
            assert_eq!(added.number("number"), slot);
            assert!(!slots(&shown()).contains(&slot));
            listed_alike(path, &common::partitions(&shown()));
        }
        run!["gpt", "verify", path].done();
    }
}

fn listed_alike(path: &Path, own: &[listing::Partition]) {
    if peer::present("sgdisk", "gdisk") {
        assert_eq!(listing::sgdisk(path), own);
        let verdict = peer::printed("sgdisk", [Path::new("-v"), path]);
        assert!(verdict.contains("No problems found"), "{verdict}");
    }
    if peer::present("sfdisk", "fdisk") {
        // It lists slots that are still stale, by their zero type.
        let listed = listing::sfdisk(path).into_iter().filter(|row| !row.kind.starts_with("00000000-"));
        assert_eq!(listed.collect::<Vec<_>>(), own);
    }
    if peer::present("cgpt", "cgpt") {
        assert_eq!(listing::cgpt(path, own.iter().map(|row| row.slot)), own);
        assert_eq!(listing::cgpt_quick(path).len(), own.len());
    }
}
