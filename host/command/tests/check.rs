//! `gpt check`: the partitions whose attributes have a bit set that a rule wants zero.

mod common;

use common::image::{both, Image};
use common::{change_slots, clear_types, disk, spoil, Folder};
use std::ffi::OsStr;
use std::fs;
use testkit::json::{self, Json};
use testkit::peer;

const PRESENT: &str = "the present rule, which wants attribute bits 3 to 47 zero";
const EARLIER: &str = "the earlier rule, which wants attribute bits 1 to 47 zero";

impl Image {
    /// Partitions with these attributes, also with those that no add takes.
    fn with(&self, attributes: &[u64]) {
        for (slot, attributes) in (1..).zip(attributes) {
            self.call("add", &["--size", "1", "--align", "1", "--name", &format!("p{slot}")]).done();
            self.set(slot, *attributes);
        }
    }

    fn set(&self, slot: u64, attributes: u64) {
        let stored = attributes.to_le_bytes();
        change_slots(&self.path, self.block, [slot], |entry| entry[48..56].copy_from_slice(&stored));
    }

    /// How a bit is cleared.
    fn cleared(&self) -> String {
        let path = self.text();
        match self.block {
            512 => format!("sgdisk -A NUMBER:clear:BIT {path} clears a bit"),
            _ => format!(
                "losetup -b 4096 -f --show {path} makes a device of it with blocks of 4096 bytes, \
                 on which sgdisk -A NUMBER:clear:BIT clears a bit"
            ),
        }
    }

    /// The document of a check that found something.
    #[track_caller]
    fn found(&self, rule: &str) -> Json {
        let ended = self.call("check", &["--rule", rule, "--json"]);
        assert_eq!((ended.status, ended.err.as_str()), (Some(1), ""));
        json::parse(&ended.out).expect("JSON")
    }

    /// Whether the present and the earlier rule are passed.
    fn passes(&self) -> [bool; 2] {
        ["present", "earlier"].map(|rule| match self.call("check", &["--rule", rule]).status {
            Some(0) => true,
            Some(1) => false,
            other => panic!("exit status {other:?}"),
        })
    }
}

fn numbers(list: &[Json]) -> Vec<u64> {
    let number = |number: &Json| match number {
        Json::Number(number) => *number,
        other => panic!("no number: {other:?}"),
    };
    list.iter().map(number).collect()
}

/// Each bit alone in a table: the exit status, and the bits that are told.
#[test]
fn every_bit_is_checked() {
    let folder = Folder::new();
    let [image, _] = both(&folder);
    image.with(&[0, 0]);
    for bit in 0..64 {
        image.set(2, 1 << bit);
        let offends = [(3..48).contains(&bit), (1..48).contains(&bit)];
        assert_eq!(image.passes(), offends.map(|offends| !offends), "bit {bit}");
        for (rule, _) in ["present", "earlier"].iter().zip(offends).filter(|(_, offends)| *offends) {
            let json = image.found(rule);
            assert_eq!(numbers(json.list("offending")[0].list("bits")), [bit], "bit {bit}");
        }
    }
}

/// All that offend are listed, the library's answer first; the document says the same.
#[test]
fn partitions_that_offend() {
    let folder = Folder::new();
    for image in both(&folder) {
        image.with(&[1, 4, 0x12, 0, 0xFFFF << 48, 0xFFFF_FFFF_FFFF]);
        let path = image.text();
        let ended = image.call("check", &[]);
        let expected = format!(
            "\
{path}: 2 partitions offend {PRESENT}
Number  Name  Offending
     3  p3    bit 4
     6  p6    bits 3 to 47
hint: {}
",
            image.cleared()
        );
        assert_eq!((ended.status, ended.out, ended.err.as_str()), (Some(1), expected, ""));
        let json = image.found("earlier");
        assert_eq!((json.text("disk"), json.number("block_bytes")), (path, image.block));
        assert_eq!((json.text("rule"), json.at("passed")), ("earlier", &Json::Bool(false)));
        assert_eq!((json.number("state"), json.number("first_offending")), (1, 2));
        assert_eq!(json.text("hint"), image.cleared());
        let told: Vec<_> = json
            .list("offending")
            .iter()
            .map(|one| {
                (one.number("number"), one.text("name"), one.text("attributes"), numbers(one.list("bits")))
            })
            .collect();
        let expected = [
            (2, "p2", "0x4", vec![2]),
            (3, "p3", "0x12", vec![1, 4]),
            (6, "p6", "0xffffffffffff", (1..48).collect()),
        ];
        assert_eq!(told, expected);
        // Without the two that offend under both, the hint says that the present rule is passed.
        [3, 6].iter().for_each(|slot| drop(image.call("delete", &[&slot.to_string()]).done()));
        let ended = image.call("check", &["--rule", "earlier"]);
        let one = format!("{path}: 1 partition offends {EARLIER}\n");
        let row = "Number  Name  Offending\n     2  p2    bit 2 (legacy-boot)\n";
        let hint = format!("hint: {}; under --rule present none offends\n", image.cleared());
        assert_eq!((ended.status, ended.out), (Some(1), format!("{one}{row}{hint}")));
    }
}

#[test]
fn tables_that_pass() {
    let folder = Folder::new();
    for image in both(&folder) {
        let path = image.text();
        assert_eq!(image.call("check", &[]).done(), format!("{path}: no partition offends {PRESENT}\n"));
        image.with(&[0, 1 | 0xFFFF << 48]);
        for (rule, words) in [("present", PRESENT), ("earlier", EARLIER)] {
            let said = image.call("check", &["--rule", rule]).done();
            assert_eq!(said, format!("{path}: no partition offends {words}\n"));
            let json = image.call("check", &["--rule", rule, "--json"]).json();
            assert_eq!((json.text("rule"), json.at("passed")), (rule, &Json::Bool(true)));
            assert_eq!((json.at("first_offending"), json.at("hint")), (&Json::Null, &Json::Null));
            assert!(json.list("offending").is_empty());
        }
        // Bytes of a deleted partition do not count.
        image.set(1, u64::MAX);
        assert_eq!(image.passes(), [false, false]);
        clear_types(&image.path, image.block, [1]);
        assert_eq!(image.passes(), [true, true]);
    }
}

/// By the copy that is used, which is told where the copies are not both good and the same.
#[test]
fn copies_that_are_not_the_same() {
    let folder = Folder::new();
    for image in both(&folder) {
        image.with(&[0, 8]);
        let with = image.bytes();
        image.set(2, 2);
        let head = if image.block == 512 { 17_408 } else { 24_576 };
        let mut mixed = image.bytes();
        mixed[head..].copy_from_slice(&with[head..]);
        fs::write(&image.path, &mixed).expect("an image");
        let ended = image.call("check", &[]);
        let note = "note: both copies are good, but they differ; the primary is used\n";
        let passed = format!("{}: no partition offends {PRESENT}\n", image.text());
        assert_eq!((ended.status, ended.out), (Some(0), format!("{passed}{note}")));
        spoil(&image.path, image.block);
        let ended = image.call("check", &[]);
        let note = "note: the primary copy is not good; the backup is used\n";
        let lines = format!("{}: 1 partition offends {PRESENT}\n{note}Number", image.text());
        assert!(ended.status == Some(1) && ended.out.starts_with(&lines), "{}", ended.out);
        let json = image.found("present");
        assert_eq!((json.number("state"), json.number("first_offending")), (4, 2));
    }
}

/// Each has its answer, and the exit status is the largest.
#[test]
fn several_disks() {
    let folder = Folder::new();
    let [one, two] = both(&folder);
    two.with(&[2]);
    let missing = folder.path("missing.img");
    let ended = run!["gpt", "check", one.path, two.path, "--rule", "earlier"];
    let first = format!("{}: no partition offends {EARLIER}\n", one.text());
    let second = format!("{}: 1 partition offends {EARLIER}\n", two.text());
    assert_eq!(ended.status, Some(1));
    assert!(ended.out.starts_with(&format!("{first}{second}note: read with --block 4096")), "{}", ended.out);
    let ended = run!["gpt", "check", one.path, two.path, "--json"];
    assert_eq!(ended.status, Some(0));
    let Json::List(documents) = json::parse(&ended.out).expect("JSON") else { panic!("{}", ended.out) };
    assert!(documents.iter().all(|document| document.at("passed") == &Json::Bool(true)));
    assert_eq!(run!["gpt", "check", two.path, missing].status, Some(3));
    run!["gpt", "check", one.path, two.path, "--rule", "both"].usage("\"both\" is no rule");
}

/// Other edits keep the attributes, and do not look at them.
#[test]
fn edits_of_a_table_that_offends() {
    let folder = Folder::new();
    for image in both(&folder) {
        image.with(&[u64::MAX, 8]);
        image.call("rename", &["1", "x"]).done();
        image.call("resize", &["2", "3"]).done();
        let deleted = image.call("delete", &["2", "--json"]).json();
        assert_eq!(deleted.text("attributes"), "0x8");
        image.call("verify", &[]).done();
        let shown = image.call("show", &["--json"]).json();
        assert_eq!(shown.list("partitions")[0].text("attributes"), "0xffffffffffffffff");
    }
}

/// What the hint advises clears the bit.
#[test]
fn sgdisk_clears_a_bit() {
    if !peer::present("sgdisk", "gdisk") {
        return;
    }
    let folder = Folder::new();
    let image = Image { path: disk(&folder, "disk.img", 131_072), block: 512 };
    image.with(&[4, 0x21]);
    let hint = image.found("present").text("hint").to_string();
    let call =
        hint.strip_prefix("sgdisk ").and_then(|hint| hint.strip_suffix(" clears a bit")).expect("a call");
    let words = call.replace("NUMBER", "2").replace("BIT", "5");
    peer::printed("sgdisk", words.split(' ').map(OsStr::new));
    assert_eq!(image.passes(), [true, false]);
    let shown = common::partitions(&image.call("show", &["--json"]).json());
    assert_eq!(shown.iter().map(|one| one.attributes).collect::<Vec<_>>(), [4, 1]);
}
