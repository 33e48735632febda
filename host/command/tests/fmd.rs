//! The verbs on layout texts.

mod common;

use common::{fed, Folder};
use std::ffi::OsStr;
use std::fs;
use testkit::json::{self, Json};

/// Sample S10.
const SAMPLE: &str = "\
PRINTNODE@0xff800000 8M {
  BOOT 2M { FMAP 4K }
  RW_CAL(PRESERVE)@3M 64K
  RW_LOG
}
";

const LISTED: &str = "\
PRINTNODE: 8388608 bytes (8 MiB), address 0xff800000, 4 sections

Offset      Size                 Name     Flags
0x00000000  0x00200000    2 MiB  BOOT
0x00000000  0x00001000    4 KiB    FMAP
0x00001000  0x001ff000  1.9 MiB    (gap)
0x00200000  0x00100000    1 MiB  (gap)
0x00300000  0x00010000   64 KiB  RW_CAL   PRESERVE
0x00310000  0x004f0000  4.9 MiB  RW_LOG
";

#[test]
fn sample_10_is_listed() {
    let folder = Folder::new();
    let layout = folder.file("board.fmd", SAMPLE);
    assert_eq!(run!["fmd", "list", layout].done(), LISTED);
    assert_eq!(fed(&["fmd", "list", "-"].map(OsStr::new), SAMPLE.as_bytes()).done(), LISTED);
    let json = run!["fmd", "list", layout, "--json"].json();
    assert_eq!(
        (json.text("name"), json.number("size"), json.text("address")),
        ("PRINTNODE", 8 << 20, "0xff800000")
    );
    let told: Vec<_> = json
        .list("sections")
        .iter()
        .map(|section| {
            (
                section.text("name"),
                section.number("offset"),
                section.number("size"),
                section.number("flag_bits"),
            )
        })
        .collect();
    let expected = [
        ("BOOT", 0, 0x20_0000, 0),
        ("FMAP", 0, 0x1000, 0),
        ("RW_CAL", 0x30_0000, 0x1_0000, 8),
        ("RW_LOG", 0x31_0000, 0x4F_0000, 0),
    ];
    assert_eq!(told, expected);
    assert_eq!(json.list("sections")[1].text("within"), "BOOT");
    assert_eq!(json.list("gaps")[1].at("within"), &Json::Null);
}

/// The texts of tests/45-layout, one for each number.
#[test]
fn every_refusal_of_a_text() {
    let folder = Folder::new();
    let image = folder.file("image.bin", vec![0x55; 1024]);
    let long = " ".repeat(32_769);
    for (number, text) in [
        (50, long.as_str()),
        (51, ""),
        (52, "I 97{FMAP}"),
        (53, "1 98{FMAP}"),
        (54, "I 1K{FMAP 98 A 1 A 1}"),
        (55, "I 1K{FMAP 98 B{C{D{E{F{G{H{I{J}}}}}}}}}"),
        (56, "I 1K{FMAP(RO)}"),
        (57, "I 1K{FMAP A}"),
        (58, "I 1K{FMAP 2K}"),
        (59, "I 1K{A}"),
    ] {
        let layout = folder.file("board.fmd", text);
        run!["fmd", "list", layout].refused(number);
        fed(&["fmd", "list", "-"].map(OsStr::new), text.as_bytes()).refused(number);
        run!["fmd", "write", layout, image].refused(number);
        run!["fmd", "write", layout, folder.path("new.bin"), "--create"].refused(number);
        let ended = run!["fmd", "list", layout, "--json"];
        assert_eq!(json::parse(&ended.out).expect("JSON").number("refused"), u64::from(number));
    }
    assert_eq!(fs::read(&image).expect("an image"), [0x55; 1024]);
    assert_eq!(folder.names(), ["board.fmd", "image.bin"]);
    let endless = fs::File::open("/dev/zero").expect("/dev/zero");
    let output = common::command().args(["fmd", "list", "-"]).stdin(endless).output().expect("the command");
    common::Ended::from(output).refused(50);
}

#[test]
fn a_map_is_written_and_nothing_else() {
    let folder = Folder::new();
    let layout = folder.file("board.fmd", "CHIP 300 { A@4 40 { CAL(PRESERVE)@8 20 } FMAP }");
    let image = folder.file("image.bin", [0x55; 300]);
    let would = run!["fmd", "write", layout, image, "--dry-run"].done();
    assert_eq!(fs::read(&image).expect("an image"), [0x55; 300]);
    let wrote = run!["fmd", "write", layout, image].done();
    let said = format!("wrote the map of CHIP with 3 areas at 0x0000002c into {}\n", image.display());
    assert_eq!(
        (wrote.as_str(), would.replace("would write", "wrote").as_str()),
        (said.as_str(), said.as_str())
    );
    let bytes = fs::read(&image).expect("an image");
    assert_eq!(bytes[..44], [0x55; 44]);
    assert_eq!(bytes[44..52], *b"__FMAP__");
    assert_eq!(bytes[44 + 56 + 3 * 42..], [0x55; 300 - 44 - 56 - 3 * 42]);
    let again = run!["fmd", "write", layout, image, "--json"].json();
    assert_eq!((again.at("changed"), again.number("position")), (&Json::Bool(false), 44));
    assert!(run!["fmd", "write", layout, image].done().contains("at 0x0000002c already; no byte changes"));
    assert_eq!(folder.names(), ["board.fmd", "image.bin"]);
}

#[test]
fn an_image_of_another_length() {
    let folder = Folder::new();
    let layout = folder.file("board.fmd", "CHIP 300 { FMAP }");
    let image = folder.file("image.bin", [0x55; 299]);
    let words = run!["fmd", "write", layout, image].refused(1);
    assert!(words.ends_with("the image has 299 bytes, the layout states 300"), "{words}");
    assert_eq!(fs::read(&image).expect("an image"), [0x55; 299]);
    // Gigabytes are not read.
    let large = folder.sparse("large.bin", 1 << 40);
    let words = run!["fmd", "write", layout, large].refused(1);
    assert!(words.contains("more than 16777216 bytes"), "{words}");
}

#[test]
fn a_new_image_is_made() {
    let folder = Folder::new();
    let layout = folder.file("board.fmd", SAMPLE);
    let image = folder.path("image.bin");
    run!["fmd", "write", layout, image].unusable("--create makes a new image");
    let told = run!["fmd", "write", layout, image, "--create", "--dry-run"].done();
    assert!(told.contains("a new image of 8388608 bytes (8 MiB)") && !image.exists(), "{told}");
    assert_eq!(
        run!["fmd", "write", layout, image, "--create", "--json"].json().at("created"),
        &Json::Bool(true)
    );
    let bytes = fs::read(&image).expect("an image");
    assert_eq!(bytes.len(), 8 << 20);
    assert_eq!(bytes[..8], *b"__FMAP__");
    assert!(bytes[56 + 4 * 42..].iter().all(|byte| *byte == 0xFF));
    run!["fmd", "write", layout, image, "--create"].needed("is already there; --create makes new files only");
    assert_eq!(fs::read(&image).expect("an image"), bytes);
    run!["fmd", "write", layout, folder.path("no/image.bin"), "--create"]
        .unusable("its folder does not exist");
}
