//! What a carry tells of every area, and `--strict`.

mod common;

use common::{images, Ended, Folder};
use std::fs;
use testkit::json::{self, Json};

fn fates(json: &Json) -> Vec<(&str, &str)> {
    json.list("areas").iter().map(|area| (area.text("name"), area.text("fate"))).collect()
}

fn warnings(ended: &Ended) -> Vec<&str> {
    ended.err.lines().map(|line| line.strip_prefix("usigrambal: warning: ").expect("a warning")).collect()
}

const OLD: &str = "CAL(PRESERVE)@4K 1K LOG@8K 1K GONE@12K 1K BOX(PRESERVE)@16K 4K { IN 1K } SET@32K 1K";
const NEW: &str = "CAL@5K 1K LOG@8K 2K FRESH@12K 1K BOX@20K 4K { IN 1K MORE 1K } SET(PRESERVE)@32K 1K";

#[test]
fn every_area_of_either_map_is_told() {
    let folder = Folder::new();
    let (old, new) = images(&folder, OLD, NEW);
    let before = fs::read(&new).expect("an image");
    let ended = run!["fmap", "carry", old, new];
    let expected = format!(
        "\
Area   From        To          Size               What becomes of it
FMAP   0x00000000  0x00000000  0x00001000  4 KiB  left as the new image has it: not marked in the old map
CAL    0x00001000  0x00001400  0x00000400  1 KiB  carried
LOG    0x00002000  0x00002000  0x00000800  2 KiB  left as the new image has it: not marked in the old map
GONE   0x00003000  -           0x00000400  1 KiB  gone: only in the old map
BOX    0x00004000  0x00005000  0x00001000  4 KiB  carried
IN     0x00004000  0x00005000  0x00000400  1 KiB  carried in BOX
SET    0x00008000  0x00008000  0x00000400  1 KiB  left as the new image has it: marked in the new map alone
FRESH  -           0x00003000  0x00000400  1 KiB  left as the new image has it: only in the new map
MORE   -           0x00005400  0x00000400  1 KiB  overwritten by BOX, which holds it: only in the new map

2 areas carried from {} into {}, 5120 bytes (5 KiB)
",
        old.display(),
        new.display()
    );
    assert_eq!((ended.status, ended.out.as_str()), (Some(0), expected.as_str()), "{}", ended.err);
    let said = [
        "SET is marked PRESERVE in the new map alone: it is not carried",
        "BOX, which is carried, holds MORE of the new map: its bytes are overwritten",
    ];
    assert_eq!(warnings(&ended), said);
    let mut after = before;
    after[0x1400..0x1800].fill(0x11);
    after[0x5000..0x6000].fill(0x11);
    assert_eq!(fs::read(&new).expect("an image"), after);
    let json = json::parse(&run!["fmap", "carry", old, new, "--json"].out).expect("JSON");
    let expected = [
        ("FMAP", "left"),
        ("CAL", "carried"),
        ("LOG", "left"),
        ("GONE", "gone"),
        ("BOX", "carried"),
        ("IN", "within"),
        ("SET", "lost"),
        ("FRESH", "left"),
        ("MORE", "overwritten"),
    ];
    assert_eq!(fates(&json), expected);
    assert_eq!(json.list("faults").len(), 2);
    assert_eq!(json.list("faults"), json.list("warnings"));
}

/// Each of these is held back, and nothing is written.
#[test]
fn strict_holds_back() {
    let folder = Folder::new();
    for (old, new, why) in [
        (
            "CAL@4K 1K",
            "CAL(PRESERVE)@4K 1K",
            "CAL is marked PRESERVE in the new map alone: it is not carried",
        ),
        (
            "CAL(PRESERVE)@4K 1K",
            "CAL@8K 1K SET(PRESERVE)@12K 1K",
            "SET is marked PRESERVE and only in the new map: it is not carried",
        ),
        (
            "BOX(PRESERVE)@4K 4K",
            "BOX@8K 4K { A 1K }",
            "BOX, which is carried, holds A of the new map: its bytes are overwritten",
        ),
        (
            "BOX(PRESERVE)@4K 4K { A 1K }",
            "BOX@8K 4K { A@1K 1K }",
            "BOX, which is carried, holds A of the new map: its bytes are overwritten",
        ),
    ] {
        let (old, new) = images(&folder, old, new);
        let before = fs::read(&new).expect("an image");
        for more in [&["--strict"][..], &["--strict", "--dry-run"]] {
            let call = ["fmap".as_ref(), "carry".as_ref(), old.as_os_str(), new.as_os_str()];
            let words: Vec<_> = call.into_iter().chain(more.iter().map(std::ffi::OsStr::new)).collect();
            let ended = common::run(&words);
            assert_eq!(ended.status, Some(1), "{}", ended.err);
            assert!(warnings(&ended).contains(&why), "{}", ended.err);
            let said = format!("nothing was written: {} is as it was (--strict)\n", new.display());
            assert!(ended.out.ends_with(&said), "{}", ended.out);
            assert_eq!(fs::read(&new).expect("an image"), before);
        }
        let ended = run!["fmap", "carry", old, new, "--strict", "--json"];
        let json = json::parse(&ended.out).expect("JSON");
        assert_eq!(
            (ended.status, json.at("held_back"), json.at("changed")),
            (Some(1), &Json::Bool(true), &Json::Bool(false))
        );
        assert!(json.list("faults").contains(&Json::Text(why.into())), "{}", ended.out);
        // Without the word it goes on, and warns.
        let ended = run!["fmap", "carry", old, new];
        assert!(ended.status == Some(0) && warnings(&ended).contains(&why), "{}", ended.err);
    }
}

#[test]
fn strict_lets_pass() {
    let folder = Folder::new();
    for (old, new) in [
        ("CAL(PRESERVE)@4K 1K LOG@8K 1K", "LOG@4K 2K CAL(PRESERVE)@8K 1K"),
        ("CAL(PRESERVE)@4K 1K", "CAL@8K 1K"),
        ("BOX(PRESERVE)@4K 4K { A 1K }", "BOX(PRESERVE)@8K 4K { A 1K }"),
        ("ALL@4K 8K { CAL(PRESERVE)@1K 1K }", "ALL@8K 8K { CAL(PRESERVE)@2K 1K }"),
        ("CAL@4K 1K", "CAL@8K 1K"),
    ] {
        let (old, new) = images(&folder, old, new);
        let json = json::parse(&run!["fmap", "carry", old, new, "--strict", "--json"].out).expect("JSON");
        assert_eq!((json.at("held_back"), json.list("faults")), (&Json::Bool(false), &[][..]));
        assert_eq!(json.at("changed"), &Json::Bool(!json.list("carried").is_empty()));
        for one in json.list("carried") {
            let (to, size) = (one.number("to") as usize, one.number("size") as usize);
            assert!(fs::read(&new).expect("an image")[to..to + size].iter().all(|byte| *byte == 0x11));
        }
    }
}

#[test]
fn one_area_is_one() {
    let folder = Folder::new();
    let layout = folder.file("one.fmd", "CHIP 1K { FMAP }");
    let path = folder.path("one.bin");
    assert!(run!["fmd", "list", layout].done().contains("address 0x0, 1 section\n"));
    let wrote = run!["fmd", "write", layout, path, "--create"].done();
    assert!(wrote.contains("the map of CHIP with 1 area at 0x00000000"), "{wrote}");
    assert!(run!["fmap", "show", path].done().contains("base 0x0, 1 area\n"));
}
