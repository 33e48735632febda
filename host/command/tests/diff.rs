//! `fmap diff`: what an update would do.

mod common;

use common::{images, Folder};
use std::fs;
use testkit::json::{self, Json};

const OLD: &str =
    "CAL(PRESERVE)@4K 1K LOG@8K 1K GONE@12K 1K BOX(PRESERVE)@16K 4K { IN 1K } SET@32K 1K STAY@40K 1K";
const NEW: &str =
    "CAL@5K 1K LOG@9K 2K FRESH@12K 1K BOX@20K 4K { IN 1K MORE 1K } SET(PRESERVE)@32K 1K STAY@40K 2K";

#[test]
fn an_update_in_a_table() {
    let folder = Folder::new();
    let (old, new) = images(&folder, OLD, NEW);
    let mut bytes = fs::read(&old).expect("an image");
    bytes[0x8000..0x8400].fill(0x22);
    fs::write(&old, &bytes).expect("an image");
    let before = fs::read(&new).expect("an image");
    let ended = run!["fmap", "diff", old, new];
    let expected = format!(
        "\
Area   Old                New                Change             Bytes   PRESERVE  Update
FMAP   0x00000000  4 KiB  0x00000000  4 KiB  same               differ  -         left
CAL    0x00001000  1 KiB  0x00001400  1 KiB  moved              differ  old       carried
LOG    0x00002000  1 KiB  0x00002400  2 KiB  moved and resized  differ  -         left
GONE   0x00003000  1 KiB  -                  only old           -       -         gone
BOX    0x00004000  4 KiB  0x00005000  4 KiB  moved              differ  old       carried
IN     0x00004000  1 KiB  0x00005000  1 KiB  moved              differ  -         carried in BOX
SET    0x00008000  1 KiB  0x00008000  1 KiB  same               equal   new       LOST
STAY   0x0000a000  1 KiB  0x0000a000  2 KiB  resized            differ  -         left
FRESH  -                  0x00003000  1 KiB  only new           -       -         left
MORE   -                  0x00005400  1 KiB  only new           -       -         overwritten

lost: SET is marked PRESERVE in the new map alone; the old map's mark decides
overwritten: MORE, by the carried BOX, which holds it in the new map
2 areas (5 KiB) to be carried; 1 area would be lost: SET
before {new} is flashed: usigrambal fmap carry {old} {new}
",
        old = old.display(),
        new = new.display()
    );
    assert_eq!((ended.status, ended.out.as_str(), ended.err.as_str()), (Some(1), expected.as_str(), ""));
    assert_eq!((fs::read(&old).expect("an image"), fs::read(&new).expect("an image")), (bytes, before));
    assert_eq!(folder.names(), ["new.bin", "new.fmd", "old.bin", "old.fmd"]);
}

#[test]
fn an_update_in_json() {
    let folder = Folder::new();
    let (old, new) = images(&folder, OLD, NEW);
    let ended = run!["fmap", "diff", old, new, "--json"];
    let json = json::parse(&ended.out).expect("JSON");
    assert_eq!(ended.status, Some(1));
    assert_eq!((json.number("carried"), json.list("lost")), (2, &[Json::Text("SET".into())][..]));
    assert_eq!(
        (json.at("carry_refused"), json.at("carry_words"), json.at("svg")),
        (&Json::Null, &Json::Null, &Json::Null)
    );
    let told: Vec<_> = json
        .list("areas")
        .iter()
        .map(|area| (area.text("name"), area.text("change"), area.text("fate")))
        .collect();
    assert!(
        told.contains(&("CAL", "moved", "carried")) && told.contains(&("IN", "moved", "within")),
        "{told:?}"
    );
    assert!(
        told.contains(&("SET", "same", "lost")) && told.contains(&("GONE", "only old", "gone")),
        "{told:?}"
    );
    let cal = &json.list("areas")[1];
    assert_eq!((cal.at("old").number("offset"), cal.at("new").number("offset")), (0x1000, 0x1400));
    assert_eq!(
        (cal.at("old").at("preserve"), cal.at("new").at("preserve")),
        (&Json::Bool(true), &Json::Bool(false))
    );
    assert_eq!(cal.text("bytes"), "differ");
    assert_eq!(json.list("areas")[3].at("new"), &Json::Null);
}

/// Exit status 1 exactly where an area of the old image, marked in a map, would not be brought.
#[test]
fn what_is_lost() {
    let folder = Folder::new();
    for (old, new, lost, refused) in [
        ("CAL(PRESERVE)@4K 1K", "CAL(PRESERVE)@8K 1K", &[][..], None),
        ("CAL(PRESERVE)@4K 1K", "CAL@8K 1K", &[], None),
        ("CAL@4K 1K", "CAL@8K 1K", &[], None),
        ("CAL@4K 1K", "OTHER(PRESERVE)@8K 1K", &[], None),
        ("BOX(PRESERVE)@4K 4K { CAL 1K }", "BOX@8K 4K { CAL(PRESERVE) 1K }", &[], None),
        ("BOX(PRESERVE)@4K 4K { CAL 1K }", "BOX@8K 4K { CAL(PRESERVE)@1K 1K }", &["CAL"], None),
        ("CAL@4K 1K", "CAL(PRESERVE)@4K 1K", &["CAL"], None),
        ("CAL@4K 1K", "CAL(PRESERVE)@4K 2K", &["CAL"], None),
        ("CAL(PRESERVE)@4K 1K", "OTHER(PRESERVE)@4K 1K", &["CAL"], Some(60)),
        ("CAL(PRESERVE)@4K 1K SET(PRESERVE)@8K 1K", "CAL@4K 1K", &["CAL", "SET"], Some(60)),
        ("CAL(PRESERVE)@4K 1K SET(PRESERVE)@8K 1K", "CAL@4K 2K SET@8K 1K", &["CAL", "SET"], Some(61)),
        ("A(PRESERVE)@4K 4K { B(PRESERVE) 1K }", "A@4K 4K { B 1K }", &["A", "B"], Some(62)),
        ("A@4K 4K FMAPS(PRESERVE)@8K 4K", "A(PRESERVE)@4K 4K", &["A", "FMAPS"], Some(60)),
    ] {
        let (old, new) = images(&folder, old, new);
        let ended = run!["fmap", "diff", old, new, "--json"];
        let json = json::parse(&ended.out).expect("JSON");
        let names: Vec<Json> = lost.iter().map(|name| Json::Text(name.to_string())).collect();
        assert_eq!((ended.status, json.list("lost")), (Some(i32::from(!lost.is_empty())), &names[..]));
        assert_eq!(json.at("carry_refused"), &refused.map_or(Json::Null, Json::Number));
        let told = run!["fmap", "diff", old, new].out;
        let line = refused.map(|number| format!("the carry is refused {number}: "));
        assert!(line.is_none_or(|line| told.contains(&line)), "{told}");
        let carry = run!["fmap", "carry", old, new];
        assert_eq!(carry.status == Some(0), refused.is_none());
    }
}

/// 63: an area to be carried onto the map itself.
#[test]
fn a_carry_onto_the_map_is_told() {
    let folder = Folder::new();
    let layout = |name: &str, text: &str| {
        let path = folder.path(&format!("{name}.bin"));
        run!["fmd", "write", folder.file(&format!("{name}.fmd"), text), path, "--create"].done();
        path
    };
    let old = layout("old", "CHIP 64K { FMAP 4K BOX(PRESERVE)@8K 8K }");
    let new = layout("new", "CHIP 64K { BOX 8K { FMAP 4K } }");
    let ended = run!["fmap", "diff", old, new];
    assert_eq!(ended.status, Some(1));
    assert!(ended.out.contains("BOX shares bytes with FMAP in "), "{}", ended.out);
    assert!(ended.out.contains("the carry is refused 63: "), "{}", ended.out);
}

#[test]
fn after_the_carry_the_bytes_are_there() {
    let folder = Folder::new();
    let (old, new) = images(&folder, "CAL(PRESERVE)@4K 1K", "CAL@8K 1K");
    let first = run!["fmap", "diff", old, new].done();
    assert!(first.contains("1 area (1 KiB) to be carried; nothing is lost then\n"), "{first}");
    run!["fmap", "carry", old, new].done();
    let then = run!["fmap", "diff", old, new].done();
    assert!(
        then.contains("1 area (1 KiB) to be carried, whose bytes are there already; nothing is lost"),
        "{then}"
    );
}

#[test]
fn images_that_do_not_suit() {
    let folder = Folder::new();
    let (old, _) = images(&folder, "A 1K", "A 1K");
    run!["fmap", "diff", old, old].usage("are the same file");
    run!["fmap", "diff", folder.path("missing"), old].unusable("does not exist");
    run!["fmap", "diff", folder.0, old].unusable("is a folder");
    let empty = folder.file("empty.bin", [0; 98]);
    assert!(run!["fmap", "diff", old, empty].refused(41).contains("empty.bin"));
    assert!(run!["fmap", "diff", empty, old].refused(41).contains("empty.bin"));
}
