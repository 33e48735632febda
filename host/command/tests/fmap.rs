//! The verbs on flash images.

mod common;

use common::Folder;
use std::fs;
use std::path::PathBuf;
use testkit::flash::{Area, Map};
use testkit::json::{self, Json};

const LEN: usize = 0x4000;

fn area(name: &str, offset: u32, size: u32, flags: u16) -> Area {
    Area { offset, size, name: name.into(), flags }
}

fn areas(cal: u32) -> Vec<Area> {
    vec![
        area("RW_CAL", cal, 0x100, 8),
        area("TOP", 0, 0x1000, 5),
        area("FMAP", 0x200, 0x800, 0),
        area("ALIAS", 0x200, 0x800, 0x4002),
    ]
}

fn image(areas: Vec<Area>, fill: u8) -> Vec<u8> {
    let (size, name) = (LEN as u32, b"BOARD".to_vec());
    let map = Map { major: 1, minor: 0, base: u64::MAX, size, name, areas, position: 0x200 };
    let mut image = vec![fill; LEN];
    map.write(&mut image);
    image
}

#[test]
fn show_has_nesting_flags_and_gaps() {
    let folder = Folder::new();
    let path = folder.file("board.bin", image(areas(0x2000), 0));
    let expected = format!(
        "\
{}: 16384 bytes (16 KiB)
map BOARD at 0x00000200, version 1.0, base 0xffffffffffffffff, 4 areas

Offset      Size                 Name       Flags
0x00000000  0x00001000    4 KiB  TOP        STATIC RO
0x00000000  0x00000200    512 B    (gap)
0x00000200  0x00000800    2 KiB    FMAP
0x00000200  0x00000800    2 KiB      ALIAS  COMPRESSED 0x4000
0x00000a00  0x00000600  1.5 KiB    (gap)
0x00001000  0x00001000    4 KiB  (gap)
0x00002000  0x00000100    256 B  RW_CAL     PRESERVE
0x00002100  0x00001f00  7.7 KiB  (gap)
",
        path.display()
    );
    assert_eq!(run!["fmap", "show", path].done(), expected);
    let json = run!["fmap", "show", path, "--json"].json();
    assert_eq!((json.number("position"), json.text("version"), json.text("name")), (0x200, "1.0", "BOARD"));
    assert_eq!(json.text("base"), "0xffffffffffffffff");
    let names: Vec<_> = json.list("areas").iter().map(|area| area.text("name")).collect();
    assert_eq!(names, ["RW_CAL", "TOP", "FMAP", "ALIAS"]);
    assert_eq!(json.list("areas")[3].text("within"), "FMAP");
    let flags = [Json::Text("COMPRESSED".into()), Json::Text("0x4000".into())];
    assert_eq!(json.list("areas")[3].list("flags"), flags);
    assert_eq!(json.list("gaps").len(), 4);
}

#[test]
fn images_without_a_map() {
    let folder = Folder::new();
    let short = folder.file("short.bin", [0; 97]);
    assert!(run!["fmap", "show", short].refused(40).ends_with("97 bytes"));
    let large = folder.sparse("large.bin", 1 << 40);
    assert!(run!["fmap", "show", large].refused(40).ends_with("more than 16777216 bytes"));
    run!["fmap", "extract", large, "FMAP"].refused(40);
    let empty = folder.file("empty.bin", [0; 98]);
    run!["fmap", "show", empty].refused(41);
    let mut bytes = image(areas(0x2000), 0);
    bytes[0x200 + 8] = 2;
    let bad = folder.file("bad.bin", bytes);
    run!["fmap", "show", bad].refused(42);
    let ended = run!["fmap", "show", bad, "--json"];
    assert_eq!(json::parse(&ended.out).expect("JSON").number("refused"), 42);
}

fn pair(folder: &Folder) -> (PathBuf, PathBuf) {
    let mut old = image(areas(0x2000), 0xFF);
    old[0x2000..0x2100].fill(0xCA);
    (folder.file("old.bin", old), folder.file("new.bin", image(areas(0x3000), 0xEE)))
}

#[test]
fn carry_moves_the_bytes() {
    let folder = Folder::new();
    let (old, new) = pair(&folder);
    let (old_bytes, new_bytes) = (fs::read(&old).unwrap(), fs::read(&new).unwrap());
    let would = run!["fmap", "carry", old, new, "--dry-run"].done();
    assert_eq!(fs::read(&new).unwrap(), new_bytes);
    let carried = run!["fmap", "carry", old, new].done();
    let expected = format!(
        "\
Area    From        To          Size               What becomes of it
RW_CAL  0x00002000  0x00003000  0x00000100  256 B  carried
TOP     0x00000000  0x00000000  0x00001000  4 KiB  left as the new image has it: not marked in the old map
FMAP    0x00000200  0x00000200  0x00000800  2 KiB  left as the new image has it: not marked in the old map
ALIAS   0x00000200  0x00000200  0x00000800  2 KiB  left as the new image has it: not marked in the old map

1 area carried from {} into {}, 256 bytes (256 B)
",
        old.display(),
        new.display()
    );
    assert_eq!(
        (carried.as_str(), would.replace("would be carried", "carried")),
        (expected.as_str(), expected.clone())
    );
    let mut after = new_bytes;
    after[0x3000..0x3100].fill(0xCA);
    assert_eq!((fs::read(&new).unwrap(), fs::read(&old).unwrap()), (after, old_bytes));
    let json = run!["fmap", "carry", old, new, "--json"].json();
    assert_eq!(json.at("changed"), &Json::Bool(false));
    let one = &json.list("carried")[0];
    assert_eq!(
        (one.text("name"), one.number("from"), one.number("to"), one.number("size")),
        ("RW_CAL", 0x2000, 0x3000, 0x100)
    );
    assert!(run!["fmap", "carry", old, new].done().contains("carried, the same bytes already"));
    assert_eq!(folder.names(), ["new.bin", "old.bin"]);
}

#[test]
fn nothing_to_carry_is_noted() {
    let folder = Folder::new();
    let (_, new) = pair(&folder);
    let mut plain = areas(0x2000);
    plain[0].flags = 7;
    let (old, before) = (folder.file("plain.bin", image(plain, 1)), fs::read(&new).unwrap());
    let ended = run!["fmap", "carry", old, new];
    assert_eq!((ended.status, fs::read(&new).unwrap()), (Some(0), before));
    assert!(ended.out.contains("\n\n0 areas carried"), "{}", ended.out);
    assert!(ended.err.contains("plain.bin marks no area PRESERVE"), "{}", ended.err);
}

#[test]
fn a_refused_carry_writes_nothing() {
    let folder = Folder::new();
    let (old, _) = pair(&folder);
    let changed = |change: &dyn Fn(&mut Vec<Area>)| {
        let mut areas = areas(0x3000);
        change(&mut areas);
        image(areas, 0xEE)
    };
    for (number, bytes, words) in [
        (41, vec![0; 98], "new.bin: the signature"),
        (40, vec![0; 97], "new.bin: the image length"),
        (60, changed(&|areas| areas[0].name = b"CAL".to_vec()), "in the new map: RW_CAL"),
        (61, changed(&|areas| areas[0].size += 1), "in the new map: RW_CAL"),
        (63, changed(&|areas| areas[0].offset = 0x400), "area FMAP of the new map"),
    ] {
        let new = folder.file("new.bin", &bytes);
        let said = run!["fmap", "carry", old, new].refused(number);
        assert!(said.contains(words), "{said}");
        assert_eq!(fs::read(&new).unwrap(), bytes);
    }
    let both = [areas(0x2000), vec![area("PART", 0x2080, 8, 8)]].concat();
    let old_62 = folder.file("old62.bin", image(both.clone(), 1));
    let new_62 = folder.file("new62.bin", image(both, 2));
    run!["fmap", "carry", old_62, new_62].refused(62);
    let large = folder.sparse("large.bin", 1 << 40);
    assert!(run!["fmap", "carry", large, new_62].refused(40).contains("large.bin: the image length"));
    assert!(run!["fmap", "carry", old, large].refused(40).contains("large.bin: the image length"));
}

#[test]
fn extract_gives_the_bytes() {
    let folder = Folder::new();
    let (old, _) = pair(&folder);
    let ended = run!["fmap", "extract", old, "RW_CAL"];
    assert_eq!((ended.status, ended.bytes, ended.err.as_str()), (Some(0), vec![0xCA; 0x100], ""));
    let target = folder.path("cal.bin");
    assert_eq!(run!["fmap", "extract", old, "RW_CAL", "-o", target].done(), "");
    assert_eq!(fs::read(&target).unwrap(), [0xCA; 0x100]);
    let longer = folder.file("cal.bin", [0; 0x300]);
    run!["fmap", "extract", old, "RW_CAL", "-o", longer].done();
    assert_eq!(fs::read(&target).unwrap(), [0xCA; 0x100]);
    run!["fmap", "extract", old, "RW_CAL", "-o", "/dev/null"].done();
    let ended = run!["fmap", "extract", old, "RW_CAL", "-o", "-"];
    assert_eq!((ended.status, ended.bytes, ended.err.as_str()), (Some(0), vec![0xCA; 0x100], ""));
    for name in ["RW_CA", "", "rw_cal"] {
        let ended = run!["fmap", "extract", old, name];
        assert_eq!(ended.hint(), "the map has RW_CAL, TOP, FMAP, ALIAS");
        let said = if name.is_empty() { "''" } else { name };
        assert_eq!(ended.refused(255), format!("{}: no area has that name: {said}", old.display()));
    }
    let before = fs::read(&old).unwrap();
    run!["fmap", "extract", old, "RW_CAL", "-o", old].usage("are the same file");
    assert_eq!(fs::read(&old).unwrap(), before);
    assert_eq!(folder.names(), ["cal.bin", "new.bin", "old.bin"]);
}
