//! What helps where an image, a carry or a layout text is refused.

mod common;

use common::{Ended, Folder};
use std::path::PathBuf;
use testkit::flash::{Area, Map};

fn listed(folder: &Folder, text: impl AsRef<[u8]>) -> Ended {
    let layout = folder.file("board.fmd", text);
    run!["fmd", "list", layout]
}

/// Each cause of each number, with the section that it is about.
#[test]
fn layout_texts() {
    let folder = Folder::new();
    let many: String = (0..129).map(|k| format!("S{k} 1 ")).collect();
    let many = format!("I 16K {{ {many} }}");
    for (number, text, cause) in [
        (51, "I 1K { FMAP", "line 1: the text's end stands where a section's name is due"),
        (51, "I 1K\n{ FMAP } x", "line 2: x stands where nothing but comments is due"),
        (51, "I 1K { FMAP() }", "line 1: ) stands where a flag is due"),
        (51, "I 1K \u{1} { FMAP }", "line 1: the byte 0x01 stands where { is due"),
        (52, "I 97 { FMAP }", "line 1: the image's size, 97, is not 98 to 16777216"),
        (52, "I\n17M { FMAP }", "line 2: the image's size, 17825792, is not 98 to 16777216"),
        (52, "I size { FMAP }", "line 1: size is no number for the image's size"),
        (52, "I 1K { FMAP\n A@010 1 }", "line 2: 010 is no number for an offset"),
        (52, "I 1K { FMAP 5G }", "line 1: 5G is no number for a size"),
        (53, "9I 1K { FMAP }", "line 1: 9I begins with a digit, as no name does"),
        (53, "I 1K { NAME_OF_32_BYTES_XXXXXXXXXXXXXXX }", "has 32 bytes; a name has 1 to 31"),
        (54, "I 1K { FMAP 98\n A 1\n B 9 { A 1 } }", "A stands in line 2 and in line 3"),
        (55, many.as_str(), "line 1: S128 is section 129 of at most 128"),
        (55, "I 1K { FMAP 98 B{C{D{E{F{G{H{I{J}}}}}}}} }", "line 1: J is on level 9 of at most 8"),
        (
            56,
            "I 1K { FMAP 98\n CAL(PRESERVED) }",
            "line 2: PRESERVED of CAL is no flag (CBFS and PRESERVE are)",
        ),
        (56, "I 1K { CAL(CBFS CBFS) }", "line 1: CBFS stands twice at CAL"),
        (56, "I 1K { FMAP 98\n BOX(CBFS) { CAL 1 } }", "line 2: BOX has CBFS, and sections in it"),
        (
            57,
            "I 1K { FMAP 98\n CAL\n LOG 1 }",
            "line 2: CAL has no size, and LOG behind it no offset that CAL could reach to",
        ),
        (58, "I 1K { FMAP 98\n CAL 0 }", "line 2: CAL has size 0"),
        (
            58,
            "I 1K { FMAP 98\n CAL@97 1 }",
            "line 2: CAL begins at 0x61, before FMAP in front of it ends, at 0x62",
        ),
        (58, "I 1K { FMAP 98\n CAL 2K }", "line 2: CAL ends at 0x862, behind the end of the image, 0x400"),
        (58, "I 1K { FMAP 98 BOX 9 {\n CAL 10 } }", "line 2: CAL ends at 0xa, behind the end of BOX, 0x9"),
        (
            58,
            "I 1K { FMAP 98 CAL\n LOG@98 }",
            "line 1: CAL begins at 0x62, where nothing is left for it: LOG begins at 0x62",
        ),
        (
            58,
            "I 1K { FMAP 1K CAL }",
            "CAL begins at 0x400, where nothing is left for it: the image ends at 0x400",
        ),
        (59, "I 1K { CAL }", "no section is named FMAP, where the map is to stand: 140 bytes"),
        (59, "I 1K {\n FMAP { CAL } }", "line 2: FMAP has sections in it"),
        (59, "I 1K { CAL 1\n FMAP 139 }", "line 2: FMAP is too small: the map of 2 sections needs 140 bytes"),
        (59, "I 1K { FMAP 97 }", "line 1: FMAP is too small: the map of 1 section needs 98 bytes"),
    ] {
        let ended = listed(&folder, text);
        let hint = ended.hint();
        assert!(hint.contains(cause), "{number}: {hint}");
        assert!(ended.refused(number).contains("board.fmd: "), "{text}");
    }
    let ended = listed(&folder, " ".repeat(32_769));
    assert_eq!(ended.hint(), "a layout text has at most 32768 bytes");
    ended.refused(50);
}

#[test]
fn a_text_and_an_image_of_another_size() {
    let folder = Folder::new();
    let layout = folder.file("board.fmd", "CHIP 1K { FMAP }");
    let image = folder.file("image.bin", [0; 1000]);
    let ended = run!["fmd", "write", layout, image];
    assert_eq!(ended.hint(), "a file of 1024 bytes (1 KiB) fits, or --create makes a new one");
    assert!(ended.refused(1).contains("image.bin: "));
    let bad = folder.file("bad.fmd", "CHIP 1K { FMAP 97 }");
    let ended = run!["fmd", "write", bad, image];
    assert!(ended.hint().contains("FMAP is too small"));
    assert!(ended.refused(59).contains("bad.fmd: "));
}

#[test]
fn images() {
    let folder = Folder::new();
    let short = folder.file("short.bin", [0; 97]);
    let ended = run!["fmap", "show", short];
    assert_eq!(ended.hint(), "an image has 98 to 16777216 bytes");
    assert!(ended.refused(40).ends_with("short.bin: the image length is outside its range: 97 bytes"));
    let large = folder.sparse("large.bin", (1 << 24) + 1);
    assert_eq!(run!["fmap", "show", large].hint(), "an image has 98 to 16777216 bytes");
    let empty = folder.file("my image.bin", [0; 98]);
    let ended = run!["fmap", "show", empty];
    assert_eq!(ended.hint(), format!("`usigrambal fmd write LAYOUT '{}'` writes a map", empty.display()));
    ended.refused(41);
}

fn area(name: &str, offset: u32, size: u32, flags: u16) -> Area {
    Area { offset, size, name: name.into(), flags }
}

fn image(folder: &Folder, name: &str, areas: &[Area]) -> PathBuf {
    let areas = [&[area("FMAP", 0, 0x400, 0)], areas].concat();
    let map = Map { major: 1, minor: 1, base: 0, size: 0x4000, name: b"CHIP".to_vec(), areas, position: 0 };
    let mut image = vec![0; 0x4000];
    map.write(&mut image);
    folder.file(name, image)
}

#[test]
fn carries() {
    let folder = Folder::new();
    let (a, b, c) = (area("A", 0x1000, 0x100, 8), area("B", 0x2000, 0x200, 8), area("C", 0x1080, 0x10, 8));
    let moved = |area: &Area, offset: u32| Area { offset, ..area.clone() };
    for (number, old, new, cause) in [
        (60, &[a.clone(), b.clone()][..], &[a.clone()][..], "new.bin has no B, which has 512 bytes (512 B) in OLD"),
        (
            60,
            &[a.clone(), b.clone()],
            &[],
            "new.bin has no A, which has 256 bytes (256 B) in OLD; NEW has no B, which has 512 bytes (512 B) in OLD",
        ),
        (
            61,
            &[a.clone()],
            &[Area { size: 0x180, ..a.clone() }],
            "A has 256 bytes (256 B) in OLD and 384 bytes (384 B) in NEW",
        ),
        (62, &[a.clone(), c.clone()], &[a.clone(), moved(&c, 0x3000)], "A and C share bytes in OLD"),
        (62, &[a.clone(), moved(&c, 0x3000)], &[a.clone(), c.clone()], "A and C share bytes in NEW"),
        (63, &[a.clone()], &[moved(&a, 0x300)], "A shares bytes with FMAP in NEW"),
    ] {
        let (old, new) = (image(&folder, "old.bin", old), image(&folder, "new.bin", new));
        let ended = run!["fmap", "carry", old, new];
        let hint = ended.hint().replace(&old.display().to_string(), "OLD").replace(&new.display().to_string(), "NEW");
        assert!(hint.ends_with(&cause.replace("new.bin", "NEW")), "{number}: {hint}");
        assert!(ended.refused(number).contains("new.bin: "), "{number}");
    }
}

/// 42: each signature with the rule that the map there breaks.
#[test]
fn maps_that_are_not_good() {
    let folder = Folder::new();
    let good = |position: u32| {
        let areas = vec![area("FMAP", position, 0x100, 0), area("CAL", 0x2000, 0x100, 8)];
        Map {
            major: 1,
            minor: 1,
            base: 0,
            size: 0x4000,
            name: b"CHIP".to_vec(),
            areas,
            position: position as usize,
        }
    };
    let shown = |maps: &[Map]| {
        let mut image = vec![0; 0x4000];
        maps.iter().for_each(|map| map.write(&mut image));
        let path = folder.file("image.bin", image);
        let ended = run!["fmap", "show", path];
        let hint = ended.hint();
        ended.refused(42);
        hint
    };
    let minor = Map { minor: 2, ..good(0x10) };
    let size = Map { size: 0x8000, ..good(0x400) };
    let crossing =
        Map { areas: [good(0x800).areas, vec![area("LOG", 0x2080, 0x100, 0)]].concat(), ..good(0x800) };
    assert_eq!(shown(&[minor.clone()]), "at 0x00000010: minor version 2");
    let three = "at 0x00000010: minor version 2; \
                 at 0x00000400: image size 32768 in the map, and the image has 16384 bytes; \
                 at 0x00000800: two areas share bytes, and neither lies in the other";
    assert_eq!(shown(&[minor, size, crossing]), three);
    let elsewhere = Map { position: 0x1000, ..good(0x1004) };
    assert_eq!(shown(&[elsewhere]), "at 0x00001000: no area FMAP starts at the map and holds all of it");
    let many: Vec<Map> = (0..9).map(|k| Map { major: 3, ..good(0x200 * k) }).collect();
    assert!(shown(&many).ends_with("at 0x00000600: major version 3; and 5 more"));
}
