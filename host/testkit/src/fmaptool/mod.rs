//! fmaptool (Debian: coreboot-utils) beside an implementation of the layout language: the same maps, and no other
//! difference than those that docs/DECISIONS.md lists.

mod kinds;
mod texts;

use crate::disk::Scratch;
use crate::flash::{map_len, AREA_LEN, HEADER_LEN};
use crate::layout::{changed_bytes, changed_numbers, changed_tokens, joined, Calls, Layout, Wanted};
use crate::peer;
use crate::random::Random;
use kinds::KINDS;
use std::ffi::OsStr;
use std::fs;
use texts::{bare, depth, is_digit_name, is_sign, leaves_undecided, repeats_a_flag, tokens, value};

pub const TOOL: &str = "fmaptool";
pub const PACKAGE: &str = "coreboot-utils";

const SAME: usize = 400;
const CHANGED: usize = 2400;
const FILL: u8 = 0xFF;
const NUMBER_MAX: u128 = 0xFFFF_FFFF;

fn present() -> bool {
    peer::present(TOOL, PACKAGE)
}

/// What fmaptool makes of a text.
struct Compiled {
    /// None where it refuses the text.
    map: Option<Vec<u8>>,
    /// Where section FMAP lies, as its C header says.
    position: Option<usize>,
    said: String,
}

fn compiled(text: &[u8]) -> Compiled {
    let [input, map, header] = [(); 3].map(|()| Scratch::new());
    fs::write(&input.path, text).unwrap_or_else(|error| panic!("{}: {error}", input.path.display()));
    let arguments: [&OsStr; 4] =
        ["-h".as_ref(), header.path.as_ref(), input.path.as_ref(), map.path.as_ref()];
    let output = peer::run(TOOL, arguments);
    let map = output.status.success().then(|| fs::read(&map.path).expect("the map that fmaptool wrote"));
    let header = fs::read_to_string(&header.path).unwrap_or_default();
    let offset = header.lines().find_map(|line| line.strip_prefix("#define FMAP_OFFSET "));
    let position = offset.map(|hex| {
        usize::from_str_radix(hex.trim_start_matches("0x"), 16)
            .unwrap_or_else(|_| panic!("FMAP_OFFSET {hex}"))
    });
    Compiled { map, position, said: String::from_utf8_lossy(&output.stderr).into_owned() }
}

/// At least 300 texts that both accept: the image that is written has fmaptool's map at section FMAP and nothing else.
pub fn fmaptool_makes_the_same_maps(ours: &Calls) {
    if !present() {
        return;
    }
    let mut random = Random::new(11);
    for k in 0..SAME {
        let sections = if k % 20 == 0 { 2 + random.below(127) } else { 2 + random.below(14) };
        let layout = Layout::random(Wanted { sections, coreboot: true }, &mut random);
        let text = layout.text(&mut random);
        let theirs = compiled(&text);
        assert!(theirs.map.is_some(), "fmaptool: {}\n{}", theirs.said, shown(&text));
        // fmaptool's header takes the image for the section where both have that name.
        if layout.name != b"FMAP" {
            assert_eq!(theirs.position, theirs.map.as_ref().map(|map| fmap_at(map)), "{}", shown(&text));
        }
        assert_eq!(difference(ours, &text, &theirs), None, "{}", shown(&text));
    }
    println!("fmaptool: {SAME} texts that both accept, maps the same");
}

/// Each kind of difference shows as it is listed, in docs/DECISIONS.md too.
pub fn fmaptool_differs_as_listed(ours: &Calls) {
    if !present() {
        return;
    }
    let file = crate::host().join("../docs/DECISIONS.md");
    let decisions = fs::read_to_string(&file).unwrap_or_else(|error| panic!("{}: {error}", file.display()));
    for kind in KINDS {
        let line = format!("- {}: {}:", kind.rule, kind.name);
        assert!(decisions.contains(&line), "docs/DECISIONS.md has no line that begins with \"{line}\"");
        for text in (kind.texts)() {
            let theirs = compiled(&text);
            let number = ours.size(&text).err().unwrap_or(0);
            assert!(kind.numbers.contains(&number), "{}: {number}, {}", kind.name, shown(&text));
            let accepted = theirs.map.is_some();
            assert_eq!(accepted, number != 0, "{}: {}\n{}", kind.name, shown(&text), theirs.said);
            let found = difference(ours, &text, &theirs);
            assert_eq!(found, Some(kind.name), "{}", shown(&text));
        }
    }
    println!("fmaptool: {} kinds of difference", KINDS.len());
}

/// Texts changed at random: where the two differ, the text is of a listed kind.
pub fn fmaptool_differs_in_nothing_else(ours: &Calls) {
    if !present() {
        return;
    }
    let mut random = Random::new(13);
    let (mut accepted, mut refused, mut differing) = (0, 0, 0);
    for k in 0..CHANGED {
        let wanted = Wanted { sections: 2 + random.below(7), coreboot: true };
        let tokens = Layout::random(wanted, &mut random).tokens(&mut random);
        let text = match k % 5 {
            0 => changed_tokens(&tokens, &mut random),
            1 | 2 => changed_numbers(&tokens, &mut random),
            3 => changed_bytes(&joined(&tokens, &mut random), &mut random),
            _ => changed_bytes(&tokens.join(&b' '), &mut random),
        };
        let theirs = compiled(&text);
        match difference(ours, &text, &theirs) {
            Some(UNLISTED) => {
                let number = ours.size(&text).err().unwrap_or(0);
                panic!("ours {number}, fmaptool: {}\n{}", theirs.said, shown(&text));
            }
            Some(_) => differing += 1,
            None if theirs.map.is_some() => accepted += 1,
            None => refused += 1,
        }
    }
    println!("fmaptool: of {CHANGED} changed texts {accepted} accepted and {refused} refused by both, {differing} of listed kinds");
    assert!(accepted > 100 && refused > 100 && differing > 0);
}

const UNLISTED: &str = "unlisted";

/// The kind in which the two differ on the text, if they do.
fn difference(ours: &Calls, text: &[u8], theirs: &Compiled) -> Option<&'static str> {
    match (ours.size(text), &theirs.map) {
        (Err(_), None) => None,
        (Ok(size), Some(map)) => {
            let mut image = vec![FILL; size as usize];
            let number = (ours.write)(text, &mut image);
            (number != 0 || image != with_map(size, map)).then_some(UNLISTED)
        }
        (Ok(_), None) => Some(accepted_kind(text, &theirs.said)),
        (Err(number), Some(map)) => Some(refused_kind(number, text, map)),
    }
}

/// The map at its section FMAP in an image that is empty else.
fn with_map(size: u64, map: &[u8]) -> Vec<u8> {
    let mut image = vec![FILL; size as usize];
    let at = fmap_at(map);
    image[at..at + map.len()].copy_from_slice(map);
    image
}

fn accepted_kind(text: &[u8], said: &str) -> &'static str {
    let last_line = text.rsplit(|byte| *byte == b'\n').next().unwrap_or(text);
    if said.contains("must have a 'COREBOOT' section") {
        "no COREBOOT"
    } else if last_line.contains(&b'#') {
        "a comment at the text's end"
    } else {
        UNLISTED
    }
}

/// What makes a text that fmaptool compiles to `map` a refused one by the rules.
fn refused_kind(number: u32, text: &[u8], map: &[u8]) -> &'static str {
    let tokens = tokens(text);
    let words = || tokens.iter().filter(|token| token.len() > 1 || !is_sign(token[0]));
    let any = |test: &dyn Fn(&[u8]) -> bool| words().any(|word| test(word));
    let size = field(map, 18, 4);
    let kinds: &[(u32, &'static str, bool)] = &[
        (50, "a long text", text.len() > 32_768),
        (51, "VT and FF", bare(text).iter().any(|byte| [0x0B, 0x0C].contains(byte))),
        (51, "other bytes in words", any(&|word| word.iter().any(|byte| !(0x21..=0x7E).contains(byte)))),
        (52, "an image size outside its range", !(98..=16_777_216).contains(&size)),
        (52, "0X", any(&|word| word.starts_with(b"0X"))),
        (52, "a number above 4,294,967,295", any(&|word| value(word).is_some_and(|v| v > NUMBER_MAX))),
        (52, "a digit in front of a name", any(&is_digit_name)),
        (53, "a digit in front of a name", any(&is_digit_name)),
        (55, "many sections or levels", areas(map).len() > 128 || depth(&tokens) > 8),
        (56, "a repeated flag", repeats_a_flag(&tokens)),
        (57, "a size undecided", leaves_undecided(&tokens)),
        (58, "a computed size of 0", areas(map).iter().any(|area| field(area, 4, 4) == 0)),
        (58, "a sum past 2^32", any(&|word| value(word).is_some_and(|v| v >= 1 << 31))),
        (59, "section FMAP", !fmap_good(map)),
    ];
    kinds.iter().find(|(of, _, holds)| *of == number && *holds).map_or(UNLISTED, |(_, kind, _)| kind)
}

fn field(bytes: &[u8], at: usize, len: usize) -> u64 {
    bytes[at..at + len].iter().rev().fold(0, |value, byte| value << 8 | u64::from(*byte))
}

fn areas(map: &[u8]) -> Vec<&[u8]> {
    map[HEADER_LEN..].chunks(AREA_LEN).collect()
}

fn fmap_index(map: &[u8]) -> Option<usize> {
    areas(map).iter().position(|area| area[8..].starts_with(b"FMAP\0"))
}

fn fmap_at(map: &[u8]) -> usize {
    let index = fmap_index(map).expect("an area FMAP");
    field(areas(map)[index], 0, 4) as usize
}

/// Whether section FMAP has no children, that is, the next area lies outside it, and room for the map.
fn fmap_good(map: &[u8]) -> bool {
    let Some(index) = fmap_index(map) else { return false };
    let areas = areas(map);
    let (offset, size) = (field(areas[index], 0, 4), field(areas[index], 4, 4));
    let inside = |area: &&[u8]| (offset..offset + size).contains(&field(area, 0, 4));
    size >= map_len(areas.len()) as u64 && !areas.get(index + 1).is_some_and(inside)
}

fn shown(text: &[u8]) -> String {
    format!("\"{}\"", text.escape_ascii())
}
