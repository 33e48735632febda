//! Prints a layout text as a fixture, and the map that `fmaptool` made of it: what its header says, its areas, its bytes
//! at section FMAP.
//!
//! usage: layout_fixture TEXT MAP

use testkit::flash::{AREA_LEN, HEADER_LEN};

const PIECE: usize = 32;

fn main() {
    let paths: Vec<String> = std::env::args().skip(1).collect();
    let [text, map] = &paths[..] else { panic!("usage: layout_fixture TEXT MAP") };
    let read = |path: &String| std::fs::read(path).unwrap_or_else(|error| panic!("{path}: {error}"));
    let (text, map) = (read(text), read(map));
    for line in text.split_inclusive(|byte| *byte == b'\n') {
        match line.strip_suffix(b"\n").and_then(plain) {
            Some(line) => println!("text {line}"),
            None => println!("bytes {}", hex(line)),
        }
    }
    let (name, count) = (name(&map[22..54]), number(&map[54..56]));
    println!("reads {name} {} {} {count}", number(&map[18..22]), number(&map[10..18]));
    let mut position = None;
    for area in map[HEADER_LEN..].chunks(AREA_LEN) {
        let (offset, area_name) = (number(&area[..4]), self::name(&area[8..40]));
        println!("section {offset} {} {} {area_name}", number(&area[4..8]), number(&area[40..]));
        position = position.or((area_name == "FMAP").then_some(offset));
    }
    let position = position.expect("an area FMAP");
    for (piece, at) in map.chunks(PIECE).zip((position..).step_by(PIECE)) {
        println!("map {at:04X} {}", hex(piece));
    }
}

/// The line, if it is plain to read.
fn plain(line: &[u8]) -> Option<&str> {
    let plain = line.iter().all(|byte| (0x20..=0x7E).contains(byte));
    std::str::from_utf8(line).ok().filter(|_| plain)
}

fn number(stored: &[u8]) -> u64 {
    stored.iter().rev().fold(0, |value, byte| value << 8 | u64::from(*byte))
}

fn name(stored: &[u8]) -> String {
    stored.iter().take_while(|byte| **byte != 0).map(|byte| char::from(*byte)).collect()
}

fn hex(bytes: &[u8]) -> String {
    bytes.iter().map(|byte| format!("{byte:02X}")).collect()
}
