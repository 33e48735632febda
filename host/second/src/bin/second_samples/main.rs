//! Prints the samples as the second implementation computes them, in the form that the Rattle
//! program `samples` prints too:
//!
//! ```text
//! crc32 LABEL CRC     the CRC-32 of the input of that label
//! guid TEXT BYTES     a GUID text and its stored bytes, or "refused" and the number
//! type TEXT BYTES     the same of a type
//! text BYTES TEXT     stored bytes and the text written for them
//! ```
//!
//! The lines of `disk` follow. `second_samples 10` prints sample 10 alone, as it stands in the rules.

mod disk;

use second::{Rules, RULES};
use std::io::{self, Write};

/// Inputs of published CRC-32 values (host/vectors/crc32.txt has values and sources):
/// `check` from Cook's "Catalogue of parametrised CRC algorithms", `empty` to `digits` the strings
/// of RFC 1321, appendix A.5, `fox` from Rosetta Code; the last three are patterns of RFC 3720,
/// appendix B.4, whose CRC-32 (not CRC-32C) is published nowhere that we know of.
const CRC_INPUTS: [(&str, &[u8]); 12] = [
    ("check", b"123456789"),
    ("empty", b""),
    ("a", b"a"),
    ("abc", b"abc"),
    ("digest", b"message digest"),
    ("lower", b"abcdefghijklmnopqrstuvwxyz"),
    ("alnum", b"ABCDEFGHIJKLMNOPQRSTUVWXYZabcdefghijklmnopqrstuvwxyz0123456789"),
    ("digits", b"12345678901234567890123456789012345678901234567890123456789012345678901234567890"),
    ("fox", b"The quick brown fox jumps over the lazy dog"),
    ("zeros32", &[0x00; 32]),
    ("ones32", &[0xFF; 32]),
    (
        "count32",
        &[
            0, 1, 2, 3, 4, 5, 6, 7, 8, 9, 10, 11, 12, 13, 14, 15, 16, 17, 18, 19, 20, 21, 22, 23, 24, 25, 26,
            27, 28, 29, 30, 31,
        ],
    ),
];

const GUID_TEXTS: [&str; 13] = [
    // G4, in the order there.
    "C12A7328-F81F-11D2-BA4B-00A0C93EC93B",
    "E3C9E316-0B5C-4DB8-817D-F92DF00215AE",
    "EBD0A0A2-B9E5-4433-87C0-68B6B72699C7",
    "0FC63DAF-8483-4772-8E79-3D69D8477DE4",
    "0657FD6D-A4AB-43C4-84E5-0933C84B4F4F",
    // Lower and mixed case.
    "ebd0a0a2-b9e5-4433-87c0-68b6b72699c7",
    "0fC63dAf-8483-4772-8e79-3D69d8477dE4",
    "00000000-0000-0000-0000-000000000000",
    // 35 bytes, 37 bytes, a dash misplaced, a digit G.
    "EBD0A0A2-B9E5-4433-87C0-68B6B72699C",
    "EBD0A0A2-B9E5-4433-87C0-68B6B72699C70",
    "EBD0A0A-2B9E5-4433-87C0-68B6B72699C7",
    "EBD0A0A2-B9E5-4433-87C0-68B6B72699CG",
    "system",
];

const TYPE_TEXTS: [&str; 10] = [
    "system",
    "msft",
    "data",
    "linux",
    "swap",
    "EBD0A0A2-B9E5-4433-87C0-68B6B72699C7",
    "Data",
    "esp",
    "linu",
    "linuxx",
];

const STORED: [[u8; 16]; 7] = [
    // The types of G4, in the order there.
    [0x28, 0x73, 0x2A, 0xC1, 0x1F, 0xF8, 0xD2, 0x11, 0xBA, 0x4B, 0x00, 0xA0, 0xC9, 0x3E, 0xC9, 0x3B],
    [0x16, 0xE3, 0xC9, 0xE3, 0x5C, 0x0B, 0xB8, 0x4D, 0x81, 0x7D, 0xF9, 0x2D, 0xF0, 0x02, 0x15, 0xAE],
    [0xA2, 0xA0, 0xD0, 0xEB, 0xE5, 0xB9, 0x33, 0x44, 0x87, 0xC0, 0x68, 0xB6, 0xB7, 0x26, 0x99, 0xC7],
    [0xAF, 0x3D, 0xC6, 0x0F, 0x83, 0x84, 0x72, 0x47, 0x8E, 0x79, 0x3D, 0x69, 0xD8, 0x47, 0x7D, 0xE4],
    [0x6D, 0xFD, 0x57, 0x06, 0xAB, 0xA4, 0xC4, 0x43, 0x84, 0xE5, 0x09, 0x33, 0xC8, 0x4B, 0x4F, 0x4F],
    [0, 1, 2, 3, 4, 5, 6, 7, 8, 9, 10, 11, 12, 13, 14, 15],
    [0xFF; 16],
];

fn main() -> io::Result<()> {
    let mut out = io::stdout().lock();
    if std::env::args().nth(1).as_deref() == Some("10") {
        let lines = second::listing::listing(second::listing::SAMPLE_10.as_bytes());
        return out.write_all(lines.as_bytes());
    }
    for (label, input) in CRC_INPUTS {
        writeln!(out, "crc32 {label} {:08X}", second::crc32(&RULES, input))?;
    }
    for text in GUID_TEXTS {
        writeln!(out, "guid {text} {}", reading(second::guid_read, text))?;
    }
    for text in TYPE_TEXTS {
        writeln!(out, "type {text} {}", reading(second::type_read, text))?;
    }
    for guid in STORED {
        writeln!(out, "text {} {}", hex(&guid), writing(&guid))?;
    }
    disk::print(&mut out)
}

fn reading(call: fn(&Rules, &[u8], &mut [u8]) -> u32, text: &str) -> String {
    let mut guid = [0; 16];
    answer(call(&RULES, text.as_bytes(), &mut guid), hex(&guid))
}

fn writing(guid: &[u8; 16]) -> String {
    let mut text = [0; 36];
    let number = second::guid_write(&RULES, guid, &mut text);
    answer(number, String::from_utf8_lossy(&text).into_owned())
}

fn answer(number: u32, accepted: String) -> String {
    match number {
        0 => accepted,
        _ => format!("refused {number}"),
    }
}

fn hex(bytes: &[u8]) -> String {
    bytes.iter().map(|byte| format!("{byte:02X}")).collect()
}
