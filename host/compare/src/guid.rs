use crate::run::{Cell, Lent, Outcome, Run};
use crate::topic::{variant, Topic, Variant};
use second::rules::Row;
use second::Rules;
use usigrambal::raw;

pub const TOPIC: Topic = Topic {
    parts: &[
        ("guid: each byte in each place", each_byte_in_each_place),
        ("guid: each length", each_length),
        ("guid: random texts", random_texts),
        ("guid: damaged texts", damaged_texts),
        ("guid: short names", short_names),
        ("guid: written values", written_values),
        ("guid: written lengths", written_lengths),
    ],
    cells: &[
        ("guid_read", &[&[Cell::Answer(0), Cell::Answer(1), Cell::Answer(30)]]),
        ("type_read", &[&[Cell::Answer(0), Cell::Answer(1), Cell::Answer(30)]]),
        ("guid_write", &[&[Cell::Answer(0), Cell::Answer(1)]]),
    ],
    at_least: ("guid_", 100_000),
    variants,
    rules_to_break: &["G1", "G2", "G3", "G4", "R1", "R2", "R4", "R14"],
};

const GUID_LEN: usize = 16;
const TEXT_LEN: usize = 36;
/// Buffers of 0 to 40 bytes.
const LENGTHS: usize = 41;
const RANDOM_CASES: usize = 20_000;

const DASHES: [usize; 4] = [8, 13, 18, 23];
const DIGITS: &[u8; 22] = b"0123456789ABCDEFabcdef";
/// The neighbours of the digit ranges, other bytes of near-miss texts, and digits with a bit changed.
const NEAR_MISSES: &[u8; 20] = b"/:@G`g-_ .{}()\0\t\n\xB0\xC1\xE1";

const TEXTS: [&[u8; TEXT_LEN]; 5] = [
    b"EBD0A0A2-B9E5-4433-87C0-68B6B72699C7",
    b"01234567-89ab-cdef-fedc-ba9876543210",
    b"fEdCbA98-7654-3210-0aBc-DeF123456789",
    b"00000000-0000-0000-0000-000000000000",
    b"FFFFFFFF-FFFF-FFFF-FFFF-FFFFFFFFFFFF",
];

const SHORT_NAMES: [&[u8]; 5] = [b"system", b"msft", b"data", b"linux", b"swap"];

/// Names that others use for types, and texts like names; none is a short name here.
const OTHER_NAMES: [&[u8]; 14] = [
    b"mbr",
    b"esp",
    b"lvm",
    b"raid",
    b"bios",
    b"home",
    b"linux-swap",
    b"efi",
    b"microsoft",
    b"basic",
    b"systemsystem",
    b"data data",
    b"\"data\"",
    b"{EBD0A0A2-B9E5-4433-87C0-68B6B72699C7}",
];

/// A call that reads a text, on both sides.
#[derive(Clone, Copy)]
struct Reader {
    name: &'static str,
    library: fn(&[u8], &mut [u8]) -> u32,
    second: fn(&Rules, &[u8], &mut [u8]) -> u32,
}

const READERS: [Reader; 2] = [
    Reader { name: "guid_read", library: raw::guid_read, second: second::guid_read },
    Reader { name: "type_read", library: raw::type_read, second: second::type_read },
];

/// Every byte value in every position of several texts.
fn each_byte_in_each_place(run: &mut Run) -> Outcome {
    TEXTS.into_iter().try_for_each(|text| with_each_byte(run, text))
}

/// Every length of the text, cut short or lengthened, with every length of the answer's buffer.
fn each_length(run: &mut Run) -> Outcome {
    for text in TEXTS {
        for filler in [b"0", b"-", b" ", b"\0"] {
            let long = [&text[..], &filler.repeat(LENGTHS)].concat();
            for text_length in 0..LENGTHS {
                read_into_each_length(run, &long[..text_length])?;
            }
        }
    }
    Ok(())
}

/// Texts of random digits, in upper, lower and mixed case.
fn random_texts(run: &mut Run) -> Outcome {
    for _ in 0..RANDOM_CASES {
        let text = random_text(run);
        read(run, &text.to_ascii_uppercase(), GUID_LEN)?;
        read(run, &text.to_ascii_lowercase(), GUID_LEN)?;
        read(run, &text, GUID_LEN)?;
    }
    Ok(())
}

/// Random texts with a few bytes exchanged or replaced by near misses.
fn damaged_texts(run: &mut Run) -> Outcome {
    for _ in 0..RANDOM_CASES {
        let mut text = random_text(run);
        for _ in 0..=run.random.below(3) {
            let (one, other) = (run.random.below(TEXT_LEN), run.random.below(TEXT_LEN));
            match run.random.below(2) {
                0 => text.swap(one, other),
                _ => text[one] = run.random.pick(NEAR_MISSES),
            }
        }
        read(run, &text, GUID_LEN)?;
    }
    Ok(())
}

/// The short names; cut, lengthened, padded, in upper case, with each byte replaced by each value.
fn short_names(run: &mut Run) -> Outcome {
    for name in SHORT_NAMES {
        with_each_byte(run, name)?;
        read_into_each_length(run, name)?;
        read(run, &name.to_ascii_uppercase(), GUID_LEN)?;
        for value in 0..=u8::MAX {
            read(run, &[name, &[value]].concat(), GUID_LEN)?;
            read(run, &[&[value], name].concat(), GUID_LEN)?;
        }
        for length in 0..name.len() {
            read_into_each_length(run, &name[..length])?;
            read(run, &name[length..], GUID_LEN)?;
        }
        for filler in [b' ', b'\0', b'0'] {
            let mut padded = [filler; TEXT_LEN];
            padded[..name.len()].copy_from_slice(name);
            read(run, &padded, GUID_LEN)?;
        }
    }
    OTHER_NAMES.into_iter().try_for_each(|name| read(run, name, GUID_LEN))
}

/// Random values, and every byte value in every place.
fn written_values(run: &mut Run) -> Outcome {
    for _ in 0..RANDOM_CASES {
        let guid = run.random.bytes(GUID_LEN);
        write(run, &guid, TEXT_LEN)?;
    }
    for place in 0..GUID_LEN {
        for value in 0..=u8::MAX {
            let mut guid = run.random.bytes(GUID_LEN);
            guid[place] = value;
            write(run, &guid, TEXT_LEN)?;
        }
    }
    Ok(())
}

/// Every length of both buffers.
fn written_lengths(run: &mut Run) -> Outcome {
    for guid_length in 0..LENGTHS {
        for text_length in 0..LENGTHS {
            let guid = run.random.bytes(guid_length);
            write(run, &guid, text_length)?;
        }
    }
    Ok(())
}

fn random_text(run: &mut Run) -> Vec<u8> {
    let mut text: Vec<u8> = (0..TEXT_LEN).map(|_| run.random.pick(DIGITS)).collect();
    DASHES.into_iter().for_each(|place| text[place] = b'-');
    text
}

fn with_each_byte(run: &mut Run, text: &[u8]) -> Outcome {
    for place in 0..text.len() {
        let mut changed = text.to_vec();
        for value in 0..=u8::MAX {
            changed[place] = value;
            read(run, &changed, GUID_LEN)?;
        }
    }
    Ok(())
}

fn read_into_each_length(run: &mut Run, text: &[u8]) -> Outcome {
    (0..LENGTHS).try_for_each(|guid_length| read(run, text, guid_length))
}

fn read(run: &mut Run, text: &[u8], guid_length: usize) -> Outcome {
    READERS.into_iter().try_for_each(|reader| compare_reading(run, reader, text, guid_length))
}

fn compare_reading(run: &mut Run, reader: Reader, text: &[u8], guid_length: usize) -> Outcome {
    let text_1 = Lent::holding(text, &mut run.random);
    let mut guid_1 = Lent::of_length(guid_length, &mut run.random);
    let (text_2, mut guid_2) = (text_1.clone(), guid_1.clone());
    let library = (reader.library)(text_1.bytes(), guid_1.bytes_mut());
    let second = (reader.second)(run.rules, text_2.bytes(), guid_2.bytes_mut());
    run.reach(reader.name, Cell::Answer(library));
    let arguments = || format!("\"{}\", {guid_length} bytes", text.escape_ascii());
    let buffers = [Lent::pair("text", &text_1, &text_2), Lent::pair("guid", &guid_1, &guid_2)];
    run.compare(reader.name, arguments, (library, second), &buffers)
}

fn write(run: &mut Run, guid: &[u8], text_length: usize) -> Outcome {
    let guid_1 = Lent::holding(guid, &mut run.random);
    let mut text_1 = Lent::of_length(text_length, &mut run.random);
    let (guid_2, mut text_2) = (guid_1.clone(), text_1.clone());
    let library = raw::guid_write(guid_1.bytes(), text_1.bytes_mut());
    let second = second::guid_write(run.rules, guid_2.bytes(), text_2.bytes_mut());
    run.reach("guid_write", Cell::Answer(library));
    let arguments = || format!("{guid:02X?}, {text_length} bytes");
    let buffers = [Lent::pair("guid", &guid_1, &guid_2), Lent::pair("text", &text_1, &text_2)];
    run.compare("guid_write", arguments, (library, second), &buffers)
}

fn variants() -> Vec<Variant> {
    vec![
        // Form of the text.
        variant("text-of-35", "G1", |r| r.guid.read_text_len = 35),
        variant("text-of-37", "G1", |r| r.guid.read_text_len = 37),
        variant("groups-8-4-4-12-4", "G1", |r| r.guid.group_bytes = [4, 2, 2, 6, 2]),
        variant("groups-4-4-4-4-16", "G1", |r| r.guid.group_bytes = [2, 2, 2, 2, 8]),
        variant("dash-underscore", "G1", |r| r.guid.dash = b'_'),
        variant("low-digit-first", "G1", |r| r.guid.high_digit_first = false),
        // Digits.
        variant("colon-read", "G1", |r| r.guid.decimal.last = b':'),
        variant("9-not-read", "G1", |r| r.guid.decimal.last = b'8'),
        variant("G-read", "G1", |r| r.guid.upper.last = b'G'),
        variant("F-not-read", "G1", |r| r.guid.upper.last = b'E'),
        variant("g-read", "G1", |r| r.guid.lower.last = b'g'),
        variant("f-not-read", "G1", |r| r.guid.lower.last = b'e'),
        variant("grave-read", "G1", |r| r.guid.lower.first = b'`'),
        variant("a-is-11", "G1", |r| r.guid.lower.value = 11),
        variant("lower-case-written", "G1", |r| r.guid.write_ten = b'a'),
        variant("zero-written-as-1", "G1", |r| r.guid.write_zero = b'1'),
        // Order of the bytes.
        variant("two-groups-reversed", "G2", |r| r.guid.reversed_groups = 2),
        variant("four-groups-reversed", "G2", |r| r.guid.reversed_groups = 4),
        variant("no-group-reversed", "G2", |r| r.guid.reversed_groups = 0),
        // Short names.
        variant("no-short-names", "G1", |r| r.guid.short_names_as_type = false),
        variant("short-name-by-prefix", "G1", |r| r.guid.short_names_by_prefix = true),
        variant("short-name-as-guid", "G3", |r| r.guid.short_names_as_guid = true),
        variant("short-name-any-case", "G3", |r| r.guid.short_names_any_case = true),
        variant("name-esp", "G4", |r| r.guid.short_names[0].0 = "esp"),
        variant("type-system", "G4", |r| r.guid.short_names[0].1 = "C12A7328-F81F-11D2-BA4B-00A0C93EC93C"),
        variant("type-msft", "G4", |r| r.guid.short_names[1].1 = "E3C9E316-0B5C-4DB8-817D-F92DF00215AF"),
        variant("type-data", "G4", |r| r.guid.short_names[2].1 = "EBD0A0A3-B9E5-4433-87C0-68B6B72699C7"),
        variant("type-linux", "G4", |r| r.guid.short_names[3].1 = "0FC63DAF-8484-4772-8E79-3D69D8477DE4"),
        variant("type-swap", "G4", |r| r.guid.short_names[4].1 = "0657FD6D-A4AB-43C4-84E4-0933C84B4F4F"),
        // Refusals.
        variant("refusal-writes", "R1", |r| r.refusals.zeroes = 1),
        variant("text-before-length", "R2", |r| r.guid.read_order = [Row::NotGuidText, Row::WrongLength]),
        variant("number-2-for-1", "R4", |r| r.refusals.renumber(Row::WrongLength, 2)),
        variant("read-into-15", "R4", |r| r.guid.read_guid_len = 15),
        variant("read-into-17", "R4", |r| r.guid.read_guid_len = 17),
        variant("write-from-15", "R4", |r| r.guid.write_guid_len = 15),
        variant("write-from-17", "R4", |r| r.guid.write_guid_len = 17),
        variant("write-into-35", "R4", |r| r.guid.write_text_len = 35),
        variant("write-into-37", "R4", |r| r.guid.write_text_len = 37),
        variant("number-31-for-30", "R14", |r| r.refusals.renumber(Row::NotGuidText, 31)),
    ]
}
