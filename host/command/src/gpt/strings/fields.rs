//! The fields of a partition in a layout string.

use super::numbers::{Amount, Fault};
use super::pieces::Piece;
use super::reading::no_guid;
use crate::gpt::hints::TYPES;
use usigrambal::Guid;

/// A partition as the string says it.
#[derive(Debug)]
pub struct Part<'a> {
    pub name: &'a str,
    pub start: Option<Amount<'a>>,
    pub size: Amount<'a>,
    pub unique: Guid,
    /// Where it ends: the string up to there has it as its last partition.
    pub end: usize,
}

/// What was read so far.
#[derive(Default)]
pub struct Fields<'a> {
    name: Option<&'a str>,
    start: Option<Amount<'a>>,
    size: Option<Amount<'a>>,
    unique: Option<Guid>,
    kind: Option<Guid>,
    bootable: Option<()>,
}

const NAME_MAX: usize = 36;

/// Short names that a boot loader knows for types, and this library does not, with their GUIDs.
const OTHER_TYPES: [(&str, &str); 3] = [
    ("mbr", "024DEE41-33E7-11D3-9D69-0008C781F39F"),
    ("raid", "A19D880F-05FC-4D3B-A006-743F0F84911E"),
    ("lvm", "E6D6D379-F507-44C2-A23C-238F2A3DF928"),
];

/// Where a fault stands, and what it is.
type Faulty<T> = Result<T, (usize, String)>;

impl<'a> Fields<'a> {
    /// Takes one more field.
    pub fn take(&mut self, field: Piece<'a>) -> Faulty<()> {
        let (key, value) = field.halves();
        let told = |words: String| (field.at, words);
        match (key.bytes, value) {
            (b"bootable", None) => once(&mut self.bootable, "bootable", ()).map_err(told),
            (b"name", Some(value)) => once(&mut self.name, "name", name(value)?).map_err(told),
            (b"size", Some(value)) => once(&mut self.size, "size", amount("size", value)?).map_err(told),
            (b"start", Some(value)) => once(&mut self.start, "start", amount("start", value)?).map_err(told),
            (b"uuid", Some(value)) => once(&mut self.unique, "uuid", unique(value)?).map_err(told),
            (b"type", Some(value)) => once(&mut self.kind, "type", kind(value)?).map_err(told),
            _ => Err(told(no_field(key, value))),
        }
    }

    /// The partition, or the fields that are missing.
    pub fn whole(self, end: usize) -> Result<Part<'a>, Vec<&'static str>> {
        match (self.name, self.size, self.unique) {
            (Some(name), Some(size), Some(unique)) => Ok(Part { name, start: self.start, size, unique, end }),
            (name, size, unique) => {
                let there = [("name", name.is_some()), ("size", size.is_some()), ("uuid", unique.is_some())];
                Err(there.iter().filter(|(_, there)| !there).map(|(key, _)| *key).collect())
            }
        }
    }
}

fn once<T>(place: &mut Option<T>, key: &str, value: T) -> Result<(), String> {
    match place.replace(value) {
        None => Ok(()),
        Some(_) => Err(format!("{key} stands twice")),
    }
}

fn no_field(key: Piece, value: Option<Piece>) -> String {
    match (key.bytes, value) {
        (b"", None) => "a field is empty: a comma stands at an end, or two in a row".into(),
        (b"bootable", Some(_)) => "bootable stands alone, without =".into(),
        (b"name" | b"size" | b"start" | b"uuid" | b"type", None) => {
            format!("{} needs = and a value", String::from_utf8_lossy(key.bytes))
        }
        (b"uuid_disk", _) => "uuid_disk stands once, at the beginning of the string".into(),
        _ => format!("{} is no field; name, size, uuid, start, type and bootable are", key.shown()),
    }
}

fn name(value: Piece<'_>) -> Faulty<&str> {
    match (value.bytes.len(), value.text()) {
        (0, _) => Err((value.at, format!("the name is empty; it has 1 to {NAME_MAX} bytes"))),
        (1..=NAME_MAX, Some(name)) => Ok(name),
        (len, _) => {
            Err((value.at, format!("the name has {len} bytes; it has 1 to {NAME_MAX}: {}", value.shown())))
        }
    }
}

fn amount<'a>(key: &str, value: Piece<'a>) -> Faulty<Amount<'a>> {
    let parsed = value.text().map_or(Err(Fault::NoDigit), Amount::parse);
    parsed.map_err(|fault| {
        let shown = value.shown();
        let words = match fault {
            Fault::NoDigit => format!("{key} is no number: {shown}; decimal digits come first"),
            Fault::Suffix(suffix) if suffix.starts_with('x') => {
                format!("{key} is no decimal number: {shown}")
            }
            Fault::Suffix(suffix) => {
                format!("{key} has \"{suffix}\" behind its digits; KiB, MiB, GiB or nothing may stand there")
            }
            Fault::TooLarge => format!("{key} is not below 2^64 bytes: {shown}"),
        };
        (value.at, words)
    })
}

fn unique(value: Piece) -> Faulty<Guid> {
    Guid::parse(value.bytes).map_err(|_| (value.at, no_guid("uuid", value)))
}

fn kind(value: Piece) -> Faulty<Guid> {
    Guid::parse_type(value.bytes).map_err(|_| {
        let other = OTHER_TYPES.iter().find(|(name, _)| name.as_bytes() == value.bytes);
        let instead = other.map_or(String::new(), |(_, guid)| format!("; type={guid} says it"));
        let words = format!("type is no GUID and none of {TYPES}: {}{instead}", value.shown());
        (value.at, words)
    })
}
