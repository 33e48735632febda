//! A layout string as its author wrote it, for hints: what the library refused is looked for in it. It reads what the library
//! takes (rules b1 to b6).

use super::fields::{Fields, Part};
use super::pieces::Piece;
use usigrambal::{Guid, STRING_MAX};

const FIRST: &str = "uuid_disk=";

/// Why a string is out of form: its first fault from left to right.
#[derive(Debug)]
pub struct Fault {
    /// Counted from 1; none in front of the first.
    pub partition: Option<usize>,
    /// Counted from 1; none where it is about the whole string.
    pub byte: Option<usize>,
    pub words: String,
    pub kind: Kind,
}

/// What would help, where it is known.
#[derive(Clone, Copy, Debug, PartialEq, Eq)]
pub enum Kind {
    /// A variable stands in the string, not its value.
    Unfilled,
    /// A blank or a line end.
    Blank,
    Other,
}

impl Fault {
    /// `partition 2, byte 97: …`
    pub fn sentence(&self) -> String {
        let partition = self.partition.map(|number| format!("partition {number}"));
        let byte = self.byte.map(|byte| format!("byte {byte}"));
        let places: Vec<String> = [partition, byte].into_iter().flatten().collect();
        match places.is_empty() {
            true => self.words.clone(),
            false => format!("{}: {}", places.join(", "), self.words),
        }
    }
}

pub fn read(text: &[u8]) -> Result<Vec<Part<'_>>, Fault> {
    if text.len() > STRING_MAX {
        let words =
            format!("a layout string has at most {STRING_MAX} bytes; gpt add adds what has no room in it");
        return Err(Fault { partition: None, byte: None, words, kind: Kind::Other });
    }
    let mut pieces: Vec<Piece> = Piece::whole(text).split(b';').collect();
    if pieces.len() > 1 && pieces.last().is_some_and(|piece| piece.bytes.is_empty()) {
        pieces.pop();
    }
    disk(pieces[0]).map_err(|(at, words)| fault(None, pieces[0], at, words))?;
    if pieces.len() == 1 {
        let words = "no partition stands behind the disk's GUID".to_string();
        return Err(fault(None, pieces[0], text.len(), words));
    }
    let parts = pieces[1..].iter().zip(1..);
    parts.map(|(piece, number)| part(*piece, number)).collect()
}

/// The GUID of the disk, which comes first.
fn disk(piece: Piece) -> Result<(), (usize, String)> {
    let Some(value) = piece.behind(FIRST) else { return Err((piece.at, not_first(piece))) };
    match Guid::parse(value.bytes) {
        Ok(_) => Ok(()),
        Err(_) => Err((value.at, no_guid("uuid_disk", value))),
    }
}

/// What stands where the disk's GUID is due.
fn not_first(piece: Piece) -> String {
    let due = "a layout string begins with uuid_disk=GUID";
    let place = piece.bytes.windows(FIRST.len()).position(|part| part == FIRST.as_bytes());
    match (place, piece.bytes.first()) {
        (_, None) => format!("{due}; here it is empty"),
        (_, Some(b'"' | b'\'')) => format!("{due}, without a quotation mark in front"),
        (Some(place), _) => format!("{due}; {} stands in front of it", piece.upto(place).shown()),
        (None, _) => format!("{due}, not with {}", piece.shown()),
    }
}

pub fn no_guid(key: &str, value: Piece) -> String {
    format!("{key} is no GUID (32 hex digits in groups of 8, 4, 4, 4 and 12): {}", value.shown())
}

fn part(piece: Piece<'_>, number: usize) -> Result<Part<'_>, Fault> {
    if piece.bytes.is_empty() {
        return Err(fault(Some(number), piece, piece.at, "two semicolons stand in a row".into()));
    }
    let mut fields = Fields::default();
    for field in piece.split(b',') {
        fields.take(field).map_err(|(at, words)| fault(Some(number), field, at, words))?;
    }
    let end = piece.at + piece.bytes.len();
    let words = |missing: Vec<&str>| format!("it has no {}", missing.join(" and no "));
    // About the partition as a whole: a blank or a variable in a name is no reason.
    fields.whole(end).map_err(|missing| Fault {
        partition: Some(number),
        byte: Some(piece.at + 1),
        words: words(missing),
        kind: Kind::Other,
    })
}

/// A fault of a piece. Where a variable or a blank stands in it, that is told.
fn fault(partition: Option<usize>, piece: Piece, at: usize, words: String) -> Fault {
    let (at, words, kind) = match (piece.variable(), piece.odd()) {
        (Some(variable), _) => {
            (variable.at, format!("{} is not filled in", variable.shown()), Kind::Unfilled)
        }
        (None, Some((at, byte))) => {
            // To take a blank out of a name would give it another one.
            let within = piece.behind("name=").is_some_and(|name| name.goes_on(at));
            let kind = if byte.is_ascii_whitespace() && !within { Kind::Blank } else { Kind::Other };
            let place = if within { "name" } else { "string" };
            let words = format!("{} stands in the {place}, and only bytes of 21 to 7E hex may", named(byte));
            (at, words, kind)
        }
        (None, None) => (at, words, Kind::Other),
    };
    Fault { partition, byte: Some(at + 1), words, kind }
}

fn named(byte: u8) -> String {
    match byte {
        b' ' => "a blank".into(),
        b'\t' => "a tab".into(),
        b'\n' => "a line feed".into(),
        b'\r' => "a carriage return".into(),
        byte => format!("the byte {byte:02X} hex"),
    }
}
