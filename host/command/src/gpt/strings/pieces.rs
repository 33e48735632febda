//! Parts of a layout string, with their places in it.

use crate::show::printable;

const SHOWN: usize = 60;

#[derive(Clone, Copy, Debug)]
pub struct Piece<'a> {
    /// Where it begins, counted from 0.
    pub at: usize,
    pub bytes: &'a [u8],
}

impl<'a> Piece<'a> {
    pub fn whole(bytes: &'a [u8]) -> Piece<'a> {
        Piece { at: 0, bytes }
    }

    /// What stands between separators.
    pub fn split(self, separator: u8) -> impl Iterator<Item = Piece<'a>> {
        let mut next = self.at;
        self.bytes.split(move |byte| *byte == separator).map(move |bytes| {
            let at = next;
            next += bytes.len() + 1;
            Piece { at, bytes }
        })
    }

    pub fn upto(self, end: usize) -> Piece<'a> {
        Piece { bytes: &self.bytes[..end], ..self }
    }

    fn from(self, start: usize) -> Piece<'a> {
        Piece { at: self.at + start, bytes: &self.bytes[start..] }
    }

    /// The rest, where it begins with that text.
    pub fn behind(self, text: &str) -> Option<Piece<'a>> {
        self.bytes.starts_with(text.as_bytes()).then(|| self.from(text.len()))
    }

    /// What stands in front of the first =, and what behind it, if one is there.
    pub fn halves(self) -> (Piece<'a>, Option<Piece<'a>>) {
        match self.bytes.iter().position(|byte| *byte == b'=') {
            Some(place) => (self.upto(place), Some(self.from(place + 1))),
            None => (self, None),
        }
    }

    /// The first byte that no layout string has, and where it stands.
    pub fn odd(self) -> Option<(usize, u8)> {
        let place = self.bytes.iter().position(|byte| !(0x21..=0x7E).contains(byte))?;
        Some((self.at + place, self.bytes[place]))
    }

    /// Whether bytes that may stand in a layout string follow behind that place.
    pub fn goes_on(self, at: usize) -> bool {
        let behind = self.bytes.get(at - self.at..).unwrap_or_default();
        behind.iter().any(u8::is_ascii_graphic)
    }

    /// The first `${…}`, up to its brace.
    pub fn variable(self) -> Option<Piece<'a>> {
        let start = self.bytes.windows(2).position(|pair| pair == b"${")?;
        let rest = self.from(start);
        let end =
            rest.bytes.iter().position(|byte| *byte == b'}').map_or(rest.bytes.len(), |place| place + 1);
        Some(rest.upto(end))
    }

    /// Its text, where all its bytes may stand in a layout string.
    pub fn text(self) -> Option<&'a str> {
        self.odd().map_or_else(|| std::str::from_utf8(self.bytes).ok(), |_| None)
    }

    /// In quotation marks, the beginning of a long one.
    pub fn shown(self) -> String {
        let (bytes, more) = match self.bytes.len() > SHOWN {
            true => (&self.bytes[..SHOWN], "..."),
            false => (self.bytes, ""),
        };
        format!("\"{}{more}\"", printable(&String::from_utf8_lossy(bytes)))
    }
}

#[cfg(test)]
mod tests {
    use super::*;

    #[test]
    fn pieces_know_where_they_stand() {
        let whole = Piece::whole(b"a=b;c,d=e=;");
        let pieces: Vec<_> = whole.split(b';').map(|piece| (piece.at, piece.bytes)).collect();
        assert_eq!(pieces, [(0, b"a=b".as_slice()), (4, b"c,d=e="), (11, b"")]);
        let second = whole.split(b';').nth(1).expect("a piece").split(b',').nth(1).expect("a field");
        let (key, value) = second.halves();
        let value = value.expect("a value");
        assert_eq!((key.at, key.bytes, value.at, value.bytes), (6, b"d".as_slice(), 8, b"e=".as_slice()));
    }

    #[test]
    fn odd_bytes_and_variables() {
        assert_eq!(Piece { at: 5, bytes: b"a~!\x7f " }.odd(), Some((8, 0x7F)));
        assert_eq!(Piece::whole(b"!~").odd(), None);
        let variable = |bytes| Piece { at: 2, bytes }.variable().map(|piece| (piece.at, piece.shown()));
        assert_eq!(variable(b"size=${a}${b}"), Some((7, "\"${a}\"".into())));
        assert_eq!(variable(b"${a"), Some((2, "\"${a\"".into())));
        assert_eq!(variable(b"$a{b}"), None);
    }

    #[test]
    fn a_long_one_is_cut() {
        let shown = Piece::whole(&[b'x'; 100]).shown();
        assert_eq!(shown, format!("\"{}...\"", "x".repeat(60)));
    }
}
