use std::fmt::{self, Write};

/// A partition's name: 36 units of UTF-16.
#[derive(Clone, Copy, Debug, PartialEq, Eq)]
pub struct Name(pub [u16; 36]);

impl Name {
    /// The one that any number of partitions may have (rule a2): 72 zero bytes.
    pub const EMPTY: Name = Name([0; 36]);

    /// The text's units and then zeros; `None` if it has more than 36 units.
    pub fn new(text: &str) -> Option<Name> {
        let mut name = [0; 36];
        for (place, unit) in text.encode_utf16().enumerate() {
            *name.get_mut(place)? = unit;
        }
        Some(Name(name))
    }

    /// The units before the first zero; what is no UTF-16 is replaced.
    pub fn to_text(self) -> String {
        let units = self.0.iter().take_while(|unit| **unit != 0).copied();
        char::decode_utf16(units).map(|c| c.unwrap_or(char::REPLACEMENT_CHARACTER)).collect()
    }
}

/// The text for a terminal: what it would not print, or would obey, is escaped.
impl fmt::Display for Name {
    fn fmt(&self, f: &mut fmt::Formatter<'_>) -> fmt::Result {
        self.to_text().chars().try_for_each(|c| match c {
            '\\' => f.write_str("\\\\"),
            ' '..='~' => f.write_char(c),
            c => write!(f, "{}", c.escape_debug()),
        })
    }
}

#[cfg(test)]
mod tests {
    use super::*;

    #[test]
    fn a_name_has_at_most_36_units() {
        assert_eq!(Name::new(&"x".repeat(36)).unwrap().0, [u16::from(b'x'); 36]);
        assert_eq!(Name::new(&"x".repeat(37)), None);
        assert_eq!(Name::new("a").unwrap().to_text(), "a");
    }

    #[test]
    fn a_name_is_told_escaped() {
        let told = |text| Name::new(text).unwrap().to_string();
        assert_eq!(told("Größe \"3½\""), "Größe \"3½\"");
        assert_eq!(told("a\u{1b}[2J\\\n"), "a\\u{1b}[2J\\\\\\n");
    }
}
