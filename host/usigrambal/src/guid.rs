use crate::raw;
use crate::refusal::accepted;
use crate::Refused;
use std::fmt;
use std::str::FromStr;

const TEXT_LEN: usize = 36;

/// A GUID as its 16 stored bytes (rule G2: the first three groups of the text are reversed).
#[derive(Clone, Copy, Debug, PartialEq, Eq, Hash)]
pub struct Guid(pub [u8; 16]);

impl Guid {
    /// The short names of types (rule G4).
    pub const SHORT_NAMES: [&'static str; 5] = ["system", "msft", "data", "linux", "swap"];

    /// Reads a GUID text, hex digits of either case (rule G1).
    pub fn parse(text: impl AsRef<[u8]>) -> Result<Guid, Refused> {
        let mut guid = [0; 16];
        accepted(raw::guid_read(text.as_ref(), &mut guid))?;
        Ok(Guid(guid))
    }

    /// Reads a partition type: a GUID text or one of the five short names (rules G1, G3, G4).
    pub fn parse_type(text: impl AsRef<[u8]>) -> Result<Guid, Refused> {
        let mut guid = [0; 16];
        accepted(raw::type_read(text.as_ref(), &mut guid))?;
        Ok(Guid(guid))
    }

    /// The short name that stands for this type, if there is one.
    pub fn short_name(self) -> Option<&'static str> {
        Guid::SHORT_NAMES.into_iter().find(|name| Guid::parse_type(name) == Ok(self))
    }

    /// A GUID of version 4 (RFC 9562) from random bytes. In the text the version is the first digit of the third
    /// group, which is stored reversed.
    pub fn version_4(mut random: [u8; 16]) -> Guid {
        random[7] = random[7] & 0x0F | 0x40;
        random[8] = random[8] & 0x3F | 0x80;
        Guid(random)
    }
}

impl FromStr for Guid {
    type Err = Refused;

    fn from_str(text: &str) -> Result<Guid, Refused> {
        Guid::parse(text)
    }
}

/// Writes the text in upper case (rule G1).
impl fmt::Display for Guid {
    fn fmt(&self, f: &mut fmt::Formatter<'_>) -> fmt::Result {
        let mut text = [0; TEXT_LEN];
        accepted(raw::guid_write(&self.0, &mut text)).map_err(|_| fmt::Error)?;
        f.pad(std::str::from_utf8(&text).map_err(|_| fmt::Error)?)
    }
}

#[cfg(test)]
mod tests {
    use super::*;

    const DATA_TEXT: &str = "EBD0A0A2-B9E5-4433-87C0-68B6B72699C7";

    /// Sample S6.
    const DATA: Guid = Guid([
        0xA2, 0xA0, 0xD0, 0xEB, 0xE5, 0xB9, 0x33, 0x44, 0x87, 0xC0, 0x68, 0xB6, 0xB7, 0x26, 0x99, 0xC7,
    ]);

    #[test]
    fn reads_a_text_of_either_case() {
        assert_eq!(Guid::parse(DATA_TEXT), Ok(DATA));
        assert_eq!(DATA_TEXT.to_lowercase().parse(), Ok(DATA));
    }

    #[test]
    fn reads_a_short_name_as_a_type_only() {
        assert_eq!(Guid::parse_type("data"), Ok(DATA));
        assert_eq!(Guid::parse_type(DATA_TEXT), Ok(DATA));
        assert_eq!(Guid::parse("data").unwrap_err().number(), 30);
        assert_eq!(Guid::parse_type("Data").unwrap_err().number(), 30);
    }

    #[test]
    fn short_names_of_types() {
        for name in Guid::SHORT_NAMES {
            assert_eq!(Guid::parse_type(name).unwrap().short_name(), Some(name));
        }
        assert_eq!(Guid([7; 16]).short_name(), None);
    }

    #[test]
    fn version_4_is_in_the_text() {
        assert_eq!(Guid::version_4([0; 16]).to_string(), "00000000-0000-4000-8000-000000000000");
        assert_eq!(Guid::version_4([0xFF; 16]).to_string(), "FFFFFFFF-FFFF-4FFF-BFFF-FFFFFFFFFFFF");
    }

    #[test]
    fn writes_upper_case() {
        assert_eq!(DATA.to_string(), DATA_TEXT);
        assert_eq!(format!("{DATA:>38}"), format!("  {DATA_TEXT}"));
    }
}
