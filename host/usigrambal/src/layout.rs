//! Layout texts (FMD).

use crate::raw::{self, RECORDS, RECORD_LEN};
use crate::refusal::accepted;
use crate::refused::{Detail, Refused};
use crate::Refusal;

const NAME_LEN: usize = 32;

/// What a layout text says of its image (rule R3).
#[derive(Clone, Debug, PartialEq, Eq)]
pub struct Layout {
    pub name: String,
    pub size: u64,
    /// 0 where the text gives none.
    pub address: u64,
    pub sections: u64,
}

/// A section, at its position in the image (rules L15, L16).
#[derive(Clone, Debug, PartialEq, Eq)]
pub struct Section {
    pub position: u32,
    pub size: u32,
    pub name: String,
    pub preserve: bool,
}

/// The image that a text describes.
pub fn read(text: impl AsRef<[u8]>) -> Result<Layout, Refused> {
    let text = text.as_ref();
    let mut name = [0; NAME_LEN];
    let (mut size, mut address, mut sections) = (0, 0, 0);
    accepted_for(text, raw::fmd_read(text, &mut name, &mut size, &mut address, &mut sections))?;
    Ok(Layout { name: text_of(&name), size, address, sections })
}

/// The sections of a text, children after parents.
pub fn sections(text: impl AsRef<[u8]>) -> Result<Vec<Section>, Refused> {
    let text = text.as_ref();
    let mut records = [0; RECORDS * RECORD_LEN];
    let mut count = 0;
    accepted_for(text, raw::fmd_records(text, &mut records, &mut count))?;
    Ok(records.chunks(RECORD_LEN).take(count as usize).map(decoded).collect())
}

/// Writes the map of a text at the start of section FMAP of an image that has the stated size (rules L17, L18).
pub fn write_map(text: impl AsRef<[u8]>, image: &mut [u8]) -> Result<(), Refused> {
    let text = text.as_ref();
    accepted_for(text, raw::fmd_write(text, image)).map_err(|refused| match (refused.refusal, read(text)) {
        (Refusal::WrongLength, Ok(layout)) => refused.about(&[Detail::Stated(image.len(), layout.size)]),
        _ => refused,
    })
}

fn accepted_for(text: &[u8], answer: u32) -> Result<(), Refused> {
    accepted(answer).map_err(|refused| refused.about(&[Detail::Text(text.len())]))
}

fn text_of(name: &[u8]) -> String {
    name.iter().take_while(|byte| **byte != 0).map(|byte| char::from(*byte)).collect()
}

fn decoded(record: &[u8]) -> Section {
    let number = |at: usize| u32::from_le_bytes(record[at..at + 4].try_into().expect("4 bytes"));
    Section { position: number(0), size: number(4), name: text_of(&record[8..40]), preserve: record[40] == 8 }
}

#[cfg(test)]
mod tests {
    use super::*;

    const TEXT: &str = "CHIP@0x1000 300 { A@4 40 { CAL(PRESERVE)@8 20 } FMAP }";

    #[test]
    fn sections_of_a_text() {
        let layout = Layout { name: "CHIP".into(), size: 300, address: 0x1000, sections: 3 };
        assert_eq!(read(TEXT), Ok(layout));
        let section =
            |position, size, name: &str, preserve| Section { position, size, name: name.into(), preserve };
        let expected =
            [section(4, 40, "A", false), section(12, 20, "CAL", true), section(44, 256, "FMAP", false)];
        assert_eq!(sections(TEXT).unwrap(), expected);
    }

    #[test]
    fn refusals_in_words() {
        assert_eq!(sections("I 97 {").unwrap_err().to_string(), "52: a bad number");
        let long = " ".repeat(32_769);
        assert_eq!(
            read(long).unwrap_err().to_string(),
            "50: the layout text is too long: more than 32768 bytes"
        );
        let mut short = [0; 299];
        assert_eq!(
            write_map(TEXT, &mut short).unwrap_err().to_string(),
            "1: a lent buffer has a wrong length: the image has 299 bytes, the layout states 300"
        );
        assert_eq!(short, [0; 299]);
    }

    #[test]
    fn a_map_starts_where_section_fmap_starts() {
        let mut image = [0x55; 300];
        write_map(TEXT, &mut image).unwrap();
        assert_eq!(image[..44], [0x55; 44]);
        assert_eq!(image[44..52], *b"__FMAP__");
        assert_eq!(image[44 + 56 + 3 * 42..], [0x55; 300 - 44 - 56 - 3 * 42]);
    }
}
