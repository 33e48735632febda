//! The ways in which a text is refused, by number.

use crate::run::Cell;

/// How a way is planted in a good text.
#[derive(Clone, Copy)]
pub enum Plant {
    /// The whole text.
    Whole(&'static [u8]),
    /// In place of the image's name (0), address (1), size (2), opening brace (3) or closing brace (4).
    Field(usize, &'static [u8]),
    /// Among the image's sections, at fault in the text; `%` and a digit is a name.
    Sections(&'static [u8]),
    /// The same, and the text ends there.
    Cut(&'static [u8]),
    /// Among the image's sections, at fault in the whole list.
    List(&'static [u8]),
    /// In place of section FMAP; empty: one byte too small for the map.
    Fmap(&'static [u8]),
    /// 129 sections.
    Many,
    /// 9 levels.
    Deep,
    /// More than 32,768 bytes.
    Long,
}

pub struct Way {
    pub number: u32,
    pub name: &'static str,
    pub plant: Plant,
}

impl Way {
    /// Whether one text can have both.
    pub fn beside(&self, other: &Way) -> bool {
        match (self.plant, other.plant) {
            (Plant::Whole(_), _) | (_, Plant::Whole(_)) => false,
            (Plant::Field(one, _), Plant::Field(other, _)) => one != other,
            (Plant::Fmap(_), Plant::Fmap(_)) | (Plant::Long, Plant::Long) => false,
            _ => true,
        }
    }
}

const fn way(number: u32, name: &'static str, plant: Plant) -> Way {
    Way { number, name, plant }
}

use Plant::*;

pub const WAYS: &[Way] = &[
    way(50, "32,769 bytes", Long),
    // R33, "an early end".
    way(51, "no byte", Whole(b"")),
    way(51, "a comment alone", Whole(b" # I 98 { FMAP }")),
    way(51, "ends after the image's name", Whole(b"I")),
    way(51, "ends after the address's @", Whole(b"I@")),
    way(51, "ends after the address", Whole(b"I@0 ")),
    way(51, "ends after the image's size", Whole(b"I 98")),
    way(51, "ends after the image's brace", Whole(b"I 98 {")),
    way(51, "ends after a name", Cut(b"%1")),
    way(51, "ends after (", Cut(b"%1(")),
    way(51, "ends after a flag", Cut(b"%1(CBFS")),
    way(51, "ends after )", Cut(b"%1(CBFS)")),
    way(51, "ends after an offset's @", Cut(b"%1@")),
    way(51, "ends after an offset", Cut(b"%1@9")),
    way(51, "ends after a size", Cut(b"%1 9")),
    way(51, "ends after {", Cut(b"%1 9 {")),
    way(51, "ends in inner braces", Cut(b"%1 9 { %2 5 ")),
    way(51, "ends after }", Cut(b"%1 9 { %2 5 }")),
    // L5, "other bytes ... give 51".
    way(51, "byte 80 between words", Sections(b"%1 \x80 9")),
    way(51, "byte 7F ends a word", Sections(b"%1\x7F 9")),
    way(51, "byte 00 after a sign", Sections(b"%1@\0 9")),
    way(51, "byte 0B", Sections(b"%1\x0B9")),
    way(51, "byte 0C among flags", Sections(b"%1(CBFS\x0CPRESERVE) 9")),
    way(51, "byte FF behind the last brace", Field(4, b"}\xFF")),
    // R33, "an unfit sign".
    way(51, "no flag", Sections(b"%1() 9")),
    way(51, "a sign among flags", Sections(b"%1(CBFS @) 9")),
    way(51, "flags twice", Sections(b"%1(CBFS)(PRESERVE) 9")),
    way(51, "flags after an offset", Sections(b"%1@9(CBFS) 9")),
    way(51, "flags after a size", Sections(b"%1 9 (CBFS)")),
    way(51, "offset twice", Sections(b"%1@9@9 9")),
    way(51, "offset after a size", Sections(b"%1 9 @9")),
    way(51, "no offset after @", Sections(b"%1@{ %2 9 }")),
    way(51, "no section in braces", Sections(b"%1 9 { }")),
    way(51, "braces twice", Sections(b"%1 9 { %2 5 } { %3 5 }")),
    way(51, "{ without a name", Sections(b"%1 9 { { %2 9 } }")),
    way(51, "@ without a name", Sections(b"@9")),
    way(51, "( without a name", Sections(b"(CBFS)")),
    way(51, ") alone", Sections(b"%1 9 )")),
    way(51, "} too early", Field(4, b"} } ")),
    way(51, "{ behind the last brace", Field(4, b"} { A 9 }")),
    way(51, "a sign for the image's name", Field(0, b"{")),
    way(51, "flags of the image", Field(1, b"(CBFS)")),
    way(51, "no address after @", Field(1, b"@@0")),
    way(51, "a sign for the image's size", Field(2, b"(")),
    way(51, "a sign for the image's brace", Field(3, b" @ ")),
    // L1, L10: only a brace, or nothing, can stand there.
    way(51, "a word before the image's brace", Field(3, b" x { ")),
    way(51, "a number before the image's brace", Field(3, b" 9 { ")),
    way(51, "a word behind the last brace", Field(4, b"} x")),
    way(51, "a number behind the last brace", Field(4, b"} 9")),
    way(51, "a section behind the last brace", Field(4, b"} # }\n A 9")),
    // L1, "an image length in range, else 52".
    way(52, "image size 0", Field(2, b" 0")),
    way(52, "image size 97", Field(2, b" 97")),
    way(52, "image size 16,777,217", Field(2, b" 16777217")),
    way(52, "image size 4,294,967,295", Field(2, b" 0xffffffff")),
    // L8 at each place of a number.
    way(52, "leading 0 in the address", Field(1, b"@010")),
    way(52, "leading 0 in the image's size", Field(2, b" 060000")),
    way(52, "leading 0 in an offset", Sections(b"%1@09 9")),
    way(52, "leading 0 in a size", Sections(b"%1 00")),
    way(52, "no hex digit", Sections(b"%1 0x")),
    way(52, "no hex digit before a suffix", Sections(b"%1@0xK 9")),
    way(52, "no hex digit in the address", Field(1, b"@0x")),
    way(52, "another letter than a hex digit", Sections(b"%1 0x1g")),
    way(52, "0X", Sections(b"%1 0X10")),
    way(52, "lower-case suffix", Sections(b"%1 1k")),
    way(52, "two suffixes", Sections(b"%1 1KK")),
    way(52, "a byte behind the suffix", Sections(b"%1@1KB 9")),
    way(52, "over 4,294,967,295", Sections(b"%1@4294967296 9")),
    way(52, "over it in hex", Sections(b"%1 0x100000000")),
    way(52, "over it by a suffix", Sections(b"%1 4G")),
    way(52, "over it in the address", Field(1, b"@4294967296")),
    way(52, "over it by the image's size", Field(2, b" 4G")),
    way(52, "over 2^64", Sections(b"%1@18446744073709551617 9")),
    way(52, "over 2^64 by a suffix", Sections(b"%1@18014398509481984K 9")),
    way(52, "a digit and letters as a size", Sections(b"%1(CBFS)@9 1x")),
    // L9, "any other word is 52".
    way(52, "a word for an offset", Sections(b"%1@x 9")),
    way(52, "a sign character for an offset", Sections(b"%1@+1 9")),
    way(52, "a suffix for an offset", Sections(b"%1@K 9")),
    way(52, "a word for the address", Field(1, b"@x")),
    way(52, "a word for the image's size", Field(2, b" x")),
    way(52, "a negative image size", Field(2, b" -60000")),
    // L6.
    way(53, "the image's name begins with a digit", Field(0, b"9I")),
    way(53, "the image's name has 32 bytes", Field(0, b"IIIIIIIIIIIIIIIIIIIIIIIIIIIIIIII")),
    way(53, "a name begins with a digit", Sections(b"%1 9 0%2 9")),
    way(53, "a name has 32 bytes", Sections(b"NNNNNNNNNNNNNNNNNNNNNNNNNNNNNNNN 9")),
    way(53, "a second size", Sections(b"%1 9 9")),
    way(53, "a size behind braces", Sections(b"%1 { %2 9 } 9")),
    way(53, "a number in braces", Sections(b"%1 9 { 9 }")),
    // R19.
    way(54, "a name twice beside", List(b"%1 9 %1 9")),
    way(54, "a name twice, parent and child", List(b"%1 9 { %1 9 }")),
    way(54, "a name twice in two parents", List(b"%1 9 { %2 9 } %3 9 { %4 9 { %2 } }")),
    way(54, "FMAP twice", List(b"FMAP 9 FMAP 9")),
    way(55, "129 sections", Many),
    way(55, "9 levels", Deep),
    // R20.
    way(56, "unknown flag", Sections(b"%1(RO) 9")),
    way(56, "flag in lower case", Sections(b"%1(cbfs) 9")),
    way(56, "two flags in one word", Sections(b"%1(CBFS,PRESERVE) 9")),
    way(56, "number as a flag", Sections(b"%1(PRESERVE 10) 9")),
    way(56, "CBFS repeated", Sections(b"%1(CBFS CBFS) 9")),
    way(56, "PRESERVE repeated", Sections(b"%1(PRESERVE CBFS PRESERVE) 9")),
    way(56, "CBFS on a parent", List(b"%1(CBFS) 9 { %2 9 }")),
    way(56, "CBFS PRESERVE on an inner parent", List(b"%1 9 { %2(CBFS PRESERVE) 9 { %3 9 } }")),
    // L13.
    way(57, "undecided beside", List(b"%1 %2 9")),
    way(57, "undecided in braces", List(b"%1 90 { %2 %3 5 }")),
    way(57, "undecided twice", List(b"%1 90 { %2@5 { %3 } %4 }")),
    way(57, "undecided between", List(b"%1 90 { %2 5 %3 %4 5 %5@50 5 }")),
    // L14.
    way(58, "size 0", List(b"%1 0")),
    way(58, "size 0 to the next offset", List(b"%1 90 { %2@5 %3@5 9 }")),
    way(58, "size 0 to the parent's end", List(b"%1 90 { %2@90 }")),
    way(58, "no room for the last", List(b"%1 90 { %2 90 %3 }")),
    way(58, "below 0 to the next offset", List(b"%1 90 { %2@9 %3@5 9 }")),
    way(58, "overlap", List(b"%1 90 { %2 10 %3@9 10 }")),
    way(58, "descending", List(b"%1 90 { %2@50 10 %3@20 10 }")),
    way(58, "past the parent", List(b"%1 90 { %2 91 }")),
    way(58, "past the parent by its offset", List(b"%1 90 { %2@91 1 }")),
    way(58, "past the parent in the middle", List(b"%1 90 { %2@80 20 %3@100 }")),
    way(58, "past an inner parent", List(b"%1 90 { %2 20 { %3@19 2 } }")),
    way(58, "past the image", List(b"%1 60001")),
    way(58, "past 2^32", List(b"%1 90 { %2@0xffffffff 2 }")),
    way(58, "past 2^32 by the size", List(b"%1 90 { %2@9 0xfffffff8 }")),
    // R22.
    way(59, "no section FMAP", Fmap(b"FMAQ 20000")),
    way(59, "FMAP in lower case", Fmap(b"fmap 20000")),
    way(59, "FMAP has children", Fmap(b"FMAP 20000 { %1 9 }")),
    way(59, "FMAP is too small", Fmap(b"")),
];

/// A cell for each way.
pub const CELLS: &[Cell] = &{
    let mut cells = [Cell::Answer(0); WAYS.len() + 3];
    let mut k = 0;
    while k < WAYS.len() {
        cells[k] = Cell::By(WAYS[k].number, WAYS[k].name);
        k += 1;
    }
    cells[k] = Cell::By(1, "the name's buffer");
    cells[k + 1] = Cell::By(1, "the section list");
    cells[k + 2] = Cell::By(1, "the image");
    cells
};
