//! The calls on a layout text. Arguments and answers are those of the C interface: a record of the section list is
//! lent as the bytes of an area of the map.

mod layout;
mod map;
mod number;
mod reading;
mod token;

use crate::bytes::put;
use crate::refuse::{first_row, leave, leave_answer, number as number_of};
use crate::rules::{Row, Rules};
use layout::Layout;

/// The image's name, size and address, and the number of its sections.
pub fn fmd_read(
    rules: &Rules,
    text: &[u8],
    name: &mut [u8],
    size: &mut u64,
    address: &mut u64,
    count: &mut u64,
) -> u32 {
    let layout = Layout::of(rules, text);
    let wrong_length = name.len() != rules.fmd.name_buffer_len;
    let refusal = refusal(rules, rules.fmd.read_order, text, &layout, |_| wrong_length);
    if refusal.is_some() {
        leave(rules, name);
        [size, address, count].into_iter().for_each(|answer| leave_answer(rules, answer));
        return refusal.unwrap_or(0);
    }
    let image = &layout.reading.image;
    let zeros = if rules.fmd.zeros_after_name { name.len() } else { 0 };
    put(name, 0, &vec![0; zeros]);
    put(name, 0, &image.name);
    *size = image.size;
    *address = image.address.unwrap_or(rules.fmd.no_address);
    *count = layout.counted(rules.fmd.count_of) as u64;
    0
}

/// L16: fills the lent list, and answers how many records that are.
pub fn fmd_records(rules: &Rules, text: &[u8], records: &mut [u8], count: &mut u64) -> u32 {
    let layout = Layout::of(rules, text);
    let wrong_length = records.len() != rules.fmd.list_records * rules.fmap.area_len;
    let refusal = refusal(rules, rules.fmd.records_order, text, &layout, |_| wrong_length);
    if refusal.is_some() {
        leave(rules, records);
        leave_answer(rules, count);
        return refusal.unwrap_or(0);
    }
    map::fill(rules, &layout, records);
    *count = layout.counted(rules.fmd.count_of) as u64;
    0
}

/// L17, L18, R34: writes the map of the layout into an image of the stated size.
pub fn fmd_write(rules: &Rules, text: &[u8], image: &mut [u8]) -> u32 {
    let layout = Layout::of(rules, text);
    let other_length = |stated: u64| image.len() as u64 != stated;
    let refusal = refusal(rules, rules.fmd.write_order, text, &layout, other_length);
    if refusal.is_some() {
        leave(rules, image);
        return refusal.unwrap_or(0);
    }
    map::write(rules, &layout, image);
    0
}

/// R33, R34: the number of the first row that holds; `wrong_length` is told the stated size.
fn refusal(
    rules: &Rules,
    order: &[Row],
    text: &[u8],
    layout: &Layout,
    wrong_length: impl Fn(u64) -> bool,
) -> Option<u32> {
    let row = first_row(order, |row| match row {
        Row::WrongLength => wrong_length(layout.reading.image.size),
        Row::TextTooLong => text.len() > rules.fmd.text_max,
        _ => layout.holds(rules, row),
    })?;
    let fault = layout.reading.fault.filter(|_| row == Row::InText);
    Some(number_of(rules, fault.unwrap_or(row)))
}

#[cfg(test)]
mod tests {
    use super::*;
    use crate::RULES;

    const LIST: usize = 128 * 42;

    /// The number, or (name, size, address, count).
    fn read(text: impl AsRef<[u8]>) -> Result<(String, u64, u64, u64), u32> {
        let (mut name, mut size, mut address, mut count) = ([0xAA; 32], 1, 2, 3);
        let text = text.as_ref();
        match fmd_read(&RULES, text, &mut name, &mut size, &mut address, &mut count) {
            0 => {
                let name = String::from_utf8(name.to_vec()).expect("ASCII");
                Ok((name.trim_end_matches('\0').to_string(), size, address, count))
            }
            number => {
                assert_eq!((name, size, address, count), ([0xAA; 32], 1, 2, 3));
                Err(number)
            }
        }
    }

    /// The records as (position, size, flags, name).
    fn records(text: impl AsRef<[u8]>) -> Vec<(u32, u32, u16, String)> {
        let (mut list, mut count) = ([0xA5; LIST], 0);
        assert_eq!(fmd_records(&RULES, text.as_ref(), &mut list, &mut count), 0);
        assert!(list[count as usize * 42..].iter().all(|byte| *byte == 0xA5));
        let four = |bytes: &[u8]| u32::from_le_bytes(bytes.try_into().expect("4 bytes"));
        let record = |bytes: &[u8]| {
            let name = String::from_utf8(bytes[8..40].to_vec()).expect("ASCII");
            let name = name.trim_end_matches('\0').to_string();
            (four(&bytes[..4]), four(&bytes[4..8]), u16::from_le_bytes([bytes[40], bytes[41]]), name)
        };
        list.chunks(42).take(count as usize).map(record).collect()
    }

    fn refused(text: impl AsRef<[u8]>) -> u32 {
        read(text).expect_err("a refusal")
    }

    /// In an image that has a section FMAP with enough room behind these.
    fn within(sections: &str) -> String {
        format!("I 16384 {{ {sections} FMAP@8192 }}")
    }

    const SAMPLE_10: &str =
        "PRINTNODE@0xff800000 8M {\n  BOOT 2M { FMAP 4K }\n  RW_CAL(PRESERVE)@3M 64K\n  RW_LOG\n}\n";

    #[test]
    fn sample_10() {
        assert_eq!(read(SAMPLE_10), Ok(("PRINTNODE".into(), 0x80_0000, 0xFF80_0000, 4)));
        let expected = [
            (0, 0x20_0000, 0, "BOOT".to_string()),
            (0, 0x1000, 0, "FMAP".to_string()),
            (0x30_0000, 0x1_0000, 8, "RW_CAL".to_string()),
            (0x31_0000, 0x4F_0000, 0, "RW_LOG".to_string()),
        ];
        assert_eq!(records(SAMPLE_10), expected);
    }

    #[test]
    fn samples_7_and_8() {
        let listed = records(within("A 10 K@100 20"));
        assert_eq!(listed[0], (0, 10, 0, "A".into()));
        assert_eq!(listed[1], (100, 20, 0, "K".into()));
        assert_eq!(refused(within("A 010")), 52);
        assert_eq!(records(within("A 0x10"))[0].1, 16);
    }

    /// E3, L15.
    #[test]
    fn positions_are_from_the_image_start() {
        let listed = records(within("A@16 200 { B@8 100 { C@4 10 } D 20 }"));
        let positions: Vec<u32> = listed.iter().map(|record| record.0).collect();
        assert_eq!(positions, [16, 24, 28, 124, 8192]);
    }

    /// The readings of docs/DECISIONS.md.
    #[test]
    fn readings() {
        assert!(read("I @ 0 98{FMAP ( CBFS ) @ 0}").is_ok());
        assert!(read("I 98{FMAP#x\n}").is_ok());
        assert_eq!(refused(b"I 97\x80"), 52);
        assert_eq!(refused(b"I 98\x80"), 51);
        assert_eq!(refused("I 0{"), 52);
        assert_eq!(records(within("A 9 +1 9"))[1].3, "+1");
        assert_eq!(refused(within("A@+1 9")), 52);
        assert_eq!(refused(within("A 1x")), 52);
        assert_eq!(refused(within("A 10 20")), 53);
        assert_eq!(refused(within("A { B } 10")), 53);
        assert_eq!(refused("I 98 x {"), 51);
        assert_eq!(refused(within("A() 9")), 51);
        assert_eq!(refused(within("A {} ")), 51);
        for flags in ["CBFS,PRESERVE", "cbfs", "10", "CBFS CBFS", "PRESERVE CBFS PRESERVE"] {
            assert_eq!(refused(within(&format!("A({flags}) 9"))), 56, "{flags}");
        }
        assert_eq!(refused(within("A 9 (x) 1y")), 51);
        assert_eq!(refused(within("A 9 @ 01")), 51);
        assert!(read(within("I 9")).is_ok());
        assert_eq!(refused(within("A 9 B 9 { A }")), 54);
        assert_eq!(refused(within("A 0 B C")), 57);
        assert_eq!(refused(within("A@5 B@5 9")), 58);
        assert_eq!(refused(within("A@4294967295 2")), 58);
        assert_eq!(refused("I 98 { FMAP 97 }"), 59);
        assert_eq!(refused("I 98 { fmap }"), 59);
        assert_eq!(refused("I 999 { FMAP { A } }"), 59);
        assert_eq!(refused(" ".repeat(32_769)), 50);
        assert_eq!(refused(" ".repeat(32_768)), 51);
    }

    #[test]
    fn eight_levels_and_128_sections() {
        let nest = |levels: usize, inmost: &str| {
            let open: String = (1..levels).map(|level| format!("L{level} {{ ")).collect();
            format!("I 16384 {{ {open} {inmost} {} }}", "}".repeat(levels - 1))
        };
        assert!(read(nest(8, "FMAP")).is_ok());
        assert_eq!(refused(nest(9, "FMAP")), 55);
        assert_eq!(refused(nest(9, "9")), 53);
        assert_eq!(refused(nest(9, "")), 51);
        let many = |count: usize| {
            let sections: String = (1..count).map(|k| format!("S{k} 1 ")).collect();
            format!("I 16384 {{ {sections} FMAP }}")
        };
        assert_eq!(read(many(128)).map(|answers| answers.3), Ok(128));
        assert_eq!(refused(many(129)), 55);
    }

    /// L17, L18: by hand, from the layout of a map.
    #[test]
    fn a_map_is_written_at_fmap_alone() {
        let text = "I@0x1000 300 { A(PRESERVE) 7 FMAP }";
        let mut image = vec![0x77; 300];
        assert_eq!(fmd_write(&RULES, text.as_bytes(), &mut image), 0);
        let mut map = b"__FMAP__\x01\x01\0\x10\0\0\0\0\0\0\x2C\x01\0\0I".to_vec();
        map.extend([0; 31]);
        map.extend(b"\x02\0\0\0\0\0\x07\0\0\0A");
        map.extend([0; 31]);
        map.extend(b"\x08\0\x07\0\0\0\x25\x01\0\0FMAP");
        map.extend([0; 28 + 2]);
        let expected = [&[0x77; 7][..], &map, &[0x77; 300 - 7 - 140]].concat();
        assert_eq!(image, expected);
        let mut position = 0;
        assert_eq!(crate::fmap_find(&RULES, &image, &mut position), 0);
        assert_eq!(position, 7);
        let mut other = vec![0x77; 299];
        assert_eq!(fmd_write(&RULES, text.as_bytes(), &mut other), 1);
        assert_eq!(fmd_write(&RULES, b"I 299 {", &mut other), 51);
        assert_eq!(other, [0x77; 299]);
    }

    #[test]
    fn lengths_of_the_lent_buffers_come_first() {
        let mut answer = 0;
        assert_eq!(fmd_records(&RULES, b"", &mut [0; LIST - 1], &mut answer), 1);
        assert_eq!(fmd_records(&RULES, b"", &mut [0; LIST], &mut answer), 51);
        let (mut size, mut address) = (0, 0);
        assert_eq!(fmd_read(&RULES, b"", &mut [0; 31], &mut size, &mut address, &mut answer), 1);
    }
}
