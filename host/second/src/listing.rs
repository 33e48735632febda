//! What the programs print of a layout text.

use crate::rules::RULES;
use crate::{fmd_read, fmd_records};

/// S11.
pub const SAMPLE_10: &str = "\
PRINTNODE@0xff800000 8M {
  BOOT 2M { FMAP 4K }
  RW_CAL(PRESERVE)@3M 64K
  RW_LOG
}
";

/// Sample 10 with a section FMAP that is one byte too small: 56 + 42 × 4 is 224. It is refused by the last row, 59.
pub const TOO_SMALL: &str = "\
PRINTNODE@0xff800000 8M {
  BOOT 2M { FMAP 223 }
  RW_CAL(PRESERVE)@3M 64K
  RW_LOG
}
";

const RECORDS: usize = 128;
const RECORD_LEN: usize = 42;

/// A record of the section list, lent as the bytes of an area.
#[derive(Clone, Copy, Debug, PartialEq, Eq)]
pub struct Record {
    pub position: u32,
    pub size: u32,
    pub name: [u8; 32],
    pub flags: u16,
}

/// What a record holds before it is lent, so that it shows whether it was filled.
pub const PATTERN: Record =
    Record { position: 0xA5A5_A5A5, size: 0x5A5A_5A5A, name: [0x7E; 32], flags: 0xC3C3 };

impl Record {
    fn bytes(&self) -> Vec<u8> {
        let numbers = [self.position.to_le_bytes(), self.size.to_le_bytes()].concat();
        [&numbers[..], &self.name, &self.flags.to_le_bytes()].concat()
    }

    fn of(bytes: &[u8]) -> Record {
        let four = |at: usize| u32::from_le_bytes(bytes[at..at + 4].try_into().expect("4 bytes"));
        Record {
            position: four(0),
            size: four(4),
            name: bytes[8..40].try_into().expect("32 bytes"),
            flags: u16::from_le_bytes([bytes[40], bytes[41]]),
        }
    }
}

/// Lends 128 records of the pattern: the number of sections or of the refusal, and all records afterwards.
pub fn lend(text: &[u8]) -> (Result<u64, u32>, Vec<Record>) {
    let mut list = PATTERN.bytes().repeat(RECORDS);
    let mut count = 0;
    let answer = match fmd_records(&RULES, text, &mut list, &mut count) {
        0 => Ok(count),
        number => Err(number),
    };
    (answer, list.chunks(RECORD_LEN).map(Record::of).collect())
}

/// S12: the lines of the listing program.
pub fn listing(text: &[u8]) -> String {
    let (mut name, mut size, mut address, mut count) = ([0; 32], 0, 0, 0);
    let number = fmd_read(&RULES, text, &mut name, &mut size, &mut address, &mut count);
    if number != 0 {
        return format!("refused {number}\n");
    }
    let section = |record: Record| {
        let Record { position, size, name, flags } = record;
        format!("{position:08x} {size:08x} {flags:04x} {}\n", named(&name))
    };
    let sections: String = lend(text).1.into_iter().take(count as usize).map(section).collect();
    format!("{} {size:08x} {address:016x}\n{sections}", named(&name))
}

/// `accepted` and the number of sections, or `refused` and the number; then all 128 records, one a line: position,
/// size, flags, and the name's 32 bytes in hex.
pub fn all_records(text: &[u8]) -> String {
    let (answer, records) = lend(text);
    let line = |record: Record| {
        let name: String = record.name.iter().map(|byte| format!("{byte:02x}")).collect();
        format!("{:08x} {:08x} {:04x} {name}\n", record.position, record.size, record.flags)
    };
    let answer = match answer {
        Ok(count) => format!("accepted {count}\n"),
        Err(number) => format!("refused {number}\n"),
    };
    answer + &records.into_iter().map(line).collect::<String>()
}

fn named(name: &[u8; 32]) -> String {
    name.iter().take_while(|byte| **byte != 0).map(|byte| char::from(*byte)).collect()
}

#[cfg(test)]
mod tests {
    use super::*;

    /// S13.
    #[test]
    fn sample_10_is_printed_as_it_stands_there() {
        let expected = "\
PRINTNODE 00800000 00000000ff800000
00000000 00200000 0000 BOOT
00000000 00001000 0000 FMAP
00300000 00010000 0008 RW_CAL
00310000 004f0000 0000 RW_LOG
";
        assert_eq!(listing(SAMPLE_10.as_bytes()), expected);
        assert_eq!(listing(TOO_SMALL.as_bytes()), "refused 59\n");
        assert_eq!(listing(&[b' '; 32_769]), "refused 50\n");
    }

    #[test]
    fn unused_records_keep_the_pattern() {
        let (answer, records) = lend(SAMPLE_10.as_bytes());
        assert_eq!(answer, Ok(4));
        assert!(records[..4].iter().all(|record| *record != PATTERN));
        assert!(records[4..].iter().all(|record| *record == PATTERN));
        assert_eq!(lend(TOO_SMALL.as_bytes()), (Err(59), vec![PATTERN; RECORDS]));
    }

    #[test]
    fn all_128_records_are_printed() {
        let text = all_records(SAMPLE_10.as_bytes());
        let lines: Vec<&str> = text.lines().collect();
        assert_eq!(lines.len(), 129);
        assert_eq!(lines[0], "accepted 4");
        let name = format!("52575f43414c{}", "00".repeat(26));
        assert_eq!(lines[3], format!("00300000 00010000 0008 {name}"));
        assert_eq!(lines[128], format!("a5a5a5a5 5a5a5a5a c3c3 {}", "7e".repeat(32)));
        assert!(all_records(TOO_SMALL.as_bytes()).starts_with("refused 59\na5a5a5a5 "));
    }
}
