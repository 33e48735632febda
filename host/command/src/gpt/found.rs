//! What stands on a disk that a new table would overwrite.

use super::probe;
use super::why;
use super::words::copies;
use crate::disk::Ends;
use crate::failure::Failure;
use crate::sizes::{human, plural};
use crate::storage::{unusable, Opened};
use std::os::unix::fs::FileExt;
use std::path::Path;
use usigrambal::{BlockSize, State};

/// How many bytes from the start must hold nothing, beside head and tail.
const FRONT: u64 = 128 << 10;
/// Boot code stands in front of the disk signature and the four records.
const BOOT_CODE_LEN: usize = 440;
const RECORDS: usize = 446;
const RECORD_LEN: usize = 16;

pub struct Found {
    /// With its article.
    pub what: String,
    pub boot_code: bool,
    /// The other block size, if a table for it is there.
    pub other: Option<BlockSize>,
}

/// None where head, tail and the first 128 KiB are all 00 or all FF. A table of the other block size has its headers
/// within these bytes too.
pub fn look(path: &Path, opened: &Opened, ends: &Ends) -> Result<Option<Found>, Failure> {
    let mut front = vec![0; FRONT.min(ends.bytes()) as usize];
    opened.file.read_exact_at(&mut front, 0).map_err(|error| unusable(path, "cannot be read", &error))?;
    let Some(first) = first_byte(&front, ends) else { return Ok(None) };
    let own = table(&mut ends.clone());
    let mut other = ends.otherwise(path, opened)?;
    let foreign = table(&mut other).map(|table| format!("{table}, for blocks of {} bytes", other.block));
    let records = records(ends.block_0(), own.is_some() || foreign.is_some(), ends.block);
    let of_other = foreign.is_some().then_some(other.block);
    let found: Vec<String> = [own, foreign, records, probe::signature(path)].into_iter().flatten().collect();
    let what = match found.is_empty() {
        true => format!("bytes that are neither all 00 nor all FF, {first}"),
        false => found.join(" and "),
    };
    Ok(Some(Found { what, boot_code: !even(&front[..BOOT_CODE_LEN]), other: of_other }))
}

fn even(bytes: &[u8]) -> bool {
    [0x00, 0xFF].iter().any(|even| bytes.iter().all(|byte| byte == even))
}

/// Where the first byte stands that is another one than the first of all; none if all are 00 or all are FF.
fn first_byte(front: &[u8], ends: &Ends) -> Option<String> {
    let behind = format!("in the last {} blocks", ends.block.tail_blocks());
    differs(front, front[0])
        .map(|at| format!("from byte {at} on"))
        .or_else(|| differs(ends.tail(), front[0]).map(|_| behind))
}

/// Where the first byte stands that is none of the nothing that begins so.
fn differs(bytes: &[u8], begins: u8) -> Option<usize> {
    let nothing = if begins == 0xFF { 0xFF } else { 0x00 };
    bytes.iter().position(|byte| *byte != nothing)
}

/// A GPT, good or not.
fn table(ends: &mut Ends) -> Option<String> {
    let disk = ends.disk();
    if let (Ok(state), Ok(partitions)) = (disk.state(), disk.partitions()) {
        let count = plural(partitions.len() as u64, "partition");
        return Some(match state {
            State::Same => format!("a good GPT with {count}"),
            _ => format!("a GPT with {count} ({})", copies(state)),
        });
    }
    why::signed(&disk).then(|| format!("a GPT that is not good ({})", why::both(&disk)))
}

/// An MBR by its four records; a protective one belongs to its GPT.
fn records(block: &[u8], has_table: bool, size: BlockSize) -> Option<String> {
    let records: Vec<&[u8]> = block[RECORDS..].chunks_exact(RECORD_LEN).take(4).collect();
    let well_formed = block[510..512] == [0x55, 0xAA] && records.iter().all(|record| record[0] & 0x7F == 0);
    let used: Vec<(usize, &[u8])> =
        (1..).zip(records).filter(|(_, record)| record[4] != 0 && !even(&record[12..])).collect();
    let protective = used.iter().all(|(_, record)| record[4] == 0xEE);
    match used.len() {
        0 => None,
        _ if !well_formed || (protective && has_table) => None,
        _ if protective => Some("a protective MBR without its GPT".to_string()),
        many => {
            let parts: Vec<String> =
                used.iter().map(|(number, record)| record_words(*number, record, size)).collect();
            Some(format!("an MBR with {} ({})", plural(many as u64, "partition"), parts.join("; ")))
        }
    }
}

/// `1: type 83 hex, 10 MiB`
fn record_words(number: usize, record: &[u8], size: BlockSize) -> String {
    let blocks = u32::from_le_bytes(record[12..16].try_into().expect("4 bytes"));
    format!("{number}: type {:02x} hex, {}", record[4], human(u64::from(blocks) * size.bytes()))
}

#[cfg(test)]
mod tests {
    use super::*;

    #[test]
    fn nothing_is_all_00_or_all_ff() {
        assert_eq!(differs(&[0; 9], 0), None);
        assert_eq!(differs(&[0xFF; 9], 0xFF), None);
        assert_eq!(differs(&[0, 0, 0xFF], 0), Some(2));
        assert_eq!(differs(&[0xFF; 9], 0), Some(0));
        assert_eq!(differs(&[7; 9], 7), Some(0));
    }

    #[test]
    fn records_of_block_0() {
        let mut block = [0; 512];
        block[510..].copy_from_slice(&[0x55, 0xAA]);
        assert_eq!(records(&block, false, BlockSize::Bytes512), None);
        let put = |block: &mut [u8; 512], at: usize, kind: u8| {
            block[RECORDS + RECORD_LEN * at + 4] = kind;
            block[RECORDS + RECORD_LEN * at + 12] = 1;
        };
        put(&mut block, 0, 0xEE);
        assert_eq!(
            records(&block, false, BlockSize::Bytes512).as_deref(),
            Some("a protective MBR without its GPT")
        );
        assert_eq!(records(&block, true, BlockSize::Bytes512), None);
        put(&mut block, 2, 0x83);
        let said = "an MBR with 2 partitions (1: type ee hex, 512 B; 3: type 83 hex, 512 B)";
        assert_eq!(records(&block, true, BlockSize::Bytes512).as_deref(), Some(said));
        let said = said.replace("512 B", "4 KiB");
        assert_eq!(records(&block, true, BlockSize::Bytes4096), Some(said));
        block[RECORDS] = 1;
        assert_eq!(records(&block, true, BlockSize::Bytes512), None);
    }
}
