//! Why a copy of the table is not good. That it is not, the library says; here its header is only held against what a good
//! one has, in words.

use usigrambal::{crc32, Disk};

const SIGNATURE: &[u8] = b"EFI PART";
const ENTRIES_LEN: usize = 16_384;
const HEADER_LEN: usize = 92;

/// A copy's header block, its entries, and the blocks where its own and the other header stand, and its entries.
struct Copy<'a> {
    header: &'a [u8],
    entries: &'a [u8],
    own: u64,
    other: u64,
    entries_at: u64,
}

fn primary<'a>(disk: &'a Disk) -> Copy<'a> {
    let block = disk.block.bytes() as usize;
    let (header, entries) = (&disk.head[block..2 * block], &disk.head[2 * block..]);
    Copy { header, entries, own: 1, other: disk.n.wrapping_sub(1), entries_at: 2 }
}

fn backup<'a>(disk: &'a Disk) -> Copy<'a> {
    let (entries, header) = disk.tail.split_at(ENTRIES_LEN);
    let entries_at = disk.n.wrapping_sub(disk.block.tail_blocks());
    Copy { header, entries, own: disk.n.wrapping_sub(1), other: 1, entries_at }
}

/// Whether a header's signature stands in either copy.
pub fn signed(disk: &Disk) -> bool {
    [primary(disk), backup(disk)].iter().any(|copy| copy.header.starts_with(SIGNATURE))
}

/// Both copies, neither of which is good.
pub fn both(disk: &Disk) -> String {
    let (first, second) = (fault(&primary(disk), disk), fault(&backup(disk), disk));
    match first == second {
        true => format!("both copies: {first}"),
        false => format!("primary copy: {first}; backup copy: {second}"),
    }
}

fn number(bytes: &[u8], at: usize, len: usize) -> u64 {
    bytes[at..at + len].iter().rev().fold(0, |value, byte| value << 8 | u64::from(*byte))
}

/// The CRC over a header, its own field taken as zero.
fn header_crc(header: &[u8]) -> u64 {
    let mut covered = header[..HEADER_LEN].to_vec();
    covered[16..20].fill(0);
    crc32(&covered).into()
}

fn fault(copy: &Copy, disk: &Disk) -> String {
    let first = disk.block.first_usable();
    let stands = |at, len| number(copy.header, at, len);
    if !copy.header.starts_with(SIGNATURE) {
        return "no GPT signature".to_string();
    }
    if stands(12, 4) == HEADER_LEN as u64 && stands(16, 4) != header_crc(copy.header) {
        return "the header's CRC is wrong".to_string();
    }
    let fields = [
        ("revision", 8, 4, 0x10000),
        ("header size", 12, 4, HEADER_LEN as u64),
        ("own block", 24, 8, copy.own),
        ("other copy's block", 32, 8, copy.other),
        ("first usable block", 40, 8, first),
        ("last usable block", 48, 8, disk.n.wrapping_sub(first)),
        ("entries' block", 72, 8, copy.entries_at),
        ("number of entries", 80, 4, 128),
        ("entry size", 84, 4, 128),
    ];
    let wrong = fields.iter().find(|(_, at, len, expected)| stands(*at, *len) != *expected);
    if let Some((name, at, len, expected)) = wrong {
        return format!("its {name} is {}, where this library has {expected}", stands(*at, *len));
    }
    match stands(88, 4) == u64::from(crc32(copy.entries)) {
        true => "an entry is not as the rules have it".to_string(),
        false => "the entries' CRC is wrong".to_string(),
    }
}

#[cfg(test)]
mod tests {
    use super::*;
    use usigrambal::{BlockSize, Guid};

    /// Spoils a formatted disk of 100 blocks, with the CRCs made anew where asked for.
    fn told(block: BlockSize, spoil: impl Fn(&mut Disk), crc: bool) -> String {
        let (mut head, mut tail) = (vec![0; block.head_len()], vec![0; block.tail_len()]);
        let mut disk = Disk { head: &mut head, tail: &mut tail, n: 100, block };
        disk.format(Guid([1; 16])).expect("a table");
        spoil(&mut disk);
        let len = block.bytes() as usize;
        for header in [&mut disk.head[len..2 * len], &mut disk.tail[ENTRIES_LEN..]] {
            let sum = header_crc(header) as u32;
            if crc {
                header[16..20].copy_from_slice(&sum.to_le_bytes());
            }
        }
        assert!(disk.state().is_err());
        both(&disk)
    }

    fn each_fault(block: BlockSize, first_usable: u64, last_usable: u64) {
        let len = block.bytes() as usize;
        let clear = |disk: &mut Disk| {
            disk.head.fill(0);
            disk.tail.fill(0);
        };
        assert_eq!(told(block, clear, false), "both copies: no GPT signature");
        let both_bytes = |at: usize, value: u8| {
            move |disk: &mut Disk| {
                disk.head[len + at] = value;
                disk.tail[ENTRIES_LEN + at] = value;
            }
        };
        assert_eq!(told(block, both_bytes(60, 9), false), "both copies: the header's CRC is wrong");
        let first =
            format!("both copies: its first usable block is 48, where this library has {first_usable}");
        assert_eq!(told(block, both_bytes(40, 48), true), first);
        let last = format!("both copies: its last usable block is 48, where this library has {last_usable}");
        assert_eq!(told(block, both_bytes(48, 48), true), last);
        assert_eq!(
            told(block, both_bytes(80, 64), true),
            "both copies: its number of entries is 64, where this library has 128"
        );
        let entries = |disk: &mut Disk| {
            disk.head[2 * len] = 1;
            disk.tail[0] = 1;
        };
        assert_eq!(told(block, entries, false), "both copies: the entries' CRC is wrong");
        // A type without a unique GUID, with the entries' CRC.
        let bad_entry = |disk: &mut Disk| {
            entries(disk);
            let sum = crc32(&disk.tail[..ENTRIES_LEN]).to_le_bytes();
            disk.head[len + 88..len + 92].copy_from_slice(&sum);
            disk.tail[ENTRIES_LEN + 88..ENTRIES_LEN + 92].copy_from_slice(&sum);
        };
        assert_eq!(told(block, bad_entry, true), "both copies: an entry is not as the rules have it");
        let mixed = |disk: &mut Disk| {
            disk.head[len] = 0;
            disk.tail[0] = 1;
        };
        assert_eq!(
            told(block, mixed, false),
            "primary copy: no GPT signature; backup copy: the entries' CRC is wrong"
        );
        let swapped = |disk: &mut Disk| {
            disk.head[len] = 0;
            disk.tail[ENTRIES_LEN + 72] = 2;
        };
        let said = told(block, swapped, true);
        let at = 100 - block.tail_blocks();
        assert!(said.ends_with(&format!("its entries' block is 2, where this library has {at}")), "{said}");
    }

    #[test]
    fn each_fault_is_named() {
        each_fault(BlockSize::Bytes512, 34, 66);
        each_fault(BlockSize::Bytes4096, 6, 94);
    }
}
