//! Samples S1 to S5 and S9, one line a call:
//!
//! ```text
//! disk N format                           accepted; "refused" and the number instead, here and below
//! disk N state STATE
//! disk N header BLOCK other BLOCK usable FIRST LAST entries BLOCK
//! disk N add SIZE slot SLOT first BLOCK
//! disk N delete SLOT
//! disk N resize SLOT SIZE
//! disk N free COUNT longest COUNT
//! disk N granted COUNT back COUNT         sums over the calls since formatting
//! disk N crc32 HEAD TAIL                  of all bytes of head and tail
//! ```

use second::{NewPartition, RULES};
use std::io::{self, Write};

const BLOCK: u64 = 512;
const HEAD_LEN: usize = 17_408;
const TAIL_LEN: usize = 16_896;
/// Where the two header blocks begin in head and tail.
const HEADER_IN_HEAD: usize = 512;
const HEADER_IN_TAIL: usize = 16_384;

const DISK_GUID: [u8; 16] = [0, 1, 2, 3, 4, 5, 6, 7, 8, 9, 10, 11, 12, 13, 14, 15];
/// Type linux (G4), as stored.
const KIND: [u8; 16] =
    [0xAF, 0x3D, 0xC6, 0x0F, 0x83, 0x84, 0x72, 0x47, 0x8E, 0x79, 0x3D, 0x69, 0xD8, 0x47, 0x7D, 0xE4];

/// Blocks of the largest disk.
const LARGEST: u64 = 1 << 32;

pub fn print(out: &mut impl Write) -> io::Result<()> {
    Disk::new(67).format(out)?;
    smallest(out)?;
    hundred(out)?;
    largest_size(out, 100)?;
    largest_size(out, LARGEST)
}

/// S2.
fn smallest(out: &mut impl Write) -> io::Result<()> {
    let mut disk = Disk::new(68);
    disk.format(out)?;
    disk.headers(out)?;
    disk.add(out, 1)?;
    disk.add(out, 1)?;
    disk.close(out)
}

/// S3 to S5.
fn hundred(out: &mut impl Write) -> io::Result<()> {
    let mut disk = Disk::new(100);
    disk.format(out)?;
    disk.headers(out)?;
    disk.add(out, 10)?;
    disk.add(out, 5)?;
    disk.delete(out, 1)?;
    disk.add(out, 11)?;
    disk.add(out, 10)?;
    disk.close(out)?;
    disk.resize(out, 1, 19)?;
    disk.resize(out, 1, 18)?;
    disk.close(out)
}

/// S9.
fn largest_size(out: &mut impl Write, n: u64) -> io::Result<()> {
    let mut disk = Disk::new(n);
    disk.format(out)?;
    disk.add(out, u64::MAX)?;
    disk.add(out, n - 67)?;
    disk.close(out)
}

/// Head and tail of a disk, and the sums over its calls.
struct Disk {
    head: Vec<u8>,
    tail: Vec<u8>,
    n: u64,
    adds: u8,
    sizes: [u64; 129],
    granted: u64,
    back: u64,
}

impl Disk {
    fn new(n: u64) -> Disk {
        let (head, tail) = (vec![0; HEAD_LEN], vec![0; TAIL_LEN]);
        Disk { head, tail, n, adds: 0, sizes: [0; 129], granted: 0, back: 0 }
    }

    fn format(&mut self, out: &mut impl Write) -> io::Result<()> {
        let number = second::gpt_format(&RULES, &mut self.head, &mut self.tail, self.n, BLOCK, &DISK_GUID);
        self.line(out, "format", number, "")
    }

    /// Each add has another unique GUID and another name.
    fn add(&mut self, out: &mut impl Write, size: u64) -> io::Result<()> {
        self.adds += 1;
        let mut name = [0; 36];
        name[0] = u16::from(b'A' + self.adds - 1);
        let (kind, unique, name) = (&KIND, &[self.adds; 16], &name);
        let new = NewPartition { kind, unique, size, alignment: 1, attributes: 0, rule: 0, name };
        let (mut slot, mut first) = (0, 0);
        let (head, tail) = (&mut self.head, &mut self.tail);
        let number = second::gpt_add(&RULES, head, tail, self.n, BLOCK, &new, &mut slot, &mut first);
        if number == 0 {
            self.granted += size;
            self.sizes[slot as usize] = size;
        }
        self.line(out, &format!("add {size}"), number, &format!(" slot {slot} first {first}"))
    }

    fn delete(&mut self, out: &mut impl Write, slot: u64) -> io::Result<()> {
        let number = second::gpt_delete(&RULES, &mut self.head, &mut self.tail, self.n, BLOCK, slot);
        if number == 0 {
            self.back += self.sizes[slot as usize];
        }
        self.line(out, &format!("delete {slot}"), number, "")
    }

    fn resize(&mut self, out: &mut impl Write, slot: u64, size: u64) -> io::Result<()> {
        let number = second::gpt_resize(&RULES, &mut self.head, &mut self.tail, self.n, BLOCK, slot, size);
        if number == 0 {
            let before = self.sizes[slot as usize];
            self.granted += size.saturating_sub(before);
            self.back += before.saturating_sub(size);
            self.sizes[slot as usize] = size;
        }
        self.line(out, &format!("resize {slot} {size}"), number, "")
    }

    /// State, free counts, sums and bytes.
    fn close(&self, out: &mut impl Write) -> io::Result<()> {
        let mut state = 0;
        let number = second::gpt_read(&RULES, &self.head, &self.tail, self.n, BLOCK, &mut state);
        self.line(out, "state", number, &format!(" {state}"))?;
        let (mut free, mut longest) = (0, 0);
        let number = second::gpt_free(&RULES, &self.head, &self.tail, self.n, BLOCK, &mut free, &mut longest);
        self.line(out, "free", number, &format!(" {free} longest {longest}"))?;
        writeln!(out, "disk {} granted {} back {}", self.n, self.granted, self.back)?;
        let crc = |bytes| second::crc32(&RULES, bytes);
        writeln!(out, "disk {} crc32 {:08X} {:08X}", self.n, crc(&self.head), crc(&self.tail))
    }

    fn headers(&self, out: &mut impl Write) -> io::Result<()> {
        for header in [&self.head[HEADER_IN_HEAD..], &self.tail[HEADER_IN_TAIL..]] {
            let number = |at: usize| u64::from_le_bytes(header[at..at + 8].try_into().expect("8 bytes"));
            let (own, other, first, last, entries) =
                (number(24), number(32), number(40), number(48), number(72));
            let n = self.n;
            writeln!(out, "disk {n} header {own} other {other} usable {first} {last} entries {entries}")?;
        }
        Ok(())
    }

    fn line(&self, out: &mut impl Write, call: &str, number: u32, accepted: &str) -> io::Result<()> {
        match number {
            0 => writeln!(out, "disk {} {call}{accepted}", self.n),
            _ => writeln!(out, "disk {} {call} refused {number}", self.n),
        }
    }
}
