use crate::device::Loop;
use std::fs::{self, File, OpenOptions};
use std::io::{self, Read, Seek, SeekFrom, Write};
use std::path::{Path, PathBuf};
use std::sync::atomic::{AtomicU32, Ordering};

/// The bytes of all entries, of one, and of a header.
pub const ENTRIES_LEN: usize = 16_384;
pub const ENTRY_LEN: usize = 128;
pub const HEADER_LEN: usize = 92;

/// What the block size decides.
#[derive(Clone, Copy, Debug, PartialEq, Eq)]
pub struct Shape {
    pub block: u64,
    pub head_len: usize,
    pub tail_len: usize,
    /// So many blocks stand before the first usable one, and from the last usable one on.
    pub first_usable: u64,
}

pub const SHAPES: [Shape; 2] = [
    Shape { block: 512, head_len: 17_408, tail_len: 16_896, first_usable: 34 },
    Shape { block: 4096, head_len: 24_576, tail_len: 20_480, first_usable: 6 },
];

impl Shape {
    pub fn of(block: u64) -> Shape {
        let shape = SHAPES.into_iter().find(|shape| shape.block == block);
        shape.unwrap_or_else(|| panic!("no disk has blocks of {block} bytes"))
    }

    /// A disk of `n` blocks, all of one byte.
    pub fn filled(self, n: u64, byte: u8) -> Disk {
        Disk { head: vec![byte; self.head_len], tail: vec![byte; self.tail_len], n, block: self.block }
    }

    pub fn least_blocks(self) -> u64 {
        2 * self.first_usable
    }

    /// How many blocks of a disk are usable.
    pub fn usable(self, n: u64) -> u64 {
        n - 2 * self.first_usable + 1
    }

    /// Where header and entries stand in the head, and the header in the tail, whose entries stand first.
    pub fn header_in_head(self) -> usize {
        self.block as usize
    }

    pub fn entries_in_head(self) -> usize {
        2 * self.block as usize
    }

    pub fn header_in_tail(self) -> usize {
        ENTRIES_LEN
    }

    /// The bytes of a header's block behind the header.
    pub fn header_tail_len(self) -> usize {
        self.block as usize - HEADER_LEN
    }

    fn tail_at(self, n: u64) -> u64 {
        n * self.block - self.tail_len as u64
    }
}

/// The blocks of a disk that hold its table.
#[derive(Clone, PartialEq, Eq)]
pub struct Disk {
    pub head: Vec<u8>,
    pub tail: Vec<u8>,
    pub n: u64,
    /// The bytes of a block.
    pub block: u64,
}

/// A sparse file, removed when it is dropped.
pub struct Scratch {
    pub path: PathBuf,
}

impl Scratch {
    pub fn new() -> Scratch {
        static MADE: AtomicU32 = AtomicU32::new(0);
        // sfdisk puts a letter between a name that ends in a digit and the slot.
        let name = format!("usigrambal-{}-{}.img", std::process::id(), MADE.fetch_add(1, Ordering::Relaxed));
        Scratch { path: std::env::temp_dir().join(name) }
    }
}

impl Default for Scratch {
    fn default() -> Scratch {
        Scratch::new()
    }
}

impl Drop for Scratch {
    fn drop(&mut self) {
        let _ = fs::remove_file(&self.path);
    }
}

/// A disk as tools are given it: a file, which they take for one with blocks of 512 bytes, or else a device over one.
pub struct Image {
    pub path: PathBuf,
    // Let go in this order.
    _device: Option<Loop>,
    _file: Scratch,
}

impl Disk {
    pub fn shape(&self) -> Shape {
        Shape::of(self.block)
    }

    /// Reads head and tail of a file or device.
    pub fn read(path: &Path, block: u64) -> io::Result<Disk> {
        let mut file = File::open(path)?;
        let n = file.seek(SeekFrom::End(0))? / block;
        let mut disk = Shape::of(block).filled(n, 0);
        file.rewind()?;
        file.read_exact(&mut disk.head)?;
        file.seek(SeekFrom::Start(disk.shape().tail_at(n)))?;
        file.read_exact(&mut disk.tail)?;
        Ok(disk)
    }

    /// Writes a file that is zero between head and tail.
    pub fn write(&self, path: &Path) -> io::Result<()> {
        let mut file = OpenOptions::new().write(true).create(true).truncate(true).open(path)?;
        file.set_len(self.n * self.block)?;
        file.write_all(&self.head)?;
        file.seek(SeekFrom::Start(self.shape().tail_at(self.n)))?;
        file.write_all(&self.tail)
    }

    /// The bytes of a slot, in the head and in the tail.
    pub fn entry(&mut self, slot: u64) -> [&mut [u8]; 2] {
        let at = (slot as usize - 1) * ENTRY_LEN;
        let in_head = self.shape().entries_in_head() + at;
        [&mut self.head[in_head..in_head + ENTRY_LEN], &mut self.tail[at..at + ENTRY_LEN]]
    }

    /// Makes the CRCs of each copy those of its own entries and header.
    pub fn set_crcs(&mut self, crc32: impl Fn(&[u8]) -> u32) {
        let shape = self.shape();
        let (before, in_head) = self.head.split_at_mut(shape.entries_in_head());
        let (in_tail, behind) = self.tail.split_at_mut(shape.header_in_tail());
        for (header, entries) in [(&mut before[shape.header_in_head()..], in_head), (behind, in_tail)] {
            header[88..92].copy_from_slice(&crc32(entries).to_le_bytes());
            header[16..20].fill(0);
            let sum = crc32(&header[..HEADER_LEN]);
            header[16..20].copy_from_slice(&sum.to_le_bytes());
        }
    }

    /// The first byte that another disk has otherwise.
    pub fn difference(&self, other: &Disk) -> Option<String> {
        let differs = |a: &[u8], b: &[u8]| a.iter().zip(b).position(|(x, y)| x != y);
        let in_head = differs(&self.head, &other.head).map(|at| format!("head {at:04X}"));
        in_head.or_else(|| differs(&self.tail, &other.tail).map(|at| format!("tail {at:04X}")))
    }

    /// An image of the disk, of its own.
    pub fn image(&self) -> Image {
        let file = Scratch::new();
        self.write(&file.path).unwrap_or_else(|error| panic!("{}: {error}", file.path.display()));
        let device = (self.block != 512).then(|| Loop::new(&file.path, self.block));
        let path = device.as_ref().map_or(&file.path, |device| &device.path).clone();
        Image { path, _device: device, _file: file }
    }
}

#[cfg(test)]
mod tests {
    use super::*;

    #[test]
    fn a_disk_is_read_as_it_is_written() {
        for shape in SHAPES {
            let mut disk = shape.filled(100, 0);
            (disk.head[shape.head_len - 1], disk.tail[0]) = (7, 9);
            let scratch = Scratch::new();
            disk.write(&scratch.path).unwrap();
            assert!(Disk::read(&scratch.path, shape.block).unwrap() == disk);
            disk.tail[shape.tail_len - 1] = 1;
            let last = format!("tail {:04X}", shape.tail_len - 1);
            assert_eq!(Disk::read(&scratch.path, shape.block).unwrap().difference(&disk), Some(last));
        }
    }

    #[test]
    fn the_numbers_of_a_shape_agree() {
        for shape in SHAPES {
            assert_eq!(shape.head_len as u64, shape.first_usable * shape.block);
            assert_eq!(shape.tail_len as u64, (shape.first_usable - 1) * shape.block);
            assert_eq!(shape.entries_in_head() + ENTRIES_LEN, shape.head_len);
            assert_eq!(shape.usable(shape.least_blocks()), 1);
        }
    }
}
