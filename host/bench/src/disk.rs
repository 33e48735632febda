//! Disks for the rows of the disk calls: full tables whose free blocks lie in gaps too short for what is asked, so that
//! a search has to walk them all.

use std::hint::black_box;
use std::path::Path;
use testkit::disk::Scratch;
use usigrambal::{raw, BlockSize};

const N: u64 = 1 << 20;
pub const KIND: [u8; 16] = [0xAF; 16];
const ENTRY_LEN: usize = 128;
pub const NO_NAME: [u16; 36] = [0; 36];
/// The add that is timed: a partition that no disk has, and its size, longer than every gap but the last.
pub const NEW: u8 = 255;
const ASKED: u64 = 2;

/// A partition's name. They differ in their last unit alone, so that no two can be told apart before it.
pub fn name(partition: u8) -> [u16; 36] {
    let mut name = [u16::from(b'n'); 36];
    name[35] = 0x100 + u16::from(partition);
    name
}

#[derive(Clone)]
pub struct Disk {
    head: Vec<u8>,
    tail: Vec<u8>,
    block: BlockSize,
}

impl Disk {
    /// A disk of zeros.
    pub fn blank(block: BlockSize) -> Disk {
        Disk { head: vec![0; block.head_len()], tail: vec![0; block.tail_len()], block }
    }

    fn formatted(block: BlockSize) -> Disk {
        let mut disk = Disk::blank(block);
        assert_eq!(raw::gpt_format(&mut disk.head, &mut disk.tail, N, block.bytes(), &[1; 16]), 0);
        disk
    }

    /// A disk with so many partitions of two blocks, one free block behind each.
    pub fn with_gaps(partitions: u8, block: BlockSize) -> Disk {
        let mut disk = Disk::formatted(block);
        for partition in 1..=partitions {
            assert_eq!(disk.add(partition, 3, 1), 0);
        }
        disk.shorten(partitions);
        disk
    }

    /// A disk with so many partitions of two blocks, each at the next multiple of the alignment: no gap has a multiple.
    pub fn with_aligned(partitions: u8, alignment: u64, block: BlockSize) -> Disk {
        let mut disk = Disk::formatted(block);
        for partition in 1..=partitions {
            assert_eq!(disk.add(partition, 2, alignment), 0);
        }
        disk
    }

    /// The same, but each partition before the one of the slot before it; only slot 1 has the lowest.
    pub fn with_gaps_descending(partitions: u8, block: BlockSize) -> Disk {
        let mut disk = Disk::formatted(block);
        for partition in 2..=partitions {
            // Slot 1 takes all before the place, and gives it back.
            assert_eq!(disk.add(1, 3 * u64::from(partitions - partition + 1), 1), 0);
            assert_eq!(disk.add(partition, 3, 1), 0);
            assert_eq!(raw::gpt_delete(&mut disk.head, &mut disk.tail, N, block.bytes(), 1), 0);
        }
        assert_eq!(disk.add(1, 3, 1), 0);
        disk.shorten(partitions);
        disk
    }

    /// Takes the last of its three blocks from each partition.
    fn shorten(&mut self, partitions: u8) {
        let block = self.block.bytes();
        for slot in 1..=u64::from(partitions) {
            assert_eq!(raw::gpt_resize(&mut self.head, &mut self.tail, N, block, slot, 2), 0);
        }
    }

    /// The disk with another name of the last partition in its tail: both copies good but different.
    pub fn with_another_tail(&self) -> Disk {
        let mut other = self.clone();
        let mut name = name(128);
        name[0] = u16::from(b'm');
        assert_eq!(raw::gpt_rename(&mut other.head, &mut other.tail, N, self.block.bytes(), 128, &name), 0);
        let disk = Disk { head: self.head.clone(), ..other };
        assert_eq!(disk.read(), 2);
        disk
    }

    /// The disk with a primary header that has lost its signature: only the backup is good.
    pub fn with_a_broken_header(&self) -> Disk {
        let mut disk = self.clone();
        disk.head[self.block.bytes() as usize] ^= 1;
        assert_eq!(disk.read(), 4);
        disk
    }

    /// The disk in a file of its own, zero between head and tail.
    pub fn image(&self) -> Scratch {
        let file = Scratch::new();
        self.write_to(&file.path);
        file
    }

    pub fn write_to(&self, path: &Path) {
        self.stored().write(path).expect("the disk's file is written");
    }

    fn stored(&self) -> testkit::disk::Disk {
        testkit::disk::Disk {
            head: self.head.clone(),
            tail: self.tail.clone(),
            n: N,
            block: self.block.bytes(),
        }
    }

    /// A disk with blocks of 512 bytes, as all that are written to files.
    pub fn in_file(path: &Path) -> Disk {
        let block = BlockSize::Bytes512;
        let stored = testkit::disk::Disk::read(path, block.bytes()).expect("the disk's file");
        assert_eq!(stored.n, N);
        Disk { head: stored.head, tail: stored.tail, block }
    }

    /// The first block of each used entry.
    pub fn firsts(&self) -> Vec<u64> {
        let (mut in_tail, mut offset) = (0, 0);
        let block = self.block.bytes();
        assert_eq!(raw::gpt_table(&self.head, &self.tail, N, block, &mut in_tail, &mut offset), 0);
        let table = if in_tail == 0 { &self.head } else { &self.tail };
        let entries = table[offset as usize..].chunks_exact(ENTRY_LEN).take(128);
        let used = entries.filter(|entry| entry[..16].iter().any(|byte| *byte != 0));
        used.map(|entry| u64::from_le_bytes(entry[32..40].try_into().expect("eight bytes"))).collect()
    }

    pub fn partitions(&self) -> usize {
        self.firsts().len()
    }

    fn add(&mut self, partition: u8, size: u64, alignment: u64) -> u32 {
        self.add_named(partition, size, alignment, &name(partition))
    }

    fn add_named(&mut self, partition: u8, size: u64, alignment: u64, name: &[u16]) -> u32 {
        let (kind, unique) = (&KIND, &[partition; 16]);
        let new = raw::NewPartition { kind, unique, size, alignment, attributes: 0, rule: 0, name };
        raw::gpt_add(&mut self.head, &mut self.tail, N, self.block.bytes(), &new, &mut 0, &mut 0)
    }

    pub fn read(&self) -> u64 {
        let mut state = 0;
        assert_eq!(raw::gpt_read(&self.head, &self.tail, N, self.block.bytes(), &mut state), 0);
        state
    }

    pub fn free(&self) -> u64 {
        let (mut free, mut longest) = (0, 0);
        assert_eq!(raw::gpt_free(&self.head, &self.tail, N, self.block.bytes(), &mut free, &mut longest), 0);
        free + longest
    }

    /// By the present rule, which no partition offends, so that all are looked at.
    pub fn check(&self) -> u64 {
        let mut slot = 0;
        assert_eq!(raw::gpt_check(&self.head, &self.tail, N, self.block.bytes(), 0, &mut slot), 0);
        assert_eq!(slot, 0);
        slot
    }

    /// Adds a partition to a copy of the disk; the copy's time counts too.
    pub fn add_to(&self, copy: &mut Disk, alignment: u64, name: &[u16]) -> u32 {
        copy.head.copy_from_slice(&self.head);
        copy.tail.copy_from_slice(&self.tail);
        let refusal = copy.add_named(NEW, ASKED, alignment, name);
        assert_eq!(refusal, 0);
        refusal
    }

    /// Builds a layout string over what the disk has.
    pub fn build(&mut self, alignment: u64, text: &[u8]) -> u32 {
        let (block, text) = (self.block.bytes(), black_box(text));
        let refusal = raw::gpt_build(&mut self.head, &mut self.tail, N, block, alignment, text);
        assert_eq!(refusal, 0);
        refusal
    }
}
