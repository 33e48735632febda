//! A disk by a script: a formatted one, or zeros, and changes to it; the CRCs are made right again or not.
//! The library makes it, being the faster one; were it wrong there, the two would differ on the disk.

use crate::input::{number, Input};
use testkit::disk::{Disk, Shape, ENTRIES_LEN, HEADER_LEN, SHAPES};
use usigrambal::crc32;
use usigrambal::raw::gpt_format;

const ENTRY_LEN: usize = 128;
/// Where the attributes and the name of an entry begin, and the bytes of a name.
const ATTRIBUTES_AT: usize = 48;
const NAME_AT: usize = 56;
const NAME_LEN: usize = 72;

/// The byte that names the block size: any number follows, or else its lowest bit chooses one of the two, by which the
/// disk is made; with the highest bit the call is told the other one.
pub const ANY_BLOCK_SIZE: u8 = 0xFF;
pub const OTHER_BLOCK_SIZE: u8 = 0x80;

/// Bits of the script's first byte.
const HEAD_UNSEALED: u8 = 1;
const TAIL_UNSEALED: u8 = 2;
const ZEROS: u8 = 4;

const PUT: u8 = 0;
const RUN: u8 = 2;
pub const PLACE: u8 = 1;
pub const MANY: u8 = 6;
pub const CLEAR_TYPE: u8 = 8;
pub const FLIP: u8 = 9;
pub const NAME: u8 = 10;
pub const ATTRIBUTES: u8 = 11;

/// The slot that stands for all of them where types are cleared, and for the call where a name is taken from it.
pub const ALL_SLOTS: u8 = 128;
pub const OF_CALL: u8 = 128;

/// Where a copy has its header and its entries.
#[derive(Clone, Copy)]
enum Side {
    Head,
    Tail,
}

impl Side {
    fn of(byte: u8) -> Side {
        if byte & 1 == 0 {
            Side::Head
        } else {
            Side::Tail
        }
    }

    fn header_at(self, shape: Shape) -> usize {
        match self {
            Side::Head => shape.header_in_head(),
            Side::Tail => shape.header_in_tail(),
        }
    }

    fn entries_at(self, shape: Shape) -> usize {
        match self {
            Side::Head => shape.entries_in_head(),
            Side::Tail => 0,
        }
    }
}

fn side(disk: &mut Disk, side: Side) -> &mut [u8] {
    match side {
        Side::Head => &mut disk.head,
        Side::Tail => &mut disk.tail,
    }
}

/// Number and size of blocks, both lengths, and the rest of the input, which [`script`] reads.
pub struct Lengths {
    pub n: u64,
    /// As the call is told it.
    pub block: u64,
    /// What the disk is made by.
    pub shape: Shape,
    head: usize,
    tail: usize,
}

pub fn lengths(input: &mut Input) -> Lengths {
    let n = input.number(1 << 32);
    let (block, shape) = block_size(input);
    Lengths { n, block, shape, head: input.length(shape.head_len), tail: input.length(shape.tail_len) }
}

fn block_size(input: &mut Input) -> (u64, Shape) {
    let tag = input.byte();
    let [shape, other] = if tag & 1 == 0 { SHAPES } else { [SHAPES[1], SHAPES[0]] };
    match tag {
        ANY_BLOCK_SIZE => (input.number(4096), shape),
        OTHER_BLOCK_SIZE.. => (other.block, shape),
        _ => (shape.block, shape),
    }
}

/// Head and tail, all of one byte.
pub fn filled(lengths: &Lengths, byte: u8) -> [Vec<u8>; 2] {
    [lengths.head, lengths.tail].map(|len| vec![byte; len])
}

/// Head and tail after all steps of the script; `name` is what the call gives.
pub fn script(lengths: &Lengths, name: &[u8], input: &mut Input) -> [Vec<u8>; 2] {
    let flags = input.byte();
    let shape = lengths.shape;
    let mut disk = shape.filled(lengths.n, 0);
    if flags & ZEROS == 0 {
        let n = disk.n.clamp(shape.least_blocks(), 1 << 32);
        gpt_format(&mut disk.head, &mut disk.tail, n, disk.block, &[0xD1; 16]);
    }
    while !input.is_empty() {
        step(&mut disk, name, input);
    }
    if flags & HEAD_UNSEALED == 0 {
        seal(&mut disk, Side::Head);
    }
    if flags & TAIL_UNSEALED == 0 {
        seal(&mut disk, Side::Tail);
    }
    disk.head.resize(lengths.head, 0);
    disk.tail.resize(lengths.tail, 0);
    [disk.head, disk.tail]
}

fn step(disk: &mut Disk, name: &[u8], input: &mut Input) {
    match input.byte() % 12 {
        PUT => {
            let (which, at, len) =
                (Side::of(input.byte()), input.number(0) as usize, usize::from(input.byte()));
            put(side(disk, which), at, input.bytes(len));
        }
        PLACE => place(disk, input),
        RUN => {
            let (which, at) = (Side::of(input.byte()), input.number(0) as usize);
            let (len, byte) = (input.number(0) as usize, input.byte());
            put(side(disk, which), at, &vec![byte; len.min(ENTRIES_LEN)]);
        }
        3 => seal(disk, Side::of(input.byte())),
        4 => header_number(disk, input),
        5 => entry_number(disk, input),
        MANY => many(disk, input),
        7 => copy_entry(disk, input),
        CLEAR_TYPE => clear_type(disk, input),
        NAME => name_entry(disk, name, input),
        ATTRIBUTES => attribute_entry(disk, input),
        _ => {
            let (which, at, bit) = (Side::of(input.byte()), input.number(0) as usize, input.byte() % 8);
            if let Some(byte) = side(disk, which).get_mut(at) {
                *byte ^= 1 << bit;
            }
        }
    }
}

/// An entry in both copies, or in one.
fn place(disk: &mut Disk, input: &mut Input) {
    let (slot, sides) = (usize::from(input.byte() & 127), input.byte());
    let (first, size) = (input.number(disk.n), input.number(disk.n));
    let last = first.wrapping_add(size).wrapping_sub(1);
    let (kind, unique, name) = (input.byte(), input.byte(), input.byte());
    let mut entry = [&[kind; 16], &[unique; 16], &first.to_le_bytes()[..], &last.to_le_bytes()].concat();
    entry.resize(ENTRY_LEN, 0);
    entry[NAME_AT + usize::from(name) % NAME_LEN] = name / NAME_LEN as u8;
    sides_of(sides).iter().for_each(|which| put_entry(disk, *which, slot, &entry));
}

/// Both copies, or one.
fn sides_of(byte: u8) -> &'static [Side] {
    match byte & 3 {
        1 => &[Side::Tail],
        2 => &[Side::Head],
        _ => &[Side::Head, Side::Tail],
    }
}

/// The type of an entry, or of all, in both copies or in one: another tool deletes so.
fn clear_type(disk: &mut Disk, input: &mut Input) {
    let (slot, sides) = (input.byte(), input.byte());
    let slots = if slot < ALL_SLOTS { slot..slot + 1 } else { 0..ALL_SLOTS };
    for slot in slots {
        sides_of(sides).iter().for_each(|which| put_entry(disk, *which, usize::from(slot), &[0; 16]));
    }
}

/// The name of an entry, in both copies or in one: that of another entry, or the call's, as it is or but for one byte.
fn name_entry(disk: &mut Disk, call: &[u8], input: &mut Input) {
    let (slot, sides, from) = (usize::from(input.byte() & 127), input.byte(), input.byte());
    let mut name = match from {
        OF_CALL.. => call.to_vec(),
        _ => {
            let at = Side::Head.entries_at(disk.shape()) + usize::from(from) * ENTRY_LEN + NAME_AT;
            disk.head[at..at + NAME_LEN].to_vec()
        }
    };
    name.resize(NAME_LEN, 0);
    let (at, change) = (usize::from(input.byte()) % NAME_LEN, input.byte());
    name[at] ^= change;
    sides_of(sides).iter().for_each(|which| put_in_entry(disk, *which, slot, NAME_AT, &name));
}

/// The attributes of an entry, in both copies or in one.
fn attribute_entry(disk: &mut Disk, input: &mut Input) {
    let (slot, sides) = (usize::from(input.byte() & 127), input.byte());
    let bits = input.attributes().to_le_bytes();
    sides_of(sides).iter().for_each(|which| put_in_entry(disk, *which, slot, ATTRIBUTES_AT, &bits));
}

/// The first bytes of an entry, or all.
fn put_entry(disk: &mut Disk, which: Side, slot: usize, entry: &[u8]) {
    put_in_entry(disk, which, slot, 0, entry);
}

fn put_in_entry(disk: &mut Disk, which: Side, slot: usize, at: usize, bytes: &[u8]) {
    let at = which.entries_at(disk.shape()) + slot * ENTRY_LEN + at;
    put(side(disk, which), at, bytes);
}

/// Partitions of one block each in the first slots, with a free block after some.
fn many(disk: &mut Disk, input: &mut Input) {
    let (count, every) = (usize::from(input.byte()).min(128), u64::from(input.byte()));
    let mut first = disk.shape().first_usable;
    for slot in 0..count {
        let numbers = [first.to_le_bytes(), first.to_le_bytes()].concat();
        let mut entry = [&[7; 16], &[0xEE; 15][..], &[slot as u8], &numbers].concat();
        entry.resize(ENTRY_LEN, 0);
        put_entry(disk, Side::Head, slot, &entry);
        put_entry(disk, Side::Tail, slot, &entry);
        first += if every > 0 && slot as u64 % every == 0 { 2 } else { 1 };
    }
}

/// A number in the header of a copy, at any field.
fn header_number(disk: &mut Disk, input: &mut Input) {
    const FIELDS: [(usize, usize); 13] = [
        (0, 8),
        (8, 4),
        (12, 4),
        (16, 4),
        (20, 4),
        (24, 8),
        (32, 8),
        (40, 8),
        (48, 8),
        (56, 8),
        (72, 8),
        (80, 4),
        (84, 4),
    ];
    let (which, field) = (Side::of(input.byte()), usize::from(input.byte()) % FIELDS.len());
    let (at, len) = FIELDS[field];
    let value = input.number(disk.n).to_le_bytes();
    let at = which.header_at(disk.shape()) + at;
    put(side(disk, which), at, &value[..len]);
}

/// First or last block of an entry of a copy.
fn entry_number(disk: &mut Disk, input: &mut Input) {
    let (which, slot) = (Side::of(input.byte()), usize::from(input.byte() & 127));
    let at = 32 + 8 * usize::from(input.byte() % 3);
    let value = input.number(disk.n).to_le_bytes();
    let at = which.entries_at(disk.shape()) + slot * ENTRY_LEN + at;
    put(side(disk, which), at, &value);
}

/// The bytes of one slot into another.
fn copy_entry(disk: &mut Disk, input: &mut Input) {
    let which = Side::of(input.byte());
    let (from, to) = (usize::from(input.byte() & 127), usize::from(input.byte() & 127));
    let (at, buffer) = (which.entries_at(disk.shape()), side(disk, which));
    buffer.copy_within(at + from * ENTRY_LEN..at + (from + 1) * ENTRY_LEN, at + to * ENTRY_LEN);
}

/// Makes both CRCs of a copy right.
fn seal(disk: &mut Disk, which: Side) {
    let (header_at, entries_at) = (which.header_at(disk.shape()), which.entries_at(disk.shape()));
    let buffer = side(disk, which);
    let entries_crc = crc32(&buffer[entries_at..entries_at + ENTRIES_LEN]);
    let header = &mut buffer[header_at..header_at + HEADER_LEN];
    header[88..92].copy_from_slice(&entries_crc.to_le_bytes());
    header[16..20].fill(0);
    let header_crc = crc32(header);
    header[16..20].copy_from_slice(&header_crc.to_le_bytes());
}

/// Writes what fits.
pub fn put(buffer: &mut [u8], at: usize, bytes: &[u8]) {
    buffer.iter_mut().skip(at).zip(bytes).for_each(|(to, from)| *to = *from);
}

/// The first bytes of an input for a disk, before the call's own.
pub fn encoded_lengths(disk: &Disk) -> Vec<u8> {
    let tag = u8::from(disk.block == SHAPES[1].block);
    [number(disk.n), vec![tag, 0, 0]].concat()
}

/// The script that makes this disk, byte for byte.
pub fn encoded(disk: &Disk) -> Vec<u8> {
    let mut script = vec![ZEROS | HEAD_UNSEALED | TAIL_UNSEALED];
    for (which, buffer) in [(0, &disk.head), (1, &disk.tail)] {
        script.extend(encoded_runs(buffer, 0, |at, len| [vec![PUT, which], number(at), vec![len]].concat()));
    }
    script
}

/// The pieces of 32 bytes that are not all `fill`, each after its beginning.
pub fn encoded_runs(buffer: &[u8], fill: u8, beginning: impl Fn(u64, u8) -> Vec<u8>) -> Vec<u8> {
    let mut runs = Vec::new();
    for (piece, at) in buffer.chunks(32).zip((0..).step_by(32)) {
        if piece.iter().any(|byte| *byte != fill) {
            runs.extend(beginning(at, piece.len() as u8));
            runs.extend(piece);
        }
    }
    runs
}
