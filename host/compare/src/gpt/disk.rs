use super::call::{Call, GUID_LEN};
use super::{attributes, bits, name};
use crate::number::Answers;
use crate::run::{Buffer, Cell, Difference, Lent, Outcome, Run};
use second::RULES;
use testkit::disk::{Shape, ENTRIES_LEN, HEADER_LEN};
use testkit::random::Random;

pub const SLOTS: usize = 128;
pub const ENTRY_LEN: usize = 128;
/// Where the attributes and the name of an entry begin.
const ATTRIBUTES_AT: usize = 48;
pub const NAME_AT: usize = 56;

/// Which copy; where its header block and its entries begin in its buffer.
#[derive(Clone, Copy, Debug, PartialEq, Eq)]
pub enum Side {
    Head,
    Tail,
}

pub const SIDES: [Side; 2] = [Side::Head, Side::Tail];

impl Side {
    fn header_at(self, shape: Shape) -> usize {
        match self {
            Side::Head => shape.header_in_head(),
            Side::Tail => shape.header_in_tail(),
        }
    }

    fn entries_at(self, shape: Shape) -> usize {
        match self {
            Side::Head => shape.entries_in_head(),
            Side::Tail => 0,
        }
    }
}

/// A disk that both sides are lent, each its own copy.
#[derive(Clone)]
pub struct Disk {
    pub head: Lent,
    pub tail: Lent,
    pub n: u64,
    /// The bytes of a block that the call is told; those of `shape` unless that is wrong.
    pub block: u64,
    /// What head and tail were made by.
    pub shape: Shape,
}

/// What the library answered.
#[derive(Clone, Copy, Debug)]
pub struct Reply {
    pub number: u32,
    pub values: [u64; 2],
}

impl Disk {
    /// Random bytes.
    pub fn random(shape: Shape, n: u64, random: &mut Random) -> Disk {
        let (head, tail) = (Lent::of_length(shape.head_len, random), Lent::of_length(shape.tail_len, random));
        Disk { head, tail, n, block: shape.block, shape }
    }

    /// An empty table, by the right rules.
    pub fn formatted(shape: Shape, n: u64, random: &mut Random) -> Disk {
        let mut disk = Disk::random(shape, n, random);
        let guid = random.bytes(GUID_LEN);
        let (head, tail) = (disk.head.bytes_mut(), disk.tail.bytes_mut());
        let number = second::gpt_format(&RULES, head, tail, n, shape.block, &guid);
        assert_eq!(number, 0, "a disk of {n} blocks is formatted");
        disk
    }

    /// Makes the call on both sides, compares all that it was lent, and keeps what it left.
    pub fn call(&mut self, run: &mut Run, call: &Call) -> Result<Reply, Difference> {
        let mut ours = call.loan(self, &mut run.random);
        let mut theirs = ours.clone();
        let library = call.by_library(&mut ours);
        let second = call.by_second(run.rules, &mut theirs);
        self.note(run, call, library);
        let names = [ours.name.to_bytes(), theirs.name.to_bytes()];
        let buffers = [
            Lent::pair("head", &ours.head, &theirs.head),
            Lent::pair("tail", &ours.tail, &theirs.tail),
            Lent::pair("type, guid or text", &ours.bytes[0], &theirs.bytes[0]),
            Lent::pair("unique", &ours.bytes[1], &theirs.bytes[1]),
            Buffer { name: "name", start: 4, library: &names[0], second: &names[1] },
        ];
        let values = [ours.answers[0].value(), ours.answers[1].value()];
        let answers = (Answers(library, ours.answers.clone()), Answers(second, theirs.answers.clone()));
        let arguments = || format!("N {}, blocks of {} bytes, {call}", self.n, self.block);
        run.compare(call.name(self.block), arguments, answers, &buffers)?;
        if let (Call::Check { .. }, 0) = (call, library) {
            run.reach(call.name(self.block), attributes::answered(values[0]));
        }
        (self.head, self.tail) = (ours.head, ours.tail);
        Ok(Reply { number: library, values })
    }

    /// Reads, compared, and then makes the call in the state found.
    pub fn call_in_state(&mut self, run: &mut Run, call: &Call) -> Result<Reply, Difference> {
        let read = self.call(run, &Call::Read)?;
        self.call_after(run, read, call)
    }

    /// Makes the call in the state that `read` told.
    pub fn call_after(&mut self, run: &mut Run, read: Reply, call: &Call) -> Result<Reply, Difference> {
        let reply = self.call(run, call)?;
        if read.number == 0 {
            run.reach(call.name(self.block), Cell::State(read.values[0]));
        }
        Ok(reply)
    }

    /// Makes the call on a copy of the disk, and counts its answer under what it met.
    pub fn meeting(&self, run: &mut Run, call: &Call, what: &'static str) -> Outcome {
        let cell = match self.clone().call(run, call)?.number {
            0 => Cell::On(what),
            number => Cell::By(number, what),
        };
        run.reach(call.name(self.block), cell);
        Ok(())
    }

    fn note(&self, run: &mut Run, call: &Call, answer: u32) {
        run.reach(call.name(self.block), Cell::Answer(answer));
        if let ([buffer], 1) = (&call.wrong_lengths(self)[..], answer) {
            run.reach(call.name(self.block), Cell::By(1, buffer));
        }
    }

    /// The block after the last usable one.
    pub fn end(&self) -> u64 {
        (self.n + 1).saturating_sub(self.shape.first_usable)
    }

    pub fn side(&mut self, side: Side) -> &mut [u8] {
        match side {
            Side::Head => self.head.bytes_mut(),
            Side::Tail => self.tail.bytes_mut(),
        }
    }

    pub fn block_0(&mut self) -> &mut [u8] {
        let len = self.shape.block as usize;
        &mut self.head.bytes_mut()[..len]
    }

    pub fn header(&mut self, side: Side) -> &mut [u8] {
        let at = side.header_at(self.shape);
        &mut self.side(side)[at..at + HEADER_LEN]
    }

    pub fn header_tail(&mut self, side: Side) -> &mut [u8] {
        let (at, len) = (side.header_at(self.shape) + HEADER_LEN, self.shape.header_tail_len());
        &mut self.side(side)[at..at + len]
    }

    pub fn entries(&mut self, side: Side) -> &mut [u8] {
        let at = side.entries_at(self.shape);
        &mut self.side(side)[at..at + ENTRIES_LEN]
    }

    /// The entry at `index`, which is one less than its slot.
    pub fn entry(&mut self, side: Side, index: usize) -> &mut [u8] {
        &mut self.entries(side)[index * ENTRY_LEN..(index + 1) * ENTRY_LEN]
    }

    /// Makes the copy's two CRCs right again.
    pub fn seal(&mut self, side: Side) {
        let entries_crc = usigrambal::crc32(self.entries(side));
        let header = self.header(side);
        header[88..92].copy_from_slice(&entries_crc.to_le_bytes());
        header[16..20].fill(0);
        let header_crc = usigrambal::crc32(header);
        header[16..20].copy_from_slice(&header_crc.to_le_bytes());
    }

    pub fn seal_both(&mut self) {
        SIDES.into_iter().for_each(|side| self.seal(side));
    }

    /// Puts a partition into both copies, whose CRCs are then still those of before.
    pub fn place(&mut self, index: usize, first: u64, last: u64, random: &mut Random) {
        let mut entry = random.bytes(ENTRY_LEN);
        entry[32..40].copy_from_slice(&first.to_le_bytes());
        entry[40..48].copy_from_slice(&last.to_le_bytes());
        let kind = random.below(4);
        if kind < 2 {
            entry[ATTRIBUTES_AT..].fill(0);
        }
        SIDES.into_iter().for_each(|side| self.entry(side, index).copy_from_slice(&entry));
        if kind > 0 {
            self.set_attributes(&SIDES, index, bits::any(random));
        }
        match kind {
            1 => self.set_name(index, &name::good(random)),
            2 => self.set_name(index, &name::bad(random)),
            _ => {}
        }
    }

    pub fn name(&mut self, side: Side, index: usize) -> Vec<u16> {
        let bytes = &self.entry(side, index)[NAME_AT..];
        bytes.chunks(2).map(|unit| u16::from_le_bytes([unit[0], unit[1]])).collect()
    }

    /// Gives an entry a name in both copies, whose CRCs are then still those of before.
    pub fn set_name(&mut self, index: usize, name: &[u16]) {
        let bytes: Vec<u8> = name.iter().flat_map(|unit| unit.to_le_bytes()).collect();
        SIDES.into_iter().for_each(|side| self.entry(side, index)[NAME_AT..].copy_from_slice(&bytes));
    }

    pub fn attributes(&mut self, side: Side, index: usize) -> u64 {
        let bytes = &self.entry(side, index)[ATTRIBUTES_AT..NAME_AT];
        u64::from_le_bytes(bytes.try_into().expect("8 bytes"))
    }

    /// Gives an entry attributes in each of the copies, whose CRCs are then still those of before.
    pub fn set_attributes(&mut self, sides: &[Side], index: usize, attributes: u64) {
        let bytes = attributes.to_le_bytes();
        sides.iter().for_each(|side| {
            self.entry(*side, index)[ATTRIBUTES_AT..NAME_AT].copy_from_slice(&bytes);
        });
    }

    /// Makes an entry unused in each of the copies, whose CRCs are then still those of before.
    pub fn clear_type(&mut self, sides: &[Side], index: usize) {
        sides.iter().for_each(|side| self.entry(*side, index)[..GUID_LEN].fill(0));
    }

    /// Index, first and last block of each used entry of the copy.
    pub fn partitions(&mut self, side: Side) -> Vec<(usize, u64, u64)> {
        self.ranges(side, |entry| !is_zero(&entry[..GUID_LEN]))
    }

    /// The same of each stale one: unused, but not all zero.
    pub fn stale(&mut self, side: Side) -> Vec<(usize, u64, u64)> {
        self.ranges(side, |entry| is_zero(&entry[..GUID_LEN]) && !is_zero(entry))
    }

    fn ranges(&mut self, side: Side, of: impl Fn(&[u8]) -> bool) -> Vec<(usize, u64, u64)> {
        let number = |entry: &[u8], at: usize| u64::from_le_bytes(entry[at..at + 8].try_into().expect("8"));
        let slots = self.entries(side).chunks(ENTRY_LEN).enumerate();
        let chosen = slots.filter(|(_, entry)| of(entry));
        chosen.map(|(index, entry)| (index, number(entry, 32), number(entry, 40))).collect()
    }
}

fn is_zero(bytes: &[u8]) -> bool {
    bytes.iter().all(|byte| *byte == 0)
}
