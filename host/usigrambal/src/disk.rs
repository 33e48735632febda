use crate::block::{BlockSize, ENTRIES_LEN, ENTRY_LEN, GUID_IN_TAIL};
use crate::raw;
use crate::refusal::accepted;
use crate::refused::{Detail, Refused};
use crate::{AttributeRule, Guid, Name};

/// A disk of `n` blocks, by its first and its last blocks: `head` and `tail` have the lengths that the
/// block size decides, else every call is refused with 1. The caller reads and writes these blocks; the
/// calls change them in memory.
#[derive(Debug)]
pub struct Disk<'a> {
    pub head: &'a mut [u8],
    pub tail: &'a mut [u8],
    pub n: u64,
    pub block: BlockSize,
}

/// Rule D10: what reading finds.
#[derive(Clone, Copy, Debug, PartialEq, Eq)]
pub enum State {
    Same = 1,
    /// Both copies are good; the primary one is used.
    Different = 2,
    PrimaryOnly = 3,
    BackupOnly = 4,
}

/// Rule D12.
#[derive(Clone, Copy, Debug, PartialEq, Eq)]
pub struct Free {
    pub blocks: u64,
    pub longest_run: u64,
}

/// Blocks `first` to `last`.
#[derive(Clone, Copy, Debug, PartialEq, Eq)]
pub struct Run {
    pub first: u64,
    pub last: u64,
}

impl Run {
    pub fn blocks(self) -> u64 {
        self.last - self.first + 1
    }
}

/// A used entry (rule D5); `last` is the partition's last block.
#[derive(Clone, Copy, Debug, PartialEq, Eq)]
pub struct Partition {
    pub slot: u64,
    pub kind: Guid,
    pub unique: Guid,
    pub first: u64,
    pub last: u64,
    pub attributes: u64,
    pub name: Name,
}

impl Partition {
    pub fn run(&self) -> Run {
        Run { first: self.first, last: self.last }
    }
}

/// A name that more than one partition has, and their slots in order.
#[derive(Clone, Debug, PartialEq, Eq)]
pub struct SharedName {
    pub name: Name,
    pub slots: Vec<u64>,
}

impl Disk<'_> {
    pub fn state(&self) -> Result<State, Refused> {
        let mut state = 0;
        let answer = raw::gpt_read(self.head, self.tail, self.n, self.block.bytes(), &mut state);
        self.accepted(answer, &[])?;
        Ok(named_state(state))
    }

    /// The 16,384 entry bytes of the copy that reading uses, where they stand (rule D11).
    pub fn entries(&self) -> Result<&[u8], Refused> {
        let (in_tail, start) = self.table()?;
        let buffer: &[u8] = if in_tail { self.tail } else { self.head };
        Ok(&buffer[start..start + ENTRIES_LEN])
    }

    /// The disk GUID of the copy that reading uses.
    pub fn guid(&self) -> Result<Guid, Refused> {
        let (in_tail, _) = self.table()?;
        let stored =
            if in_tail { &self.tail[GUID_IN_TAIL..] } else { &self.head[self.block.guid_in_head()..] };
        Ok(Guid(stored[..16].try_into().expect("16 bytes")))
    }

    /// Whether the entries in use stand in the tail, and at which byte of it or of the head.
    fn table(&self) -> Result<(bool, usize), Refused> {
        let (mut in_tail, mut offset) = (0, 0);
        let answer =
            raw::gpt_table(self.head, self.tail, self.n, self.block.bytes(), &mut in_tail, &mut offset);
        self.accepted(answer, &[])?;
        Ok((in_tail != 0, offset as usize))
    }

    /// The blocks that partitions may have; a disk that is refused for its number of blocks has none.
    pub fn usable(&self) -> Result<Run, Refused> {
        self.table()?;
        let first = self.block.first_usable();
        Ok(Run { first, last: self.n - first })
    }

    /// The runs of free blocks, in order (rule D21).
    pub fn free_runs(&self) -> Result<Vec<Run>, Refused> {
        let mut used: Vec<Run> = self.partitions()?.iter().map(Partition::run).collect();
        let usable = self.usable()?;
        used.sort_by_key(|run| run.first);
        let starts = std::iter::once(usable.first).chain(used.iter().map(|run| run.last + 1));
        let ends = used.iter().map(|run| run.first).chain([usable.last + 1]);
        let between = starts.zip(ends).filter(|(start, end)| start < end);
        Ok(between.map(|(start, end)| Run { first: start, last: end - 1 }).collect())
    }

    /// The used entries in the order of their slots.
    pub fn partitions(&self) -> Result<Vec<Partition>, Refused> {
        Ok(self.slots()?.filter(|(entry, _)| used(entry)).map(partition).collect())
    }

    /// The unused slots that still hold bytes, in order. Another tool deleted the partition and left them; adding
    /// overwrites them all (rule f4).
    pub fn stale_slots(&self) -> Result<Vec<u64>, Refused> {
        let stale = |entry: &[u8]| !used(entry) && entry.iter().any(|byte| *byte != 0);
        Ok(self.slots()?.filter(|(entry, _)| stale(entry)).map(|(_, slot)| slot).collect())
    }

    /// The names that more than one partition has, the empty one left out, by the lowest of their slots. All 72 bytes are
    /// compared, as an add compares them (rule a1): two names that differ behind a zero have one text and are not shared.
    pub fn shared_names(&self) -> Result<Vec<SharedName>, Refused> {
        let mut held = self.partitions()?;
        held.retain(|partition| partition.name != Name::EMPTY);
        held.sort_by_key(|partition| partition.name.0);
        let alike = held.chunk_by(|a, b| a.name == b.name).filter(|alike| alike.len() > 1);
        let mut names: Vec<SharedName> = alike
            .map(|alike| SharedName {
                name: alike[0].name,
                slots: alike.iter().map(|held| held.slot).collect(),
            })
            .collect();
        names.sort_by_key(|shared| shared.slots[0]);
        Ok(names)
    }

    fn slots(&self) -> Result<impl Iterator<Item = (&[u8], u64)>, Refused> {
        Ok(self.entries()?.chunks_exact(ENTRY_LEN).zip(1..))
    }

    pub fn free(&self) -> Result<Free, Refused> {
        let (mut blocks, mut longest_run) = (0, 0);
        let answer =
            raw::gpt_free(self.head, self.tail, self.n, self.block.bytes(), &mut blocks, &mut longest_run);
        self.accepted(answer, &[])?;
        Ok(Free { blocks, longest_run })
    }

    /// The first partition whose attributes have a bit set that the rule wants zero, by its slot (rules k2, k3).
    pub fn check(&self, rule: AttributeRule) -> Result<Option<u64>, Refused> {
        let mut slot = 0;
        let answer =
            raw::gpt_check(self.head, self.tail, self.n, self.block.bytes(), rule.number(), &mut slot);
        self.accepted(answer, &[])?;
        Ok((slot != 0).then_some(slot))
    }

    pub(crate) fn accepted(&self, answer: u32, details: &[Detail]) -> Result<(), Refused> {
        let details = [&[Detail::Blocks(self.n)], details].concat();
        accepted(answer).map_err(|refused| refused.about(&details))
    }
}

pub(crate) fn named_state(number: u64) -> State {
    match number {
        1 => State::Same,
        2 => State::Different,
        3 => State::PrimaryOnly,
        4 => State::BackupOnly,
        _ => unreachable!("the library answers states 1 to 4, not {number}"),
    }
}

/// Rule D6: the type GUID alone says so.
fn used(entry: &[u8]) -> bool {
    entry[..16].iter().any(|byte| *byte != 0)
}

fn partition((entry, slot): (&[u8], u64)) -> Partition {
    let guid = |at: usize| Guid(entry[at..at + 16].try_into().expect("16 bytes"));
    let number = |at: usize| u64::from_le_bytes(entry[at..at + 8].try_into().expect("8 bytes"));
    let unit = |place: usize| u16::from_le_bytes([entry[56 + 2 * place], entry[57 + 2 * place]]);
    Partition {
        slot,
        kind: guid(0),
        unique: guid(16),
        first: number(32),
        last: number(40),
        attributes: number(48),
        name: Name(std::array::from_fn(unit)),
    }
}

#[cfg(test)]
mod tests {
    use super::*;
    use crate::{NewPartition, Placed};

    fn new_partition(size: u64, unique: u8) -> NewPartition {
        let name = Name::new(&format!("Größe {unique}")).unwrap();
        let (kind, unique) = (Guid([7; 16]), Guid([unique; 16]));
        NewPartition { kind, unique, size, alignment: 1, attributes: 5, rule: AttributeRule::Present, name }
    }

    fn words<T: std::fmt::Debug>(result: Result<T, Refused>) -> String {
        result.unwrap_err().to_string()
    }

    /// Samples S2 to S5, by the wrapper: 33 usable blocks from `start` on.
    fn small_history(block: BlockSize, n: u64, start: u64) {
        let (mut head, mut tail) = (vec![0xA5; block.head_len()], vec![0xA5; block.tail_len()]);
        let mut disk = Disk { head: &mut head, tail: &mut tail, n, block };
        assert_eq!(words(disk.state()), "10: neither GPT copy is good");
        assert_eq!(words(disk.format(Guid([0; 16]))), "3: the disk GUID is all zero");
        disk.format(Guid([1; 16])).unwrap();
        assert_eq!(disk.add(&new_partition(10, 1)), Ok(Placed { slot: 1, first: start }));
        assert_eq!(disk.add(&new_partition(5, 2)), Ok(Placed { slot: 2, first: start + 10 }));
        let check = |disk: &Disk| AttributeRule::ALL.map(|rule| disk.check(rule).unwrap());
        assert_eq!(check(&disk), [None, Some(1)]);
        disk.delete(1).unwrap();
        assert_eq!(check(&disk), [None, Some(2)]);
        assert_eq!(disk.add(&new_partition(11, 1)), Ok(Placed { slot: 1, first: start + 15 }));
        assert_eq!(disk.add(&new_partition(10, 3)), Ok(Placed { slot: 3, first: start }));
        assert_eq!(disk.free(), Ok(Free { blocks: 7, longest_run: 7 }));
        assert_eq!(disk.usable(), Ok(Run { first: start, last: start + 32 }));
        assert_eq!(disk.free_runs(), Ok(vec![Run { first: start + 26, last: start + 32 }]));
        assert_eq!(disk.guid(), Ok(Guid([1; 16])));
        assert_eq!(words(disk.resize(1, 19)), "25: no room: slot 1 cannot have 19 blocks");
        assert_eq!(words(disk.add(&new_partition(4096, 4))), "25: no room: no run of 4096 free blocks");
        assert_eq!(words(disk.delete(9)), "13: the slot is unused: slot 9");
        disk.resize(1, 18).unwrap();
        assert_eq!(disk.free(), Ok(Free { blocks: 0, longest_run: 0 }));
        assert_eq!(disk.free_runs(), Ok(Vec::new()));
        disk.rename(1, &Name::new("boot").unwrap()).unwrap();
        let partitions = disk.partitions().unwrap();
        let told: Vec<_> =
            partitions.iter().map(|p| (p.slot, p.first - start, p.last - start, p.name.to_text())).collect();
        let expected = [(1, 15, 32, "boot"), (2, 10, 14, "Größe 2"), (3, 0, 9, "Größe 3")];
        assert_eq!(told, expected.map(|(slot, first, last, name)| (slot, first, last, name.to_string())));
        assert_eq!(partitions[2].unique, Guid([3; 16]));
        assert_eq!(partitions[2].attributes, 5);
    }

    #[test]
    fn a_small_disk_of_each_block_size() {
        small_history(BlockSize::Bytes512, 100, 34);
        small_history(BlockSize::Bytes4096, 44, 6);
    }

    #[test]
    fn a_refused_add_tells_its_alignment() {
        for (block, n, first) in [(BlockSize::Bytes512, 100, 40), (BlockSize::Bytes4096, 44, 8)] {
            let (mut head, mut tail) = (vec![0; block.head_len()], vec![0; block.tail_len()]);
            let mut disk = Disk { head: &mut head, tail: &mut tail, n, block };
            disk.format(Guid([1; 16])).unwrap();
            let mut add = |alignment| disk.add(&NewPartition { alignment, ..new_partition(1, 1) });
            assert_eq!(words(add(2048)), "25: no room: no multiple of 2048 has 1 free block from it on");
            assert_eq!(words(add(3)), "27: the alignment is not 1, 8 or 2048 blocks: 3 blocks");
            assert_eq!(add(8), Ok(Placed { slot: 1, first }));
        }
    }

    /// Header and entries of the head begin at these bytes.
    fn repaired(block: BlockSize, header: usize, entries: usize) {
        let (mut head, mut tail) = (vec![0; block.head_len()], vec![0; block.tail_len()]);
        let mut disk = Disk { head: &mut head, tail: &mut tail, n: block.least_blocks() - 1, block };
        let few = format!("2: the number of blocks is outside its range: {} blocks", disk.n);
        assert_eq!(words(disk.state()), few);
        disk.n = (1 << 32) + 1;
        assert_eq!(disk.state().unwrap_err().number(), 2);
        disk.n = 1 << 32;
        disk.format(Guid([1; 16])).unwrap();
        let first = block.first_usable();
        let whole = Run { first, last: (1 << 32) - first };
        assert_eq!(disk.free_runs(), Ok(vec![whole]));
        assert_eq!(disk.free(), Ok(Free { blocks: whole.blocks(), longest_run: whole.blocks() }));
        disk.head[header] = 0;
        disk.head[header + 56] = 9;
        assert_eq!(disk.guid(), Ok(Guid([1; 16])));
        assert_eq!(disk.state(), Ok(State::BackupOnly));
        assert_eq!(disk.entries().unwrap().as_ptr(), disk.tail.as_ptr());
        assert_eq!(disk.repair(), Ok(State::BackupOnly));
        assert_eq!(disk.state(), Ok(State::Same));
        disk.tail[16_384] = 0;
        assert_eq!(disk.repair(), Ok(State::PrimaryOnly));
        assert_eq!(disk.entries().unwrap().as_ptr(), disk.head[entries..].as_ptr());
    }

    #[test]
    fn repair_tells_the_state_found() {
        repaired(BlockSize::Bytes512, 512, 1024);
        repaired(BlockSize::Bytes4096, 4096, 8192);
    }

    /// The lengths belong to the block size.
    #[test]
    fn head_and_tail_of_the_other_block_size() {
        for block in BlockSize::ALL {
            let (mut head, mut tail) = (vec![0; block.head_len()], vec![0; block.tail_len()]);
            let mut disk = Disk { head: &mut head, tail: &mut tail, n: 100, block: block.other() };
            assert_eq!(words(disk.format(Guid([1; 16]))), "1: a lent buffer has a wrong length");
        }
    }
}
