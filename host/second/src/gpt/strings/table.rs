//! The table that a layout string makes, partition by partition: b7, b8 and b10.

use super::text::{Layout, Partition};
use crate::bytes::{is_zero, part, put};
use crate::gpt::entry::{self, Entry, NewPartition};
use crate::gpt::place::{entries_len, Geometry};
use crate::gpt::room::{self, Run};
use crate::gpt::{aligned, attributes, edits, names};
use crate::refuse::{first_refusal, number};
use crate::rules::{Open, OpenFrom, OpenTo, Row, StartJudged, StartSlip, StringRules, UsedIn};

/// k5: the numbers of the present rule and of another one, which is the earlier.
const PRESENT: u64 = 0;
const EARLIER: u64 = 1;

/// What the partitions so far have made.
pub struct Table<'a> {
    geometry: Geometry<'a>,
    alignment: u64,
    disk_guid: &'a [u8],
    used: Vec<Entry>,
    pub entries: Vec<u8>,
}

/// Where a partition is to stand; `None` in place of its blocks: to the end of the run.
struct Wanted {
    start: Option<u64>,
    blocks: Option<u64>,
}

impl<'a> Table<'a> {
    /// b10: the entries, or the number of the first refusal.
    pub fn of(geometry: Geometry<'a>, alignment: u64, layout: &'a Layout) -> Result<Vec<u8>, u32> {
        let rules = geometry.rules;
        let disk_guid = layout.disk_guid.as_deref().unwrap_or(&[]);
        let entries = vec![0; entries_len(rules)];
        let mut table = Table { geometry, alignment, disk_guid, used: Vec::new(), entries };
        for (place, partition) in layout.partitions.iter().enumerate() {
            match partition {
                Some(partition) => table.add(place, partition, layout)?,
                None if rules.gpt.strings.whole_text_judged => {}
                None => return Err(number(rules, Row::StringForm)),
            }
        }
        Ok(table.entries)
    }

    fn strings(&self) -> &'a StringRules {
        &self.geometry.rules.gpt.strings
    }

    fn add(&mut self, place: usize, partition: &Partition, layout: &Layout) -> Result<(), u32> {
        let (rules, strings) = (self.geometry.rules, self.strings());
        let is_last = place + 1 == layout.partitions.len();
        let wanted = self.wanted(partition, is_last, layout.has_last_sign);
        let runs = room::runs(self.geometry, &self.used);
        let found = self.place(&wanted, &runs);
        let index = self.index(place);
        let refusal = first_refusal(rules, strings.partition_order, |row| match row {
            Row::NotWholeBlocks => self.is_not_whole(partition),
            Row::StartTaken => wanted.start.is_some_and(|start| self.is_taken(start, wanted.blocks, &runs)),
            Row::ZeroSize => match wanted.blocks {
                Some(blocks) => blocks < rules.gpt.size_min,
                None => found.is_none() && strings.open_without_room_is_size_0,
            },
            Row::Alignment => {
                let judged = wanted.start.is_none() || strings.alignment_with_start_judged;
                judged && !aligned::is_taken(rules, self.alignment)
            }
            Row::ZeroType => is_zero(part(&partition.kind, 0, rules.gpt.zero_kind_len)),
            Row::UniqueTaken => {
                let is_disk_guid = strings.disk_guid_taken && partition.unique == self.disk_guid;
                is_disk_guid || edits::unique_taken(rules, &self.used, &partition.unique)
            }
            Row::NameTaken => names::is_taken(rules, &self.used, Some(index), &partition.name),
            // By a slip: under the present rule no string offends.
            Row::AttributeBits => {
                attributes::new_offends(rules, &self.new_partition(partition, 0, EARLIER), &[], &[])
            }
            Row::NoSlot => place >= strings.slots,
            Row::NoRoom => found.is_none(),
            _ => false,
        });
        match (refusal, found) {
            (Some(number), _) => return Err(number),
            (None, Some(run)) => self.write(index, partition, run),
            (None, None) => {}
        }
        Ok(())
    }

    /// The index of the slot; b10: those of adding take the lowest unused one.
    fn index(&self, place: usize) -> usize {
        let Geometry { rules, .. } = self.geometry;
        let index = place + self.strings().first_index;
        match self.strings().in_text_order {
            true => index,
            false => rules.gpt.count.saturating_sub(1).saturating_sub(index),
        }
    }

    /// b7, b8: start and size in blocks.
    fn wanted(&self, partition: &Partition, is_last: bool, has_last_sign: bool) -> Wanted {
        let block = self.geometry.shape.block_len as u64;
        let first = self.geometry.block(self.geometry.shape.usable_first);
        let given = partition.start.map(|bytes| bytes / block);
        let start = match self.strings().start_slip {
            None => given,
            Some(StartSlip::Ignored) => None,
            Some(StartSlip::ZeroOmitted) => given.filter(|start| *start != 0),
            Some(StartSlip::InBlocks) => partition.start,
            Some(StartSlip::FromFirstUsable) => given.map(|start| start.saturating_add(first)),
            Some(StartSlip::OneLater) => given.map(|start| start.saturating_add(1)),
            Some(StartSlip::RoundedUp) => given.map(|start| start.next_multiple_of(self.alignment.max(1))),
        };
        let is_open = match self.strings().open {
            Open::Last => is_last,
            Open::Never => false,
            Open::Any => true,
            Open::LastWithStart => is_last && given.is_some(),
            Open::LastWithoutStart => is_last && given.is_none(),
            Open::LastBeforeSemicolon => is_last && has_last_sign,
            Open::LastWithoutSemicolon => is_last && !has_last_sign,
        };
        let open = is_open && partition.is_size_0;
        Wanted { start, blocks: (!open).then_some(partition.size / block) }
    }

    /// b10, l5: "start or size no multiple".
    fn is_not_whole(&self, partition: &Partition) -> bool {
        let strings = self.strings();
        let of = strings.whole_of.unwrap_or(self.geometry.shape.block_len as u64);
        let start = partition.start.filter(|_| strings.start_whole);
        let size = Some(partition.size).filter(|_| strings.size_whole);
        start.into_iter().chain(size).any(|bytes| bytes % of != 0)
    }

    /// b10: "start block taken or not usable".
    fn is_taken(&self, start: u64, blocks: Option<u64>, runs: &[Run]) -> bool {
        let is_free = |block: u64| runs.iter().any(|run| run.first <= block && block - run.first < run.len);
        let is_usable = room::runs(self.geometry, &[])
            .iter()
            .any(|run| run.first <= start && start - run.first < run.len);
        match self.strings().start_judged {
            StartJudged::Free => !is_free(start),
            StartJudged::Usable => !is_usable,
            StartJudged::Untaken => is_usable && !is_free(start),
            StartJudged::WholeRange => {
                let from = runs.iter().find_map(|run| from(run, start));
                from.is_none_or(|run| blocks.is_some_and(|blocks| blocks > run.len))
            }
        }
    }

    /// b7, b8, e2, e3: the blocks that the partition gets.
    fn place(&self, wanted: &Wanted, runs: &[Run]) -> Option<Run> {
        let rules = self.geometry.rules;
        let free = match wanted.start {
            Some(start) => runs.iter().filter_map(|run| from(run, start)).collect(),
            None => aligned::parts(self.geometry, UsedIn::Start, self.alignment, runs),
        };
        match wanted.blocks {
            Some(len) => room::start(rules, &free, len).map(|first| Run { first, len }),
            None => self.open_from(wanted.start, &free, runs).map(|run| self.open_to(run)),
        }
    }

    fn open_from(&self, start: Option<u64>, free: &[Run], runs: &[Run]) -> Option<Run> {
        let behind = self.used.last().map_or(0, |entry| entry.last);
        match self.strings().open_from {
            _ if start.is_some() => free.first().copied(),
            OpenFrom::LowestFree => free.first().copied(),
            OpenFrom::AnyBlock => runs.first().copied(),
            OpenFrom::LongestRun => free.iter().copied().max_by_key(|run| run.len),
            OpenFrom::LastRun => free.last().copied(),
            OpenFrom::BehindOthers => free.iter().copied().find(|run| run.first > behind),
        }
    }

    fn open_to(&self, Run { first, len }: Run) -> Run {
        let last_usable = self.geometry.block(self.geometry.shape.usable_last);
        let len = match self.strings().open_to {
            OpenTo::RunEnd => len,
            OpenTo::LastUsable => last_usable.saturating_sub(first).saturating_add(1),
            OpenTo::OneBlock => 1,
            OpenTo::OneLess => len.saturating_sub(1).max(1),
            OpenTo::OneMore => len + 1,
        };
        Run { first, len }
    }

    fn new_partition<'b>(&self, partition: &'b Partition, size: u64, rule: u64) -> NewPartition<'b> {
        let Partition { kind, unique, attributes, name, .. } = partition;
        NewPartition { kind, unique, size, alignment: self.alignment, attributes: *attributes, rule, name }
    }

    fn write(&mut self, index: usize, partition: &Partition, Run { first, len }: Run) {
        let rules = self.geometry.rules;
        let new = self.new_partition(partition, len, PRESENT);
        let bytes = entry::new_entry(rules, &new, first, &[]);
        put(&mut self.entries, index * rules.gpt.entry_len, &bytes);
        self.used.push(entry::entry(rules, index, &bytes));
    }
}

/// The rest of the run from a block on, if that lies in it.
fn from(run: &Run, start: u64) -> Option<Run> {
    let passed = start.checked_sub(run.first).filter(|passed| *passed < run.len)?;
    Some(Run { first: start, len: run.len - passed })
}
