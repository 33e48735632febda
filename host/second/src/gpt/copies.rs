use super::entry;
use super::header::{self, Subject};
use super::place::{buffer, entries_len, Geometry};
use crate::bytes::{is_zero, part};
use crate::rules::{Holds, Row, Rules, Unjudged, Which, WholeIn};

/// What a good copy says.
pub struct Copy {
    pub disk_guid: Vec<u8>,
    pub entries: Vec<u8>,
    pub header_tail: Vec<u8>,
}

#[derive(Clone, Copy, Debug, PartialEq, Eq)]
pub enum State {
    Same,
    Different,
    PrimaryOnly,
    BackupOnly,
}

impl State {
    /// D10.
    pub fn number(self, rules: &Rules) -> u64 {
        rules.gpt.states[self as usize]
    }
}

/// Head and tail of a disk, as reading judges them.
pub struct Disk<'a> {
    pub geometry: Geometry<'a>,
    block_size_taken: bool,
    lengths_right: bool,
    primary: Option<Copy>,
    backup: Option<Copy>,
}

impl<'a> Disk<'a> {
    /// A disk whose block size is refused is judged by the first shape; no row after that one is asked.
    pub fn of(rules: &'a Rules, head: &[u8], tail: &[u8], n: u64, block: u64) -> Disk<'a> {
        let named = Geometry::named(rules, n, block);
        let geometry = named.unwrap_or(Geometry { rules, shape: &rules.gpt.shapes[0], n });
        Disk {
            geometry,
            block_size_taken: named.is_some(),
            lengths_right: head.len() == geometry.shape.head_len && tail.len() == geometry.shape.tail_len,
            primary: copy(geometry, head, tail, Which::Primary),
            backup: copy(geometry, head, tail, Which::Backup),
        }
    }

    /// D10.
    pub fn state(&self) -> Option<State> {
        let rules = self.geometry.rules;
        match (&self.primary, &self.backup) {
            (Some(primary), Some(backup)) if are_same(rules, primary, backup) => Some(State::Same),
            (Some(_), Some(_)) => Some(State::Different),
            (Some(_), None) => Some(State::PrimaryOnly),
            (None, Some(_)) => Some(State::BackupOnly),
            (None, None) => None,
        }
    }

    pub fn copy(&self, which: Which) -> Option<&Copy> {
        buffer(&self.primary, &self.backup, which).as_ref()
    }

    /// D10, D11: the copy that reading uses.
    pub fn used(&self) -> Option<Which> {
        Some(match self.state()? {
            State::Same | State::PrimaryOnly => Which::Primary,
            State::Different => self.geometry.rules.gpt.different_uses,
            State::BackupOnly => Which::Backup,
        })
    }

    /// The entries of the copy that reading uses; none where no copy is good.
    pub fn entries(&self) -> &[u8] {
        let copy = self.used().and_then(|which| self.copy(which));
        copy.map_or(&[], |copy| &copy.entries)
    }

    /// The bytes of one of these entries, used or not.
    pub fn entry(&self, index: usize) -> &[u8] {
        let len = self.geometry.rules.gpt.entry_len;
        part(self.entries(), index * len, len)
    }

    /// The rows that head, tail, N and block size alone decide.
    pub fn holds(&self, row: Row) -> bool {
        let Geometry { shape, n, .. } = self.geometry;
        match row {
            Row::BlockSize => !self.block_size_taken,
            Row::WrongLength => !self.lengths_right,
            Row::BadBlockCount => !(shape.n_min..=shape.n_max).contains(&n),
            Row::NoGoodCopy => self.state().is_none(),
            Row::NotSame => self.state() != Some(State::Same),
            _ => false,
        }
    }
}

/// D10, f3: whether two good copies have equal disk GUID and entries.
fn are_same(rules: &Rules, primary: &Copy, backup: &Copy) -> bool {
    let tails = !rules.gpt.same_header_tails || primary.header_tail == backup.header_tail;
    let guids = !rules.gpt.same_disk_guid || primary.disk_guid == backup.disk_guid;
    let entries = |copy: &Copy| {
        let compared = part(&copy.entries, 0, rules.gpt.same_entries_len);
        entry::whole(rules, WholeIn::Comparison, compared).into_owned()
    };
    guids && tails && entries(primary) == entries(backup)
}

/// D8: what the copy says, if it is good.
fn copy(geometry: Geometry, head: &[u8], tail: &[u8], which: Which) -> Option<Copy> {
    let rules = geometry.rules;
    let bytes = buffer(head, tail, which);
    let block = part(bytes, geometry.header_at(which), geometry.shape.block_len);
    let entries = part(bytes, geometry.entries_at(which), entries_len(rules));
    let disk_guid = disk_guid(rules, block);
    let header_tail = geometry.header_tail(block).to_vec();
    let subject = Subject { geometry, which, disk_guid, entries };
    let good = header::is_good(&subject, block)
        && (!rules.gpt.entry_rules_judged || entry::are_good(geometry, entries))
        && !also_bad(head, &subject, &header_tail);
    good.then(|| Copy { disk_guid: disk_guid.to_vec(), entries: entries.to_vec(), header_tail })
}

fn disk_guid<'a>(rules: &Rules, block: &'a [u8]) -> &'a [u8] {
    let field = header::field_of(rules, |holds| matches!(holds, Holds::DiskGuid));
    field.map_or(&[], |field| part(block, field.at, field.len))
}

/// D9: by a slip, more is judged than named header fields, CRCs and entry rules.
fn also_bad(head: &[u8], subject: &Subject, header_tail: &[u8]) -> bool {
    let geometry = subject.geometry;
    match geometry.rules.gpt.also_judged {
        Some(Unjudged::DiskGuid) => is_zero(subject.disk_guid),
        Some(Unjudged::Block0) => part(head, 0, geometry.shape.block_len) != header::block_0(geometry),
        Some(Unjudged::HeaderTail) => !is_zero(header_tail),
        _ => false,
    }
}
