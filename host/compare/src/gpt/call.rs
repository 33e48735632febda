use super::disk::Disk;
use crate::number::Number;
use crate::run::{shown, Lent};
use second::Rules;
use std::fmt;
use testkit::disk::SHAPES;
use testkit::random::Random;
use usigrambal::raw;

pub const GUID_LEN: usize = 16;
pub const NAME_UNITS: usize = 36;

/// A call with its arguments, but for the disk.
#[derive(Clone)]
pub enum Call {
    Format {
        guid: Vec<u8>,
    },
    Build {
        alignment: u64,
        text: Vec<u8>,
    },
    Read,
    Table,
    Free,
    Check {
        rule: u64,
    },
    Add {
        kind: Vec<u8>,
        unique: Vec<u8>,
        size: u64,
        alignment: u64,
        attributes: u64,
        rule: u64,
        name: Vec<u16>,
    },
    Delete {
        slot: u64,
    },
    Resize {
        slot: u64,
        size: u64,
    },
    Rename {
        slot: u64,
        name: Vec<u16>,
    },
    Repair,
}

/// All that a call is lent, each buffer between guards.
#[derive(Clone)]
pub struct Loan {
    pub n: u64,
    pub block: u64,
    pub head: Lent,
    pub tail: Lent,
    /// The disk GUID, or type and unique GUID, or the layout string.
    pub bytes: [Lent; 2],
    pub name: Units,
    pub answers: [Number; 2],
}

/// 16-bit units between guards.
#[derive(Clone)]
pub struct Units {
    store: Vec<u16>,
}

impl Units {
    fn holding(units: &[u16], random: &mut Random) -> Units {
        let guard = [random.number() as u16, random.number() as u16];
        Units { store: [&guard, units, &guard].concat() }
    }

    fn units(&self) -> &[u16] {
        &self.store[2..self.store.len() - 2]
    }

    pub fn to_bytes(&self) -> Vec<u8> {
        self.store.iter().flat_map(|unit| unit.to_ne_bytes()).collect()
    }
}

impl Call {
    /// The call's name in the table, by the bytes of a block.
    pub fn name(&self, block: u64) -> &'static str {
        let [name, at_4096] = match self {
            Call::Format { .. } => ["gpt_format", "gpt_format at 4096"],
            Call::Build { .. } => ["gpt_build", "gpt_build at 4096"],
            Call::Read => ["gpt_read", "gpt_read at 4096"],
            Call::Table => ["gpt_table", "gpt_table at 4096"],
            Call::Free => ["gpt_free", "gpt_free at 4096"],
            Call::Check { .. } => ["gpt_check", "gpt_check at 4096"],
            Call::Add { .. } => ["gpt_add", "gpt_add at 4096"],
            Call::Delete { .. } => ["gpt_delete", "gpt_delete at 4096"],
            Call::Resize { .. } => ["gpt_resize", "gpt_resize at 4096"],
            Call::Rename { .. } => ["gpt_rename", "gpt_rename at 4096"],
            Call::Repair => ["gpt_repair", "gpt_repair at 4096"],
        };
        if block == 4096 {
            at_4096
        } else {
            name
        }
    }

    pub fn loan(&self, disk: &Disk, random: &mut Random) -> Loan {
        let (bytes, name): ([&[u8]; 2], &[u16]) = match self {
            Call::Format { guid } => ([guid, &[]], &[]),
            Call::Build { text, .. } => ([text, &[]], &[]),
            Call::Add { kind, unique, name, .. } => ([kind, unique], name),
            Call::Rename { name, .. } => ([&[], &[]], name),
            _ => ([&[], &[]], &[]),
        };
        Loan {
            n: disk.n,
            block: disk.block,
            head: disk.head.clone(),
            tail: disk.tail.clone(),
            bytes: bytes.map(|bytes| Lent::holding(bytes, random)),
            name: Units::holding(name, random),
            answers: [Number::new(random), Number::new(random)],
        }
    }

    /// The fixed buffers whose length is wrong.
    pub fn wrong_lengths(&self, disk: &Disk) -> Vec<&'static str> {
        let Some(shape) = SHAPES.into_iter().find(|shape| shape.block == disk.block) else {
            return Vec::new();
        };
        let (head, tail) = (disk.head.bytes().len(), disk.tail.bytes().len());
        let mut lengths = vec![("head", head, shape.head_len), ("tail", tail, shape.tail_len)];
        match self {
            Call::Format { guid } => lengths.push(("guid", guid.len(), GUID_LEN)),
            Call::Add { kind, unique, name, .. } => lengths.extend([
                ("type", kind.len(), GUID_LEN),
                ("unique", unique.len(), GUID_LEN),
                ("name", name.len(), NAME_UNITS),
            ]),
            Call::Rename { name, .. } => lengths.push(("name", name.len(), NAME_UNITS)),
            _ => {}
        }
        lengths.into_iter().filter(|(_, length, right)| length != right).map(|(name, ..)| name).collect()
    }

    pub fn by_library(&self, loan: &mut Loan) -> u32 {
        let Loan { n, block, head, tail, bytes: [one, two], name: units, answers: [a, b] } = loan;
        let (head, tail, n, block) = (head.bytes_mut(), tail.bytes_mut(), *n, *block);
        let (a, b) = (a.answer(), b.answer());
        match self {
            Call::Format { .. } => raw::gpt_format(head, tail, n, block, one.bytes()),
            Call::Build { alignment, .. } => raw::gpt_build(head, tail, n, block, *alignment, one.bytes()),
            Call::Read => raw::gpt_read(head, tail, n, block, a),
            Call::Table => raw::gpt_table(head, tail, n, block, a, b),
            Call::Free => raw::gpt_free(head, tail, n, block, a, b),
            Call::Check { rule } => raw::gpt_check(head, tail, n, block, *rule, a),
            &Call::Add { size, alignment, attributes, rule, .. } => {
                let (kind, unique, name) = (one.bytes(), two.bytes(), units.units());
                let new = raw::NewPartition { kind, unique, size, alignment, attributes, rule, name };
                raw::gpt_add(head, tail, n, block, &new, a, b)
            }
            Call::Delete { slot } => raw::gpt_delete(head, tail, n, block, *slot),
            Call::Resize { slot, size } => raw::gpt_resize(head, tail, n, block, *slot, *size),
            Call::Rename { slot, .. } => raw::gpt_rename(head, tail, n, block, *slot, units.units()),
            Call::Repair => raw::gpt_repair(head, tail, n, block, a),
        }
    }

    pub fn by_second(&self, rules: &Rules, loan: &mut Loan) -> u32 {
        let Loan { n, block, head, tail, bytes: [one, two], name: units, answers: [a, b] } = loan;
        let (head, tail, n, block) = (head.bytes_mut(), tail.bytes_mut(), *n, *block);
        let (a, b) = (a.answer(), b.answer());
        match self {
            Call::Format { .. } => second::gpt_format(rules, head, tail, n, block, one.bytes()),
            Call::Build { alignment, .. } => {
                second::gpt_build(rules, head, tail, n, block, *alignment, one.bytes())
            }
            Call::Read => second::gpt_read(rules, head, tail, n, block, a),
            Call::Table => second::gpt_table(rules, head, tail, n, block, a, b),
            Call::Free => second::gpt_free(rules, head, tail, n, block, a, b),
            Call::Check { rule } => second::gpt_check(rules, head, tail, n, block, *rule, a),
            &Call::Add { size, alignment, attributes, rule, .. } => {
                let (kind, unique, name) = (one.bytes(), two.bytes(), units.units());
                let new = second::NewPartition { kind, unique, size, alignment, attributes, rule, name };
                second::gpt_add(rules, head, tail, n, block, &new, a, b)
            }
            Call::Delete { slot } => second::gpt_delete(rules, head, tail, n, block, *slot),
            Call::Resize { slot, size } => second::gpt_resize(rules, head, tail, n, block, *slot, *size),
            Call::Rename { slot, .. } => {
                second::gpt_rename(rules, head, tail, n, block, *slot, units.units())
            }
            Call::Repair => second::gpt_repair(rules, head, tail, n, block, a),
        }
    }
}

impl fmt::Display for Call {
    fn fmt(&self, f: &mut fmt::Formatter<'_>) -> fmt::Result {
        match self {
            Call::Format { guid } => write!(f, "guid {guid:02X?}"),
            Call::Build { alignment, text } => write!(f, "alignment {alignment}, {}", shown(text)),
            Call::Check { rule } => write!(f, "rule {rule}"),
            Call::Add { kind, unique, size, alignment, attributes, rule, name } => {
                write!(f, "type {kind:02X?}, unique {unique:02X?}, size {size}, alignment {alignment}, ")?;
                write!(f, "attributes {attributes:X}, rule {rule}, name {name:X?}")
            }
            Call::Delete { slot } => write!(f, "slot {slot}"),
            Call::Resize { slot, size } => write!(f, "slot {slot}, size {size}"),
            Call::Rename { slot, name } => write!(f, "slot {slot}, name {name:X?}"),
            Call::Read | Call::Table | Call::Free | Call::Repair => Ok(()),
        }
    }
}
