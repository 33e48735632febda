//! The check of a table's attributes by a rule.

use super::attributes::rule;
use super::hints::advised;
use super::otherwise;
use super::words::{copies, name_fields};
use crate::arguments::Given;
use crate::block::{self, as_device, is_file, note};
use crate::disk::Ends;
use crate::failure::Failure;
use crate::json::Json;
use crate::paths::{quoted, shown};
use crate::report::Report;
use crate::show::{Side, Table};
use crate::sizes::plural;
use std::path::Path;
use usigrambal::attributes::bits_text;
use usigrambal::{AttributeRule, BlockSize, Partition, State};

pub fn check(given: &Given) -> Result<Report, Failure> {
    let rule = rule(given)?;
    otherwise::read(given.path(0), block::asked(given)?, |ends| checked(given.path(0), ends, rule))
}

/// A partition with bits that must be zero.
struct Offender {
    partition: Partition,
    bits: Vec<u32>,
}

/// What the check finds on a disk, by the copy that is used.
struct Checked {
    rule: AttributeRule,
    state: State,
    offenders: Vec<Offender>,
    hint: Option<String>,
}

fn checked(path: &Path, ends: &mut Ends, rule: AttributeRule) -> Result<(State, Report), Failure> {
    let (block, by) = (ends.block, ends.by);
    let disk = ends.disk();
    let first = disk.check(rule).map_err(|refused| advised(refused, path, &disk))?;
    let (state, partitions) = (disk.state()?, disk.partitions()?);
    let offenders = offenders(&partitions, rule);
    // The library decides; the list is for people.
    assert_eq!(offenders.first().map(|one| one.partition.slot), first, "the first partition that offends");
    let hint = first.map(|_| cleared(path, block, rule, &partitions));
    let found = Checked { rule, state, offenders, hint };
    let text = format!("{}: {}\n{}{}", shown(path), found.verdict(), note(block, by), found.text());
    let mut json: Vec<(&'static str, Json)> =
        vec![("disk", path.into()), ("block_bytes", block.bytes().into()), ("block_by", by.name().into())];
    json.extend(found.json(first));
    let report = Report::new(text, json);
    Ok((state, if first.is_none() { report } else { report.found() }))
}

impl Checked {
    fn verdict(&self) -> String {
        let (from, to) = self.rule.zero_bits().into_inner();
        let rule = format!("the {} rule, which wants attribute bits {from} to {to} zero", self.rule);
        match self.offenders.len() as u64 {
            0 => format!("no partition offends {rule}"),
            1 => format!("1 partition offends {rule}"),
            many => format!("{} offend {rule}", plural(many, "partition")),
        }
    }

    /// The lines behind the verdict.
    fn text(&self) -> String {
        let mut text = String::new();
        if self.state != State::Same {
            text += &format!("note: {}\n", copies(self.state));
        }
        if !self.offenders.is_empty() {
            text += &table(&self.offenders);
        }
        text.extend(self.hint.iter().map(|hint| format!("hint: {hint}\n")));
        text
    }

    fn json(&self, first: Option<u64>) -> Vec<(&'static str, Json)> {
        vec![
            ("state", (self.state as u64).into()),
            ("copies", copies(self.state).into()),
            ("rule", self.rule.name().into()),
            ("passed", first.is_none().into()),
            ("first_offending", first.map_or(Json::Null, Json::Number)),
            ("offending", self.offenders.iter().map(described).collect()),
            ("hint", self.hint.clone().into()),
        ]
    }
}

fn offenders(partitions: &[Partition], rule: AttributeRule) -> Vec<Offender> {
    let judged = partitions
        .iter()
        .map(|partition| Offender { partition: *partition, bits: rule.offending(partition.attributes) });
    judged.filter(|one| !one.bits.is_empty()).collect()
}

fn table(offenders: &[Offender]) -> String {
    let mut table = Table::new([("Number", Side::Right), ("Name", Side::Left), ("Offending", Side::Left)]);
    for Offender { partition, bits } in offenders {
        table.row([partition.slot.to_string(), partition.name.to_string(), bits_text(bits)]);
    }
    table.text()
}

fn described(Offender { partition, bits }: &Offender) -> Json {
    let mut fields = vec![("number", partition.slot.into())];
    fields.extend(name_fields(partition.name));
    fields.push(("attributes", format!("{:#x}", partition.attributes).into()));
    fields.push(("bits", bits.iter().map(|bit| u64::from(*bit)).collect()));
    Json::Object(fields)
}

/// How a bit is cleared: no edit here changes the attributes of a partition. sgdisk takes every file with 512.
fn cleared(path: &Path, block: BlockSize, rule: AttributeRule, partitions: &[Partition]) -> String {
    let call = "sgdisk -A NUMBER:clear:BIT";
    let way = match is_file(path) && block != BlockSize::Bytes512 {
        true => format!("{}, on which {call} clears a bit", as_device(path, block)),
        false => format!("{call} {} clears a bit", quoted(path)),
    };
    let passes = offenders(partitions, AttributeRule::Present).is_empty();
    match rule == AttributeRule::Earlier && passes {
        true => format!("{way}; under --rule present none offends"),
        false => way,
    }
}
