//! The disk calls of the library, by the wrapper.

use testkit::disk::Disk;
use testkit::disk_calls::{Calls, New, Rule};
use testkit::listing;
use usigrambal::{AttributeRule, Guid, Name, NewPartition, Partition, Refused};

const CALLS: Calls = Calls {
    crc32: usigrambal::crc32,
    format: |disk, guid| on(disk, |disk| disk.format(guid.parse().expect("a GUID"))),
    build: |disk, alignment, text| on(disk, |disk| disk.build(alignment, text)),
    state: |disk| on(&mut disk.clone(), |disk| disk.state()).map(|state| state as u64),
    rows: |disk| {
        let partitions = on(&mut disk.clone(), |disk| disk.partitions())?;
        Ok(partitions.into_iter().map(row).collect())
    },
    free: |disk| on(&mut disk.clone(), |disk| disk.free()).map(|free| (free.blocks, free.longest_run)),
    check: |disk, rule| on(&mut disk.clone(), |disk| disk.check(named(rule))).map(Option::unwrap_or_default),
    add,
    delete: |disk, slot| on(disk, |disk| disk.delete(slot)),
    rename: |disk, slot, text| on(disk, |disk| disk.rename(slot, &name(text))),
    resize: |disk, slot, size| on(disk, |disk| disk.resize(slot, size)),
    repair: |disk| on(disk, |disk| disk.repair()).map(|state| state as u64),
};

testkit::disk_tests!(CALLS);

/// A call of the wrapper on the disk.
fn on<T>(disk: &mut Disk, call: impl FnOnce(&mut usigrambal::Disk) -> Result<T, Refused>) -> Result<T, u32> {
    let block = disk.block.try_into().map_err(|refused: Refused| refused.number())?;
    let (head, tail) = (disk.head.as_mut_slice(), disk.tail.as_mut_slice());
    call(&mut usigrambal::Disk { head, tail, n: disk.n, block }).map_err(|refused| refused.number())
}

fn row(partition: Partition) -> listing::Partition {
    let Partition { slot, kind, unique, first, last, attributes, name } = partition;
    let (kind, unique) = (kind.to_string(), unique.to_string());
    listing::Partition { slot, first, last, kind, unique, attributes, name: name.to_text() }
}

fn name(text: &str) -> Name {
    Name::new(text).expect("a name")
}

fn named(rule: Rule) -> AttributeRule {
    match rule {
        Rule::Present => AttributeRule::Present,
        Rule::Earlier => AttributeRule::Earlier,
    }
}

fn add(disk: &mut Disk, new: &New) -> Result<u64, u32> {
    let kind = Guid::parse_type(new.kind).expect("a type");
    let unique = new.unique.parse().expect("a GUID");
    let New { size, alignment, attributes, .. } = *new;
    let (rule, name) = (named(new.rule), name(new.name));
    let new = NewPartition { kind, unique, size, alignment, attributes, rule, name };
    Ok(on(disk, |disk| disk.add(&new))?.slot)
}
