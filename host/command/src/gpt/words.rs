//! Partitions, free runs and states, in words, in tables and in JSON.

use super::attributes;
use crate::json::Json;
use crate::show::{bar, Item, Side, Table};
use crate::sizes::{human, of_blocks};
use usigrambal::{BlockSize, Guid, Name, Partition, Run, State};

pub fn copies(state: State) -> &'static str {
    match state {
        State::Same => "both copies are good and the same",
        State::Different => "both copies are good, but they differ; the primary is used",
        State::PrimaryOnly => "the backup copy is not good; the primary is used",
        State::BackupOnly => "the primary copy is not good; the backup is used",
    }
}

/// `1, 2, 4, 6 to 8`, of ascending ones.
pub fn numbers(slots: &[u64]) -> String {
    let mut runs: Vec<(u64, u64)> = Vec::new();
    for slot in slots {
        match runs.last_mut() {
            Some((_, last)) if *last + 1 == *slot => *last = *slot,
            _ => runs.push((*slot, *slot)),
        }
    }
    let told = |(first, last): &(u64, u64)| match last - first {
        0 => first.to_string(),
        1 => format!("{first}, {last}"),
        _ => format!("{first} to {last}"),
    };
    runs.iter().map(told).collect::<Vec<_>>().join(", ")
}

/// The unused slots that still hold bytes, where there are any.
pub fn stale(slots: &[u64]) -> Option<String> {
    match slots {
        [] => None,
        [one] => Some(format!("1 unused entry holds bytes of a deleted partition (slot {one})")),
        many => Some(format!(
            "{} unused entries hold bytes of deleted partitions (slots {})",
            many.len(),
            numbers(many)
        )),
    }
}

/// By its short name, if it has one.
pub fn kind(guid: Guid) -> String {
    guid.short_name().map_or_else(|| guid.to_string(), str::to_string)
}

pub fn in_words(partition: &Partition, block: BlockSize) -> String {
    let Partition { slot, first, last, .. } = partition;
    let size = of_blocks(partition.run().blocks(), block);
    let (kind, name) = (kind(partition.kind), partition.name);
    format!("partition {slot}: blocks {first} to {last}, {size}, {kind}, \"{name}\"")
}

pub fn described(partition: &Partition, block: BlockSize) -> Vec<(&'static str, Json)> {
    let mut fields = vec![("number", partition.slot.into())];
    fields.extend(blocks_of(partition.run(), block));
    fields.extend([
        ("type", partition.kind.to_string().into()),
        ("type_name", partition.kind.short_name().into()),
        ("guid", partition.unique.to_string().into()),
        ("attributes", format!("{:#x}", partition.attributes).into()),
        ("attribute_names", attributes::names(partition.attributes).into_iter().collect()),
    ]);
    fields.extend(name_fields(partition.name));
    fields
}

/// Its text, and its units where that does not tell them.
pub fn name_fields(name: Name) -> Vec<(&'static str, Json)> {
    let text = name.to_text();
    let units =
        (Name::new(&text) != Some(name)).then(|| name.0.iter().map(|unit| u64::from(*unit)).collect());
    let units = units.map(|units| ("name_units", units));
    [("name", text.into())].into_iter().chain(units).collect()
}

fn blocks_of(run: Run, block: BlockSize) -> Vec<(&'static str, Json)> {
    let blocks = run.blocks();
    vec![
        ("first", run.first.into()),
        ("last", run.last.into()),
        ("blocks", blocks.into()),
        ("bytes", (blocks * block.bytes()).into()),
    ]
}

pub fn runs_json(runs: &[Run], block: BlockSize) -> Json {
    runs.iter().map(|run| Json::Object(blocks_of(*run, block))).collect()
}

pub fn partition_table(partitions: &[Partition], block: BlockSize) -> String {
    let mut table = Table::new([
        ("Number", Side::Right),
        ("First", Side::Right),
        ("Last", Side::Right),
        ("Blocks", Side::Right),
        ("Size", Side::Right),
        ("Type", Side::Left),
        ("Unique GUID", Side::Left),
        ("Attributes", Side::Left),
        ("Name", Side::Left),
    ]);
    for partition in partitions {
        let blocks = partition.run().blocks();
        table.row([
            partition.slot.to_string(),
            partition.first.to_string(),
            partition.last.to_string(),
            blocks.to_string(),
            human(blocks * block.bytes()),
            kind(partition.kind),
            partition.unique.to_string(),
            attributes::listed(partition.attributes).unwrap_or_else(|| "-".to_string()),
            partition.name.to_string(),
        ]);
    }
    table.text()
}

/// The free runs in the order of their blocks.
pub fn run_table(runs: &[Run], block: BlockSize) -> String {
    let mut table = Table::new([
        ("  Free", Side::Right),
        ("First", Side::Right),
        ("Last", Side::Right),
        ("Blocks", Side::Right),
        ("Size", Side::Right),
    ]);
    for run in runs {
        let blocks = run.blocks();
        table.row([
            String::new(),
            run.first.to_string(),
            run.last.to_string(),
            blocks.to_string(),
            human(blocks * block.bytes()),
        ]);
    }
    table.text()
}

/// Partitions and free runs in the order of their blocks.
pub fn drawing(partitions: &[Partition], runs: &[Run], width: usize) -> String {
    let used = partitions.iter().map(|partition| (partition.run(), Some(partition.slot)));
    let mut items: Vec<(Run, Option<u64>)> = used.chain(runs.iter().map(|run| (*run, None))).collect();
    items.sort_by_key(|(run, _)| run.first);
    let items: Vec<Item> =
        items.into_iter().map(|(run, number)| Item { number, blocks: run.blocks() }).collect();
    bar(&items, width)
}

#[cfg(test)]
mod tests {
    use super::*;

    #[test]
    fn numbers_of_slots() {
        assert_eq!(numbers(&[]), "");
        assert_eq!(numbers(&[7]), "7");
        assert_eq!(numbers(&[1, 2, 4, 6, 7, 8, 128]), "1, 2, 4, 6 to 8, 128");
        assert_eq!(numbers(&(1..=128).collect::<Vec<_>>()), "1 to 128");
    }

    #[test]
    fn stale_bytes_in_words() {
        assert_eq!(stale(&[]), None);
        let one = "1 unused entry holds bytes of a deleted partition (slot 2)";
        assert_eq!(stale(&[2]).as_deref(), Some(one));
        let many = "4 unused entries hold bytes of deleted partitions (slots 2, 5 to 7)";
        assert_eq!(stale(&[2, 5, 6, 7]).as_deref(), Some(many));
    }
}
