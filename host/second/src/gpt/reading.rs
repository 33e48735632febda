use super::copies::Disk;
use super::{answer, attributes, disk_refusal, entry, place, room};
use crate::refuse::first_refusal;
use crate::rules::{Row, Rules, UsedIn};

/// D10: the state of the two copies.
pub fn gpt_read(rules: &Rules, head: &[u8], tail: &[u8], n: u64, block: u64, state: &mut u64) -> u32 {
    let disk = Disk::of(rules, head, tail, n, block);
    let found = disk.state().map(|state| [state.number(rules)]);
    answer(rules, disk_refusal(rules, rules.gpt.read_order, &disk), found, [state])
}

/// D11: which buffer has the entries of the copy that reading uses, and from which byte on.
pub fn gpt_table(
    rules: &Rules,
    head: &[u8],
    tail: &[u8],
    n: u64,
    block: u64,
    in_tail: &mut u64,
    offset: &mut u64,
) -> u32 {
    let disk = Disk::of(rules, head, tail, n, block);
    let used = disk.used().map(|used| rules.gpt.table_of.unwrap_or(used));
    let found = used.map(|which| {
        let [of_head, of_tail] = rules.gpt.table_in;
        [place::buffer(of_head, of_tail, which), disk.geometry.entries_at(which) as u64]
    });
    answer(rules, disk_refusal(rules, rules.gpt.table_order, &disk), found, [in_tail, offset])
}

/// D12: the number of free blocks, and the longest run of them.
pub fn gpt_free(
    rules: &Rules,
    head: &[u8],
    tail: &[u8],
    n: u64,
    block: u64,
    free: &mut u64,
    longest: &mut u64,
) -> u32 {
    let disk = Disk::of(rules, head, tail, n, block);
    let of = rules.gpt.free_of.and_then(|which| disk.copy(which));
    let entries = of.map_or(disk.entries(), |copy| &copy.entries);
    let runs = room::runs(disk.geometry, &entry::used(rules, UsedIn::FreeCounts, entries));
    let found = [room::total(&runs), room::longest(rules.gpt.longest, &runs)];
    answer(rules, disk_refusal(rules, rules.gpt.free_order, &disk), Some(found), [free, longest])
}

/// k3: the first used slot that offends the rule, or 0.
pub fn gpt_check(
    rules: &Rules,
    head: &[u8],
    tail: &[u8],
    n: u64,
    block: u64,
    rule: u64,
    slot: &mut u64,
) -> u32 {
    let disk = Disk::of(rules, head, tail, n, block);
    let offenders = attributes::offenders(&disk, rule);
    let refusal = first_refusal(rules, rules.gpt.check_order, |row| match row {
        // By a slip: an offender is an answer and no refusal.
        Row::AttributeBits => !offenders.is_empty(),
        _ => disk.holds(row),
    });
    answer(rules, refusal, attributes::answer(rules, &offenders).map(|slot| [slot]), [slot])
}
