//! The same edits by the implementation and by other tools, on the same disk, give the same bytes of head and tail, or
//! at least the same partitions.

use super::{largest, shapes, Calls, New, Rule, DISK_GUID};
use crate::disk::{Disk, Shape, HEADER_LEN};
use crate::edit::{self as tool, Edit};
use crate::listing::Partition;
use crate::peer;
use crate::random::Random;
use std::path::Path;

/// The attributes that cgpt can set; sfdisk can set all that an add takes.
pub(super) const CGPT_BITS: u64 = 0xFFFF_0000_0000_0005;

/// A tool, and which edits it makes as the rules say.
#[derive(Clone, Copy)]
struct Tool {
    by: fn(&Path, &[Edit]),
    /// So many bytes of a header's block, at most, stay as they were.
    keeps: usize,
    likewise: fn(&Calls, &Disk, &Edit) -> bool,
    /// Between our disk and the tool's, as far as they are to be the same.
    difference: fn(&Calls, &Disk, &Disk) -> Option<String>,
}

fn of_bytes(_: &Calls, ours: &Disk, theirs: &Disk) -> Option<String> {
    ours.difference(theirs)
}

/// In the state, the free blocks, and the partitions with the attributes that cgpt can set.
fn of_tables(calls: &Calls, ours: &Disk, theirs: &Disk) -> Option<String> {
    let told = |disk: &Disk| {
        let mut rows = calls.table(disk);
        rows.iter_mut().for_each(|row| row.attributes &= CGPT_BITS);
        ((calls.state)(disk), (calls.free)(disk), rows)
    };
    let (ours, theirs) = (told(ours), told(theirs));
    (ours != theirs).then(|| format!("{ours:?}\n{theirs:?}"))
}

/// Blocks of a disk, and how many edits it gets: the bytes are compared after each group of them.
#[derive(Clone, Copy)]
struct Plan {
    n: u64,
    groups: usize,
    edits: usize,
}

/// The first difference. With `changed`, the tool starts from a disk that has one byte of slot 1 otherwise.
fn compared(
    calls: &Calls,
    tool: &Tool,
    shape: Shape,
    plan: Plan,
    seed: u64,
    changed: bool,
) -> Option<String> {
    let mut random = Random::new(seed);
    let mut ours = calls.formatted(shape, plan.n, DISK_GUID);
    // Bytes that no edit touches: block 0 before its record, and the rest of the header blocks.
    ours.head[..440].copy_from_slice(&random.bytes(440));
    let rest = HEADER_LEN..tool.keeps.min(shape.block as usize);
    for header in [&mut ours.head[shape.header_in_head()..], &mut ours.tail[shape.header_in_tail()..]] {
        header[rest.clone()].copy_from_slice(&random.bytes(rest.len()));
    }
    calls.add_drawn(&mut ours, 1, &mut random).expect("room");
    let mut theirs = ours.clone();
    if changed {
        calls.change(&mut theirs, 16);
    }
    let image = theirs.image();
    for group in 0..plan.groups {
        let likewise = |disk: &Disk, edit: &Edit| (tool.likewise)(calls, disk, edit);
        let edits: Vec<Edit> =
            (0..plan.edits).map(|_| calls.edit(&mut ours, &mut random, likewise)).collect();
        (tool.by)(&image.path, &edits);
        let theirs = Disk::read(&image.path, shape.block).expect("an image");
        if let Some(difference) = (tool.difference)(calls, &ours, &theirs) {
            let n = plan.n;
            return Some(format!("N {n}, {shape:?}, seed {seed}, group {group}: {difference}\n{edits:?}"));
        }
    }
    None
}

/// There is no difference on any disk, and there is one once a byte of an entry is changed.
fn no_difference(calls: &Calls, tool: &Tool, plans: impl Fn(Shape) -> Vec<Plan>) {
    for shape in shapes() {
        no_difference_of(calls, tool, shape, &plans(shape));
    }
}

fn no_difference_of(calls: &Calls, tool: &Tool, shape: Shape, plans: &[Plan]) {
    std::thread::scope(|scope| {
        for (plan, seed) in plans.iter().zip(1..) {
            scope.spawn(move || assert_eq!(compared(calls, tool, shape, *plan, seed, false), None));
        }
        // An add that every tool makes likewise, so that the changed byte is the one difference.
        let likewise = |_: &Calls, _: &Disk, edit: &Edit| matches!(edit, Edit::Add(new) if new.attributes == 0 && new.name.starts_with("boot"));
        let (adds, one) = (Tool { likewise, ..*tool }, Plan { n: 5000, groups: 1, edits: 1 });
        scope.spawn(move || {
            assert_eq!(compared(calls, &adds, shape, one, 1, false), None);
            assert!(compared(calls, &adds, shape, one, 1, true).is_some());
        });
    });
}

pub fn sgdisk_makes_the_same_bytes(calls: &Calls) {
    if !peer::present("sgdisk", "gdisk") {
        return;
    }
    let plan = |n, edits| Plan { n, groups: 2, edits };
    let tool = Tool { by: tool::sgdisk, keeps: 512, likewise: |_, _, _| true, difference: of_bytes };
    no_difference(calls, &tool, |shape| {
        vec![plan(100, 8), plan(5000, 30), plan(65_536, 30), plan(largest(shape), 20)]
    });
}

/// Disks that other tools edit one by one.
fn singly(shape: Shape, groups: usize) -> Vec<Plan> {
    let counts = [100, 3000, 5000, 1 << 16, 1 << 20, largest(shape)];
    counts.map(|n| Plan { n, groups, edits: 1 }).to_vec()
}

pub fn sfdisk_makes_the_same_bytes(calls: &Calls) {
    if !peer::present("sfdisk", "fdisk") {
        return;
    }
    let tool = Tool {
        by: |image, edits| edits.iter().for_each(|edit| tool::sfdisk(image, edit)),
        keeps: usize::MAX,
        likewise: |_, _, _| true,
        difference: of_bytes,
    };
    no_difference(calls, &tool, |shape| singly(shape, 8));
}

pub fn cgpt_makes_the_same_bytes(calls: &Calls) {
    if !peer::present("cgpt", "cgpt") {
        return;
    }
    no_difference(calls, &by_cgpt(cgpt_likewise, of_bytes), |shape| singly(shape, 100));
}

/// Where it deletes it leaves stale bytes, and where it renames, the end of a longer name: the partitions are the same.
pub fn cgpt_leaves_the_same_partitions(calls: &Calls) {
    if !peer::present("cgpt", "cgpt") {
        return;
    }
    let likewise = |_: &Calls, _: &Disk, edit: &Edit| match edit {
        Edit::Add(new) => cgpt_adds(new),
        Edit::Rename(_, name) => unit_count(name) < 36,
        Edit::Delete(_) | Edit::Resize(_) => true,
    };
    no_difference(calls, &by_cgpt(likewise, of_tables), |shape| singly(shape, 60));
}

fn by_cgpt(
    likewise: fn(&Calls, &Disk, &Edit) -> bool,
    difference: fn(&Calls, &Disk, &Disk) -> Option<String>,
) -> Tool {
    let by = |image: &Path, edits: &[Edit]| edits.iter().for_each(|edit| tool::cgpt(image, edit));
    Tool { by, keeps: usize::MAX, likewise, difference }
}

/// It cuts a name of 36 units.
fn cgpt_adds(new: &Partition) -> bool {
    unit_count(&new.name) < 36 && new.attributes & !CGPT_BITS == 0
}

/// It cuts a name of 36 units, clears the type alone where a slot is deleted, and leaves what a longer name had.
fn cgpt_likewise(calls: &Calls, disk: &Disk, edit: &Edit) -> bool {
    let held = |slot: &u64| unit_count(&calls.row_of(disk, *slot).name);
    match edit {
        Edit::Add(new) => cgpt_adds(new),
        Edit::Delete(_) => false,
        Edit::Rename(slot, name) => (held(slot)..36).contains(&unit_count(name)),
        Edit::Resize(_) => true,
    }
}

fn unit_count(name: &str) -> usize {
    name.encode_utf16().count()
}

/// The disk after an edit by a tool.
pub(super) fn after(disk: &Disk, edit: impl Fn(&Path)) -> Disk {
    let image = disk.image();
    edit(&image.path);
    Disk::read(&image.path, disk.block).expect("an image")
}

/// The first ten usable blocks of 1000 in slot 1, named `name`, and ten more in slot 3, with 16 blocks between them.
fn two_partitions(calls: &Calls, shape: Shape, name: &str) -> Disk {
    let mut random = Random::new(1);
    let mut disk = calls.formatted(shape, 1000, DISK_GUID);
    for size in [10, 16, 10] {
        calls.add_drawn(&mut disk, size, &mut random).expect("room");
    }
    calls.delete_used(&mut disk, 2);
    calls.rename_used(&mut disk, 3, "behind");
    calls.rename_used(&mut disk, 1, name);
    disk
}

/// The bytes of slot 1.
fn slot_1(disk: &Disk) -> &[u8] {
    &disk.head[disk.shape().entries_in_head()..][..128]
}

pub(super) fn units(name: &str) -> Vec<u8> {
    name.encode_utf16().flat_map(u16::to_le_bytes).collect()
}

pub fn cgpt_differs_as_listed(calls: &Calls) {
    if peer::present("cgpt", "cgpt") {
        shapes().for_each(|shape| cgpt_differs(calls, shape));
    }
}

fn cgpt_differs(calls: &Calls, shape: Shape) {
    const NAME: usize = 56;
    let disk = two_partitions(calls, shape, "EFI System");
    let deleted = after(&disk, |image| tool::cgpt(image, &Edit::Delete(1)));
    assert_eq!(slot_1(&deleted)[..16], [0; 16]);
    assert_eq!(slot_1(&deleted)[16..], slot_1(&disk)[16..]);
    let mut ours = disk.clone();
    calls.delete_used(&mut ours, 1);
    assert_eq!(of_tables(calls, &ours, &deleted), None);
    let renamed = after(&disk, |image| tool::cgpt(image, &Edit::Rename(1, "boot".into())));
    assert_eq!(slot_1(&renamed)[NAME..][..20], units("boot\0ystem"));
    let long = "x".repeat(36);
    let renamed = after(&disk, |image| tool::cgpt(image, &Edit::Rename(1, long.clone())));
    assert_eq!(slot_1(&renamed)[NAME..], units(&format!("{}\0", &long[..35])));
    let image = disk.image();
    let placed = peer::run("cgpt", ["add", "-s", "5", "-t", "data", image.path.to_str().expect("a path")]);
    assert!(!placed.status.success());
}

/// The implementation puts a new partition of 5 blocks into slot 2 between the two; the tool that is told no place
/// puts it behind them.
fn placed_behind(calls: &Calls, by: impl Fn(&Path)) {
    for shape in shapes() {
        let disk = two_partitions(calls, shape, "boot");
        let new = |disk: &Disk| {
            let row = calls.table(disk).into_iter().find(|row| row.last == row.first + 4).expect("a new one");
            (row.slot, row.first - shape.first_usable)
        };
        let mut ours = disk.clone();
        calls.add_drawn(&mut ours, 5, &mut Random::new(2)).expect("room");
        assert_eq!([new(&ours), new(&after(&disk, &by))], [(2, 10), (2, 36)], "{shape:?}");
    }
}

pub fn sgdisk_starts_at_the_longest_run(calls: &Calls) {
    if peer::present("sgdisk", "gdisk") {
        placed_behind(calls, |image| {
            peer::printed("sgdisk", ["-a", "1", "-n", "0:0:+5", image.to_str().expect("a path")]);
        });
    }
}

pub fn sfdisk_starts_after_the_last_partition(calls: &Calls) {
    if peer::present("sfdisk", "fdisk") {
        placed_behind(calls, |image| {
            peer::feed("sfdisk", ["-q", "--append", image.to_str().expect("a path")], "size=5\n");
        });
    }
}

/// Edits that are refused, with the number.
fn refused(calls: &Calls, disk: &Disk) -> Vec<(u32, Edit)> {
    let (one, three) = (calls.row_of(disk, 1), calls.row_of(disk, 3));
    let twin = Partition { slot: 2, first: one.last + 1, last: one.last + 2, attributes: 0, ..one.clone() };
    let namesake = Partition { unique: calls.new_unique(disk), ..twin.clone() };
    let offending = Partition { attributes: 1 << 3, name: "offends".into(), ..namesake.clone() };
    let past_end = disk.n - disk.shape().first_usable + 1;
    vec![
        (12, Edit::Delete(129)),
        (13, Edit::Delete(2)),
        (13, Edit::Rename(2, "boot".into())),
        (22, Edit::Add(twin)),
        (26, Edit::Add(namesake)),
        (26, Edit::Rename(3, one.name.clone())),
        (28, Edit::Add(offending)),
        (25, Edit::Resize(Partition { last: three.first, ..one })),
        (25, Edit::Resize(Partition { last: past_end, ..three })),
    ]
}

/// The number with which an edit of two partitions is refused.
fn number(calls: &Calls, disk: &Disk, edit: &Edit) -> u32 {
    let mut disk = disk.clone();
    let answer = match edit {
        Edit::Add(Partition { first, last, kind, unique, attributes, name, .. }) => {
            let (size, alignment, attributes, rule) = (last - first + 1, 1, *attributes, Rule::Present);
            (calls.add)(&mut disk, &New { kind, unique, size, alignment, attributes, rule, name }).map(drop)
        }
        Edit::Delete(slot) => (calls.delete)(&mut disk, *slot),
        Edit::Rename(slot, name) => (calls.rename)(&mut disk, *slot, name),
        Edit::Resize(new) => (calls.resize)(&mut disk, new.slot, new.last - new.first + 1),
    };
    answer.expect_err("a refusal")
}

/// The tool leaves the disk alone where the implementation refuses, but for the numbers that it does not know.
fn refuses_likewise(calls: &Calls, by: fn(&Path, &Edit), unknown: &[u32]) {
    for disk in shapes().map(|shape| two_partitions(calls, shape, "boot")) {
        refuses_likewise_on(calls, &disk, by, unknown);
    }
}

fn refuses_likewise_on(calls: &Calls, disk: &Disk, by: fn(&Path, &Edit), unknown: &[u32]) {
    for (expected, edit) in refused(calls, disk) {
        assert_eq!(number(calls, disk, &edit), expected, "{edit:?}");
        // It may end in failure or not.
        let theirs = after(disk, |image| drop(std::panic::catch_unwind(|| by(image, &edit))));
        assert_eq!(disk.difference(&theirs).is_some(), unknown.contains(&expected), "{edit:?}");
    }
}

pub fn sgdisk_refuses_the_same(calls: &Calls) {
    if peer::present("sgdisk", "gdisk") {
        refuses_likewise(calls, |image, edit| tool::sgdisk(image, std::slice::from_ref(edit)), &[22, 26, 28]);
    }
}

/// It can't set bit 3, and adds without it.
pub fn sfdisk_refuses_the_same(calls: &Calls) {
    if peer::present("sfdisk", "fdisk") {
        refuses_likewise(calls, tool::sfdisk, &[22, 26, 28]);
    }
}

/// It can't be told of bit 3, and adds without it.
pub fn cgpt_refuses_the_same(calls: &Calls) {
    if peer::present("cgpt", "cgpt") {
        refuses_likewise(calls, tool::cgpt, &[26, 28]);
    }
}
