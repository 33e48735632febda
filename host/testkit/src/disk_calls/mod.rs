//! What an implementation of the disk calls is held to: samples, the fixtures, and other tools on the same disks.

mod aligned;
mod aligned_peers;
mod attributes;
mod attributes_peers;
mod edits;
mod names;
mod names_peers;
mod peers;
mod samples;
mod stale;
mod stale_peers;
mod strings;
mod strings_peers;
mod strings_rows;

pub use aligned::*;
pub use aligned_peers::*;
pub use attributes::*;
pub use attributes_peers::*;
pub use edits::*;
pub use names::*;
pub use names_peers::*;
pub use peers::*;
pub use samples::*;
pub use stale::*;
pub use stale_peers::*;
pub use strings::*;
pub use strings_peers::*;
pub use strings_rows::*;

use crate::device;
use crate::disk::{Disk, Shape, SHAPES};
use crate::edit::Edit;
use crate::fixture;
use crate::listing::{Free, Partition};
use crate::random::Random;

/// The calls of an implementation; GUIDs are texts, and an error is the refusal's number.
pub struct Calls {
    pub crc32: fn(&[u8]) -> u32,
    pub format: fn(&mut Disk, &str) -> Result<(), u32>,
    /// By alignment and layout string.
    pub build: fn(&mut Disk, u64, &[u8]) -> Result<(), u32>,
    pub state: fn(&Disk) -> Result<u64, u32>,
    /// The used entries.
    pub rows: fn(&Disk) -> Result<Vec<Partition>, u32>,
    pub free: fn(&Disk) -> Result<Free, u32>,
    /// Answers the first used slot that offends, or 0.
    pub check: fn(&Disk, Rule) -> Result<u64, u32>,
    /// Answers the slot.
    pub add: fn(&mut Disk, &New) -> Result<u64, u32>,
    pub delete: fn(&mut Disk, u64) -> Result<(), u32>,
    pub rename: fn(&mut Disk, u64, &str) -> Result<(), u32>,
    pub resize: fn(&mut Disk, u64, u64) -> Result<(), u32>,
    /// Answers the state found.
    pub repair: fn(&mut Disk) -> Result<u64, u32>,
}

/// A partition to add.
pub struct New<'a> {
    /// A short type name too.
    pub kind: &'a str,
    pub unique: &'a str,
    pub size: u64,
    pub alignment: u64,
    pub attributes: u64,
    pub rule: Rule,
    pub name: &'a str,
}

/// The rule that attributes are judged by (k2).
#[derive(Clone, Copy, Debug, PartialEq, Eq)]
pub enum Rule {
    Present,
    Earlier,
}

impl Rule {
    /// The bits that it wants zero (k1): 3 to 47, or 1 to 47.
    fn zero(self) -> u64 {
        match self {
            Rule::Present => 0x0000_FFFF_FFFF_FFF8,
            Rule::Earlier => 0x0000_FFFF_FFFF_FFFE,
        }
    }
}

/// The tests of an implementation's disk calls.
#[macro_export]
macro_rules! disk_tests {
    ($calls:expr) => {
        $crate::tests!(
            disk_calls,
            $calls,
            [
                samples_at_each_block_size,
                formatting_writes_all_of_head_and_tail,
                another_block_size_is_refused_first,
                starts_are_multiples,
                no_room_means_none_at_a_multiple,
                sizes_beyond_the_disk_have_no_room,
                another_alignment_is_refused_after_20,
                resizing_does_not_look_at_alignment,
                starts_are_those_that_a_search_finds,
                stale_bytes_are_no_partition,
                edits_leave_stale_bytes,
                an_add_overwrites_stale_bytes,
                stale_bytes_are_compared_and_repaired,
                stale_slots_are_places,
                a_type_makes_an_entry_a_used_one,
                a_name_is_given_once,
                the_empty_name_repeats,
                names_are_compared_whole,
                units_behind_a_zero_are_compared,
                names_of_stale_slots_are_free,
                disks_with_a_name_twice_are_read_and_edited,
                a_name_twice_is_refused_after_23,
                a_rule_wants_bits_zero,
                attribute_bits_are_refused_after_26,
                a_check_answers_the_first_offender,
                stale_bytes_offend_no_rule,
                a_check_goes_by_the_copy_that_reading_uses,
                no_other_call_looks_at_attributes,
                what_passes_the_earlier_rule_passes_the_present_one,
                adds_leave_no_offender,
                strings_of_document_004_become_disks,
                strings_as_document_004_prints_them_are_refused,
                drawn_strings_become_their_partitions,
                a_string_is_formatting_and_adds,
                former_contents_do_not_matter,
                fields_come_in_any_order_each_once,
                a_breach_anywhere_is_70,
                names_of_a_string,
                numbers_of_a_string,
                types_and_guids_of_a_string,
                starts_of_a_string,
                size_0_reaches_to_the_end_of_its_run,
                rows_of_a_string_in_their_order,
                the_most_that_a_string_can_have,
                fixtures_read_as_their_tool_said,
                names_of_fixtures_are_given_once,
                attributes_of_fixtures_are_checked,
                strings_of_fixtures_become_their_bytes,
                sgdisk_lists_the_same,
                sfdisk_lists_the_same,
                cgpt_lists_the_same,
                cgpt_lists_the_same_at_a_glance,
                sgdisk_finds_no_problem,
                sfdisk_finds_no_error,
                sfdisk_formats_to_the_same_bytes,
                sgdisk_counts_the_same_free_blocks,
                sfdisk_counts_the_same_free_blocks,
                cgpt_repairs_to_the_same_bytes,
                cgpt_repairs_without_the_rest_of_the_header_block,
                sgdisk_makes_the_same_bytes,
                sfdisk_makes_the_same_bytes,
                cgpt_makes_the_same_bytes,
                cgpt_leaves_the_same_partitions,
                cgpt_differs_as_listed,
                sgdisk_on_a_stale_slot,
                sfdisk_on_a_stale_slot,
                cgpt_on_a_stale_slot,
                sgdisk_gives_a_name_twice,
                sfdisk_gives_a_name_twice,
                cgpt_gives_a_name_twice,
                sgdisk_sets_bits_that_a_check_sees,
                sfdisk_sets_bits_that_a_check_sees,
                cgpt_sets_bits_that_a_check_sees,
                sgdisk_edits_offending_partitions_likewise,
                sgdisk_verifies_built_disks,
                sfdisk_verifies_built_disks,
                sgdisk_makes_the_same_bytes_of_a_string,
                sfdisk_makes_the_same_bytes_of_a_string,
                sgdisk_places_the_same,
                sfdisk_places_the_same,
                sfdisk_starts_at_1_mib_with_other_grains,
                sgdisk_aligns_to_1_mib_by_default,
                sfdisk_aligns_to_1_mib_by_default,
                sgdisk_starts_at_the_longest_run,
                sfdisk_starts_after_the_last_partition,
                sgdisk_refuses_the_same,
                sfdisk_refuses_the_same,
                cgpt_refuses_the_same,
            ]
        );
    };
}

/// The block sizes at which other tools can be given a disk.
fn shapes() -> impl Iterator<Item = Shape> {
    SHAPES.into_iter().filter(|shape| shape.block == 512 || device::present())
}

/// So many blocks as 2 TiB have; longer files are not made.
fn largest(shape: Shape) -> u64 {
    (1 << 41) / shape.block
}

const DISK_GUID: &str = "77777777-7777-7777-7777-777777777777";
const NAMES: [&str; 7] =
    ["", "boot", "Größe 3½", "a", "EFI System", "äöü€", "thirty-six units are in this name..."];
const KINDS: [&str; 6] = ["system", "msft", "data", "linux", "swap", "FE3A2A5D-4F32-41A7-B725-ACCC3285A309"];

impl Calls {
    fn formatted(&self, shape: Shape, n: u64, guid: &str) -> Disk {
        let mut disk = shape.filled(n, 0x5A);
        (self.format)(&mut disk, guid).expect("an empty table");
        disk
    }

    fn table(&self, disk: &Disk) -> Vec<Partition> {
        (self.rows)(disk).expect("a table")
    }

    fn row_of(&self, disk: &Disk, slot: u64) -> Partition {
        self.table(disk).into_iter().find(|row| row.slot == slot).expect("a used slot")
    }

    /// At the lowest block with room.
    fn add_drawn(&self, disk: &mut Disk, size: u64, random: &mut Random) -> Option<Edit> {
        self.add_drawn_at(disk, size, 1, random)
    }

    fn add_drawn_at(&self, disk: &mut Disk, size: u64, alignment: u64, random: &mut Random) -> Option<Edit> {
        let kind = random.pick(&KINDS);
        let unique = guid_text(&random.bytes(16));
        let rule = random.pick(&[Rule::Present, Rule::Earlier]);
        let attributes = random.number() & random.pick(&[0, 0xFFFF_0000_0000_0005, u64::MAX]);
        let name = self.new_name(disk, None, random);
        let mut new = New { kind, unique: &unique, size, alignment, attributes, rule, name: &name };
        if attributes & rule.zero() != 0 {
            let refused = (self.add)(&mut disk.clone(), &new);
            assert!(matches!(refused, Err(11 | 28)), "{attributes:X} by {rule:?}: {refused:?}");
            new.attributes &= !rule.zero();
        }
        let slot = (self.add)(disk, &new).ok()?;
        Some(Edit::Add(self.row_of(disk, slot)))
    }

    /// A name of the list, with a number where another slot than `own` has it.
    fn new_name(&self, disk: &Disk, own: Option<u64>, random: &mut Random) -> String {
        let others = self.table(disk).into_iter().filter(|row| Some(row.slot) != own);
        let held: Vec<String> = others.map(|row| row.name).collect();
        let name = random.pick(&NAMES);
        let numbered = (1..).map(|number| numbered(name, number));
        let mut names = [name.to_string()].into_iter().chain(numbered);
        names.find(|name| name.is_empty() || !held.contains(name)).expect("a number")
    }

    /// A unique GUID that no slot has.
    fn new_unique(&self, disk: &Disk) -> String {
        let held: Vec<String> = self.table(disk).into_iter().map(|row| row.unique).collect();
        (1..).map(unique).find(|unique| !held.contains(unique)).expect("a number")
    }

    fn delete_used(&self, disk: &mut Disk, slot: u64) -> Edit {
        (self.delete)(disk, slot).expect("a used slot");
        Edit::Delete(slot)
    }

    fn rename_used(&self, disk: &mut Disk, slot: u64, name: &str) -> Edit {
        (self.rename)(disk, slot, name).expect("a used slot");
        Edit::Rename(slot, name.to_string())
    }

    fn resize_used(&self, disk: &mut Disk, slot: u64, size: u64) -> Option<Edit> {
        (self.resize)(disk, slot, size).ok()?;
        Some(Edit::Resize(self.row_of(disk, slot)))
    }

    /// An edit that is accepted and that the tool makes likewise.
    fn edit(&self, disk: &mut Disk, random: &mut Random, likewise: impl Fn(&Disk, &Edit) -> bool) -> Edit {
        loop {
            let mut after = disk.clone();
            match self.drawn(&mut after, random) {
                Some(edit) if likewise(disk, &edit) => {
                    *disk = after;
                    return edit;
                }
                _ => {}
            }
        }
    }

    fn drawn(&self, disk: &mut Disk, random: &mut Random) -> Option<Edit> {
        let used = self.table(disk);
        let bound = random.pick(&[3, 40, disk.n / 3]);
        let size = 1 + random.number_below(bound);
        let choice = if used.is_empty() { 0 } else { random.below(6) };
        let slot = if choice == 0 { 0 } else { used[random.below(used.len())].slot };
        match choice {
            0..=2 => {
                let alignment = random.pick(&[1, 1, 8, 2048]);
                self.add_drawn_at(disk, size, alignment, random)
            }
            3 => Some(self.delete_used(disk, slot)),
            4 => {
                let name = self.new_name(disk, Some(slot), random);
                Some(self.rename_used(disk, slot, &name))
            }
            _ => self.resize_used(disk, slot, size),
        }
    }

    /// Changes a byte of slot 1, in both copies, and makes the CRCs right again.
    fn change(&self, disk: &mut Disk, at: usize) {
        disk.entry(1).into_iter().for_each(|entry| entry[at] ^= 1);
        disk.set_crcs(self.crc32);
    }

    /// Gives a slot a name by its bytes, whoever carries it.
    fn write_name(&self, disk: &mut Disk, slot: u64, name: &str) {
        let mut bytes: Vec<u8> = name.encode_utf16().flat_map(u16::to_le_bytes).collect();
        bytes.resize(72, 0);
        disk.entry(slot).into_iter().for_each(|entry| entry[56..].copy_from_slice(&bytes));
        disk.set_crcs(self.crc32);
    }
}

/// A number at the end of a name, in the place of its last units where it has 36.
fn numbered(name: &str, number: u32) -> String {
    let number = format!(" {number}");
    let kept: String = name.chars().take(36 - number.len()).collect();
    kept + &number
}

fn unique(number: u64) -> String {
    format!("00000000-0000-4000-8000-{number:012}")
}

/// The text of some GUID.
fn guid_text(bytes: &[u8]) -> String {
    let hex: String = bytes.iter().map(|byte| format!("{byte:02X}")).collect();
    [&hex[..8], &hex[8..12], &hex[12..16], &hex[16..20], &hex[20..]].join("-")
}

/// Disks that other tools made are read in the state and with the partitions that the tool told.
pub fn fixtures_read_as_their_tool_said(calls: &Calls) {
    let (mut states, mut blocks) = (Vec::new(), Vec::new());
    for path in fixture::files("gpt", "disk") {
        let fixture = fixture::disk(&path).expect("a fixture");
        let name = path.display();
        assert_eq!((calls.state)(&fixture.disk), fixture.reads_as, "{name}");
        let told = fixture.reads_as.map(|_| fixture.partitions);
        assert_eq!((calls.rows)(&fixture.disk), told, "{name}");
        states.push(fixture.reads_as);
        blocks.push(fixture.disk.block);
    }
    states.sort();
    states.dedup();
    // All states, and the refusal of another first usable block.
    assert_eq!(states, [Ok(1), Ok(2), Ok(3), Ok(4), Err(10)]);
    blocks.sort();
    blocks.dedup();
    assert_eq!(blocks, [512, 4096]);
}
