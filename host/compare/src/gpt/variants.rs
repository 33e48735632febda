mod aligned;
mod attributes;
mod names;
mod shape;
mod unused;

use crate::topic::{number_variants, order_variants, variant, Order, Variant};
use second::rules::{EditSlip, Holds, Longest, Row, Slot, Start, Tail, Unjudged, Which};

pub const RULES_TO_BREAK: &[&str] = &[
    "Q1", "Q2", "Q3", "Q6", "R1", "R2", "R3", "R4", "R5", "R6", "R7", "R8", "R9", "R10", "R11", "R12", "R13",
    "R25", "R26", "R27", "R28", "R29", "R30", "D1", "D2", "D3", "D4", "D5", "D6", "D7", "D8", "D9", "D10",
    "D11", "D12", "D13", "D14", "D15", "D16", "D17", "D18", "D19", "D20", "D21", "D22", "D23", "D24", "E1",
    "E2", "a1", "a2", "a3", "a4", "e1", "e2", "e4", "e5", "f1", "f2", "f3", "f4", "f5", "k1", "k2", "k3",
    "k4", "k6", "l1", "l2", "l3", "l7",
];

pub fn all() -> Vec<Variant> {
    let groups = [
        shape::variants(),
        rows(),
        number_variants(NUMBERS),
        order_variants(ORDERS),
        headers(),
        entries(),
        unused::variants(),
        aligned::variants(),
        names::variants(),
        attributes::variants(),
        reading(),
        writing(),
        sums(),
    ];
    groups.into_iter().flatten().collect()
}

fn rows() -> Vec<Variant> {
    vec![
        variant("big-endian", "Q6", |r| r.gpt.little_endian = false),
        variant("refusal-zeroes-a-byte", "R1", |r| r.refusals.zeroes = 1),
        variant("refusal-zeroes-answers", "R1", |r| r.refusals.zeroes_answers = true),
        variant("no-row-but-the-first", "R2", |r| r.gpt.add_order = &[Row::WrongLength]),
        variant("repair-answers-1", "R3", |r| r.gpt.repair_answers_found = false),
        variant("add-answers-end", "R3", |r| r.gpt.add_answers_first = false),
        variant("guid-of-15", "R4", |r| r.gpt.disk_guid_len = 15),
        variant("guid-of-17", "R4", |r| r.gpt.disk_guid_len = 17),
        variant("type-of-15", "R4", |r| r.gpt.kind_len = 15),
        variant("type-of-17", "R4", |r| r.gpt.kind_len = 17),
        variant("unique-of-15", "R4", |r| r.gpt.unique_len = 15),
        variant("unique-of-17", "R4", |r| r.gpt.unique_len = 17),
        variant("name-of-35", "R4", |r| r.gpt.name_units = 35),
        variant("name-of-37", "R4", |r| r.gpt.name_units = 37),
        variant("disk-guid-zero-by-15-bytes", "R6", |r| r.gpt.zero_disk_guid_len = 15),
        variant("slot-0-taken", "R9", |r| r.gpt.slot_min = 0),
        variant("slot-1-refused", "R9", |r| r.gpt.slot_min = 2),
        variant("slot-128-refused", "R9", |r| r.gpt.slot_max = 127),
        variant("slot-129-taken", "R9", |r| r.gpt.slot_max = 129),
        variant("slots-from-0", "R9", |r| r.gpt.slot_base = 0),
        variant("size-0-taken", "R10", |r| r.gpt.size_min = 0),
        variant("size-1-refused", "R10", |r| r.gpt.size_min = 2),
        variant("type-zero-by-15-bytes", "R11", |r| r.gpt.zero_kind_len = 15),
        variant("unique-zero-taken", "R11", |r| r.gpt.zero_unique_refused = false),
        variant("unique-twice-taken", "R11", |r| r.gpt.taken_unique_refused = false),
        variant("name-judged-to-35", "R12", |r| r.gpt.name_judged_units = 35),
        variant("name-judged-by-low-byte", "R12", |r| r.gpt.name_unit_mask = 0x00FF),
        variant("name-judged-by-high-byte", "R12", |r| r.gpt.name_unit_mask = 0xFF00),
        variant("room-by-total", "R13", |r| r.gpt.room = Longest::AllRuns),
        variant("room-by-first-run", "R13", |r| r.gpt.room = Longest::FirstRun),
        variant("room-by-last-run", "R13", |r| r.gpt.room = Longest::LastRun),
        variant("room-by-sum-of-32-bits", "R13", |r| r.gpt.room_bits = 0xFFFF_FFFF),
        variant("room-by-sum-of-64-bits", "R13", |r| r.gpt.room_bits = u128::from(u64::MAX)),
    ]
}

/// Another number for each refusal.
const NUMBERS: &[(Row, &str, u32)] = &[
    (Row::BlockSize, "l7", 2),
    (Row::WrongLength, "R4", 2),
    (Row::BadBlockCount, "R5", 1),
    (Row::ZeroDiskGuid, "R6", 4),
    (Row::NoGoodCopy, "R7", 11),
    (Row::NotSame, "R8", 10),
    (Row::NoSuchSlot, "R9", 13),
    (Row::UnusedSlot, "R9", 12),
    (Row::ZeroSize, "R10", 25),
    (Row::Alignment, "e5", 25),
    (Row::ZeroType, "R11", 22),
    (Row::UniqueTaken, "R11", 21),
    (Row::BadName, "R12", 53),
    (Row::NameTaken, "a4", 23),
    (Row::AttributeBits, "k6", 26),
    (Row::NoSlot, "R13", 25),
    (Row::NoRoom, "R13", 24),
];

const ORDERS: &[Order] = &[
    ("format", "R25", |r| &mut r.gpt.format_order, None),
    ("read", "R26", |r| &mut r.gpt.read_order, None),
    ("table", "R26", |r| &mut r.gpt.table_order, None),
    ("free", "R26", |r| &mut r.gpt.free_order, None),
    ("check", "k6", |r| &mut r.gpt.check_order, None),
    ("repair", "R26", |r| &mut r.gpt.repair_order, None),
    ("add", "R27", |r| &mut r.gpt.add_order, None),
    ("delete", "R28", |r| &mut r.gpt.delete_order, None),
    ("rename", "R29", |r| &mut r.gpt.rename_order, None),
    // A resize to no blocks always has room.
    ("resize", "R30", |r| &mut r.gpt.resize_order, Some(Row::NoRoom)),
];

fn headers() -> Vec<Variant> {
    let mut variants = vec![
        variant("signature-in-lower-case", "D1", |r| r.gpt.header[0].holds = Holds::Bytes(b"efi part")),
        variant("revision-1.2", "D1", |r| r.gpt.header[1].holds = Holds::Bytes(&[2, 0, 1, 0])),
        variant("revision-reversed", "D1", |r| r.gpt.header[1].holds = Holds::Bytes(&[0, 1, 0, 0])),
        variant("header-size-512", "D1", |r| r.gpt.header[2].holds = Holds::Number(512)),
        variant("header-ends-at-88", "D1", |r| r.gpt.header_len = 88),
        variant("reserved-1", "D1", |r| r.gpt.header[4].holds = Holds::Number(1)),
        variant("own-block-is-other", "D1", |r| r.gpt.header[5].holds = Holds::OtherBlock),
        variant("other-block-is-own", "D1", |r| r.gpt.header[6].holds = Holds::OwnBlock),
        variant("first-usable-2048", "D1", |r| r.gpt.header[7].holds = Holds::Number(2048)),
        variant("disk-guid-at-60", "D1", |r| r.gpt.header[9].at = 60),
        variant("entries-block-2-in-both", "D1", |r| r.gpt.header[10].holds = Holds::Number(2)),
        variant("count-129", "D1", |r| r.gpt.header[11].holds = Holds::Number(129)),
        variant("127-entries", "D1", |r| r.gpt.count = 127),
        variant("entry-size-256", "D1", |r| r.gpt.header[12].holds = Holds::Number(256)),
        variant("entries-of-64", "D1", |r| r.gpt.entry_len = 64),
        variant("entries-crc-of-16256", "D1", |r| r.gpt.entries_crc_len = 16_256),
        variant("entries-crc-of-16383", "D1", |r| r.gpt.entries_crc_len = 16_383),
        variant("entries-crc-of-512", "D1", |r| r.gpt.entries_crc_len = 512),
        variant("backup-header-copied", "E2", |r| r.gpt.backup_header_copied = true),
        variant("disk-crc-starts-at-0", "D3", |r| r.crc.start = 0),
        variant("header-crc-of-88", "D4", |r| r.gpt.header_crc_len = 88),
        variant("header-crc-of-91", "D4", |r| r.gpt.header_crc_len = 91),
        variant("header-crc-of-512", "D4", |r| r.gpt.header_crc_len = 512),
        variant("header-crc-own-field-ones", "D4", |r| r.gpt.header_crc_own_byte = 0xFF),
        variant("entry-rules-not-judged", "D8", |r| r.gpt.entry_rules_judged = false),
    ];
    for k in (0..second::RULES.gpt.header.len()).filter(|k| second::RULES.gpt.header[*k].judged) {
        let at = second::RULES.gpt.header[k].at;
        let name = format!("header-field-{at}-not-judged");
        variants.push(variant(name, "D8", |r| r.gpt.header[k].judged = false));
        let name = format!("header-field-{at}-shorter");
        variants.push(variant(name, "D1", |r| {
            r.gpt.header[k].len -= 1;
            if let Holds::Bytes(bytes) = r.gpt.header[k].holds {
                r.gpt.header[k].holds = Holds::Bytes(&bytes[..bytes.len() - 1]);
            }
        }));
    }
    variants
}

fn entries() -> Vec<Variant> {
    vec![
        variant("type-and-unique-exchanged", "D5", |r| (r.gpt.entry.kind, r.gpt.entry.unique) = (16, 0)),
        variant("first-and-last-exchanged", "D5", |r| (r.gpt.entry.first, r.gpt.entry.last) = (40, 32)),
        variant("attributes-at-52", "D5", |r| r.gpt.entry.attributes = 52),
        variant("name-at-57", "D5", |r| r.gpt.entry.name = 57),
        variant("name-at-48", "D5", |r| (r.gpt.entry.name, r.gpt.entry.attributes) = (48, 120)),
        variant("last-block-exclusive", "E1", |r| r.gpt.last_past = 1),
        variant("last-before-first", "D7", |r| r.gpt.first_at_most_last = false),
        variant("zero-unique-good", "D7", |r| r.gpt.zero_unique_bad = false),
        variant("equal-uniques-good", "D7", |r| r.gpt.uniques_differ = false),
        variant("shared-blocks-good", "D7", |r| r.gpt.ranges_disjoint = false),
    ]
}

fn reading() -> Vec<Variant> {
    let unjudged = [
        Unjudged::Names,
        Unjudged::Attributes,
        Unjudged::AttributeBits,
        Unjudged::DiskGuid,
        Unjudged::Block0,
        Unjudged::HeaderTail,
    ];
    let mut variants: Vec<Variant> = unjudged
        .into_iter()
        .map(|also| variant(format!("{also:?}-judged"), "D9", |r| r.gpt.also_judged = Some(also)))
        .collect();
    variants.extend([
        variant("states-1-and-2-exchanged", "D10", |r| r.gpt.states = [2, 1, 3, 4]),
        variant("states-3-and-4-exchanged", "D10", |r| r.gpt.states = [1, 2, 4, 3]),
        variant("states-from-0", "D10", |r| r.gpt.states = [0, 1, 2, 3]),
        variant("state-1-by-entries", "D10", |r| r.gpt.same_disk_guid = false),
        variant("state-1-by-guid", "D10", |r| r.gpt.same_entries_len = 0),
        variant("state-1-by-127-entries", "D10", |r| r.gpt.same_entries_len = 127 * 128),
        variant("state-1-by-header-tails", "D10", |r| r.gpt.same_header_tails = true),
        variant("state-2-uses-backup", "D10", |r| r.gpt.different_uses = Which::Backup),
        variant("table-sides-exchanged", "D11", |r| r.gpt.table_in = [1, 0]),
        variant("table-always-primary", "D11", |r| r.gpt.table_of = Some(Which::Primary)),
        variant("table-always-backup", "D11", |r| r.gpt.table_of = Some(Which::Backup)),
        variant("longest-is-total", "D12", |r| r.gpt.longest = Longest::AllRuns),
        variant("longest-is-first", "D12", |r| r.gpt.longest = Longest::FirstRun),
        variant("longest-is-last", "D12", |r| r.gpt.longest = Longest::LastRun),
        variant("free-of-backup", "D21", |r| r.gpt.free_of = Some(Which::Backup)),
    ]);
    variants
}

fn writing() -> Vec<Variant> {
    let slips = [
        EditSlip::HeaderTailsZeroed,
        EditSlip::Block0Written,
        EditSlip::PrimaryAlone,
        EditSlip::BackupAlone,
        EditSlip::EntriesCrcKept,
        EditSlip::HeaderCrcKept,
    ];
    let mut variants: Vec<Variant> = slips
        .into_iter()
        .map(|slip| variant(format!("edit-{slip:?}"), "D23", |r| r.gpt.edit_slip = Some(slip)))
        .collect();
    variants.extend(block_0());
    variants.extend([
        variant("header-tails-ones", "D14", |r| r.gpt.format_tail_byte = 0xFF),
        variant("highest-slot", "D15", |r| r.gpt.slot = Slot::HighestUnused),
        variant("slot-after-last", "D15", |r| r.gpt.slot = Slot::AfterLastUsed),
        variant("highest-start", "D15", |r| r.gpt.start = Start::Highest),
        variant("start-in-highest-run", "D15", |r| r.gpt.start = Start::InHighestRun),
        variant("start-in-shortest-run", "D15", |r| r.gpt.start = Start::InShortestRun),
        variant("start-in-longest-run", "D15", |r| r.gpt.start = Start::InLongestRun),
        variant("delete-keeps-last-byte", "D16", |r| r.gpt.delete_zeroes = 127),
        variant("rename-of-35-units", "D17", |r| r.gpt.rename_units = 35),
        variant("rename-ends-at-zero", "D17", |r| r.gpt.rename_stops_at_zero = true),
        variant("resize-to-size-and-1", "D18", |r| r.gpt.resize_last_less = 0),
        variant("resize-to-size-less-1", "D18", |r| r.gpt.resize_last_less = 2),
        variant("resize-over-others", "D18", |r| r.gpt.resize_judges_others = false),
        variant("resize-zeroes-attributes", "D18", |r| r.gpt.resize_zeroes_attributes = true),
        variant("repair-writes-in-state-1", "D24", |r| r.gpt.repair_rewrites_same = true),
        variant("repair-from-backup", "D24", |r| r.gpt.repair_from = Which::Backup),
        variant("repair-keeps-header-tail", "D24", |r| r.gpt.repair_tail = Tail::Kept),
        variant("repair-copies-header-tail", "D24", |r| r.gpt.repair_tail = Tail::Copied),
        variant("repair-writes-block-0", "D24", |r| r.gpt.repair_writes_block_0 = true),
        variant("repair-keeps-disk-guid", "D24", |r| r.gpt.repair_takes_disk_guid = false),
    ]);
    variants
}

/// D13: each field of block 0 with another value or place.
fn block_0() -> Vec<Variant> {
    vec![
        variant("record-active", "D13", |r| r.gpt.block_0[0].holds = Holds::Number(0x80)),
        variant("record-from-sector-1", "D13", |r| r.gpt.block_0[1].holds = Holds::Bytes(&[0, 1, 0])),
        variant("record-type-ef", "D13", |r| r.gpt.block_0[2].holds = Holds::Number(0xEF)),
        variant("record-to-fe-ff-ff", "D13", |r| r.gpt.block_0[3].holds = Holds::Bytes(&[0xFE, 0xFF, 0xFF])),
        variant("record-from-block-0", "D13", |r| r.gpt.block_0[4].holds = Holds::Number(0)),
        variant("record-size-at-462", "D13", |r| r.gpt.block_0[5].at = 462),
        variant("record-size-of-8-bytes", "D13", |r| r.gpt.block_0[5].len = 3),
        variant("block-0-ends-aa-55", "D13", |r| r.gpt.block_0[6].holds = Holds::Bytes(&[0xAA, 0x55])),
        variant("block-0-mark-at-508", "D13", |r| r.gpt.block_0[6].at = 508),
    ]
}

fn sums() -> Vec<Variant> {
    vec![
        variant("sums-of-one-call", "D19", |r| r.gpt.ledger.whole_list = false),
        variant("sums-go-on-after-formatting", "D20", |r| r.gpt.ledger.starts_at_formatting = false),
        variant("add-grants-one-more", "D22", |r| r.gpt.ledger.add_grants_besides = 1),
        variant("delete-gives-first-size-back", "D22", |r| r.gpt.ledger.delete_gives_last_size = false),
        variant("resize-grants-whole-size", "D22", |r| r.gpt.ledger.resize_by_difference = false),
        variant("rename-grants", "D22", |r| r.gpt.ledger.rename_grants = 1),
        variant("repair-grants", "D22", |r| r.gpt.ledger.repair_grants = 1),
        variant("refusal-grants", "D22", |r| r.gpt.ledger.refusal_grants = 1),
    ]
}
