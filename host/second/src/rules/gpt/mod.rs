mod alignment;
mod attributes;
mod names;
mod operands;
mod shape;
mod strings;
mod unused;

pub use alignment::*;
pub use attributes::*;
pub use names::*;
pub use operands::*;
pub use shape::*;
pub use strings::*;
pub use unused::*;

use super::Row;

/// How the sums over calls and replies go.
#[derive(Clone, Copy, Debug)]
pub struct LedgerRules {
    /// D19: one claim about the whole list, not one for each call.
    pub whole_list: bool,
    /// D20: the list follows an accepted formatting.
    pub starts_at_formatting: bool,
    /// D22: an accepted add grants the size asked and this.
    pub add_grants_besides: u64,
    /// D22: a delete gives back the size last accepted, not the one granted first.
    pub delete_gives_last_size: bool,
    /// D22: a resize grants or gives back the difference, not the size asked.
    pub resize_by_difference: bool,
    /// D22: rename, repair and refused calls grant nothing.
    pub rename_grants: u64,
    pub repair_grants: u64,
    pub refusal_grants: u64,
    /// e4: room for an add is what is free from a multiple of its alignment on.
    pub room_by_multiples: bool,
    /// a1, a2: no two used slots carry the same name, by so many bytes of it; the empty one may repeat.
    pub names_differ_in: usize,
    pub empty_names_repeat: bool,
    /// k1, k2: after a list of calls no used slot has one of the first bits, and none of the others if every add that was
    /// accepted named the earlier rule.
    pub zero_after_any: Bits,
    pub zero_after_earlier: Bits,
    pub after_earlier_alone: bool,
    /// k4: a table that passes the rule of the first number passes that of the second.
    pub passes: [u64; 2],
    /// b9.
    pub strings: StringSums,
}

/// The disk: Q1 to Q3, R25 to R30, D1 to D24, and of document 02 the sentences of requests l, f, e, a, k and b, l1 to l7,
/// f1 to f5, e1 to e5, a1 to a4, k1 to k6 and b1 to b10.
#[derive(Clone, Copy, Debug)]
pub struct GptRules {
    /// l3: of each block size.
    pub shapes: [Shape; 2],
    /// l3: the bits of the number that names the block size.
    pub block_size_mask: u64,
    /// Q6.
    pub little_endian: bool,
    /// R4, D15: lengths of the other lent buffers.
    pub disk_guid_len: usize,
    pub kind_len: usize,
    pub unique_len: usize,
    pub name_units: usize,

    /// R25 to R30, each after l7; in an add e5, in an add and a rename a4, in an add and of a check k6.
    pub format_order: &'static [Row],
    pub read_order: &'static [Row],
    pub table_order: &'static [Row],
    pub free_order: &'static [Row],
    pub check_order: &'static [Row],
    pub repair_order: &'static [Row],
    pub add_order: &'static [Row],
    pub delete_order: &'static [Row],
    pub rename_order: &'static [Row],
    pub resize_order: &'static [Row],

    /// R6: so many bytes decide whether the disk GUID is zero.
    pub zero_disk_guid_len: usize,
    /// R9.
    pub slot_min: u64,
    pub slot_max: u64,
    /// R9: the number of the first slot.
    pub slot_base: u64,
    /// R10: sizes below this are refused.
    pub size_min: u64,
    /// R11.
    pub zero_kind_len: usize,
    pub zero_unique_refused: bool,
    pub taken_unique_refused: bool,
    /// R12: so many units are judged, each as a whole, not by its low byte.
    pub name_judged_units: usize,
    pub name_unit_mask: u16,
    /// a1 to a3.
    pub names: NameRules,
    /// R13: what must be at least the size.
    pub room: Longest,
    /// R13, D15: the bits of the sum of a start and a size.
    pub room_bits: u128,

    /// D1.
    pub header_len: usize,
    pub header: [Field; 14],
    pub count: usize,
    pub entry_len: usize,
    /// D1: "all 16,384 entry bytes".
    pub entries_crc_len: usize,
    /// D4.
    pub header_crc_len: usize,
    pub header_crc_own_byte: u8,
    /// D5.
    pub entry: EntryFields,
    /// D5, E1: how far the stored last block lies past the last one of the partition.
    pub last_past: u64,
    /// D6, f1 to f4.
    pub unused: UnusedRules,
    /// D7.
    pub first_at_most_last: bool,
    pub zero_unique_bad: bool,
    pub uniques_differ: bool,
    pub ranges_disjoint: bool,
    /// D8.
    pub entry_rules_judged: bool,
    /// D9.
    pub also_judged: Option<Unjudged>,
    /// D10.
    pub states: [u64; 4],
    pub same_disk_guid: bool,
    pub same_entries_len: usize,
    pub same_header_tails: bool,
    pub different_uses: Which,
    /// D11: the answers for head and tail; `None` stands for the copy that reading uses.
    pub table_in: [u64; 2],
    pub table_of: Option<Which>,
    /// D12.
    pub longest: Longest,
    /// D13.
    pub block_0: [Field; 7],
    /// D14.
    pub format_tail_byte: u8,
    /// D15.
    pub slot: Slot,
    pub start: Start,
    /// e1 to e5.
    pub alignment: AlignmentRules,
    /// k1 to k3.
    pub attributes: AttributeRules,
    /// b1 to b8, b10.
    pub strings: StringRules,
    /// D16, f5.
    pub delete_zeroes: usize,
    /// D17: units written, and whether a zero one ends them.
    pub rename_units: usize,
    pub rename_stops_at_zero: bool,
    /// D18.
    pub resize_last_less: u64,
    pub resize_judges_others: bool,
    pub resize_zeroes_attributes: bool,
    /// D21.
    pub free_of: Option<Which>,
    /// D23.
    pub edit_slip: Option<EditSlip>,
    /// D24: whether state 1 is written too.
    pub repair_rewrites_same: bool,
    pub repair_from: Which,
    pub repair_tail: Tail,
    pub repair_writes_block_0: bool,
    pub repair_takes_disk_guid: bool,
    /// R3: repair answers the state found, add the first block.
    pub repair_answers_found: bool,
    pub add_answers_first: bool,
    /// E2.
    pub backup_header_copied: bool,
    pub ledger: LedgerRules,
}

const fn field(at: usize, len: usize, holds: Holds) -> Field {
    Field { at, len, holds, judged: true }
}

const fn unjudged(at: usize, len: usize, holds: Holds) -> Field {
    Field { at, len, holds, judged: false }
}

pub const GPT: GptRules = GptRules {
    shapes: SHAPES,
    block_size_mask: u64::MAX,
    little_endian: true,
    disk_guid_len: 16,
    kind_len: 16,
    unique_len: 16,
    name_units: 36,

    format_order: &[Row::BlockSize, Row::WrongLength, Row::BadBlockCount, Row::ZeroDiskGuid],
    read_order: &[Row::BlockSize, Row::WrongLength, Row::BadBlockCount, Row::NoGoodCopy],
    table_order: &[Row::BlockSize, Row::WrongLength, Row::BadBlockCount, Row::NoGoodCopy],
    free_order: &[Row::BlockSize, Row::WrongLength, Row::BadBlockCount, Row::NoGoodCopy],
    check_order: &[Row::BlockSize, Row::WrongLength, Row::BadBlockCount, Row::NoGoodCopy],
    repair_order: &[Row::BlockSize, Row::WrongLength, Row::BadBlockCount, Row::NoGoodCopy],
    add_order: &[
        Row::BlockSize,
        Row::WrongLength,
        Row::BadBlockCount,
        Row::NoGoodCopy,
        Row::NotSame,
        Row::ZeroSize,
        Row::Alignment,
        Row::ZeroType,
        Row::UniqueTaken,
        Row::BadName,
        Row::NameTaken,
        Row::AttributeBits,
        Row::NoSlot,
        Row::NoRoom,
    ],
    delete_order: &[
        Row::BlockSize,
        Row::WrongLength,
        Row::BadBlockCount,
        Row::NoGoodCopy,
        Row::NotSame,
        Row::NoSuchSlot,
        Row::UnusedSlot,
    ],
    rename_order: &[
        Row::BlockSize,
        Row::WrongLength,
        Row::BadBlockCount,
        Row::NoGoodCopy,
        Row::NotSame,
        Row::NoSuchSlot,
        Row::UnusedSlot,
        Row::BadName,
        Row::NameTaken,
    ],
    resize_order: &[
        Row::BlockSize,
        Row::WrongLength,
        Row::BadBlockCount,
        Row::NoGoodCopy,
        Row::NotSame,
        Row::NoSuchSlot,
        Row::UnusedSlot,
        Row::ZeroSize,
        Row::NoRoom,
    ],

    zero_disk_guid_len: 16,
    slot_min: 1,
    slot_max: 128,
    slot_base: 1,
    size_min: 1,
    zero_kind_len: 16,
    zero_unique_refused: true,
    taken_unique_refused: true,
    name_judged_units: 36,
    name_unit_mask: 0xFFFF,
    names: NAMES,
    room: Longest::Run,
    room_bits: u128::MAX,

    header_len: 92,
    header: [
        field(0, 8, Holds::Bytes(b"EFI PART")),
        field(8, 4, Holds::Bytes(&[0, 0, 1, 0])),
        field(12, 4, Holds::Number(92)),
        field(16, 4, Holds::HeaderCrc),
        field(20, 4, Holds::Number(0)),
        field(24, 8, Holds::OwnBlock),
        field(32, 8, Holds::OtherBlock),
        field(40, 8, Holds::FirstUsable),
        field(48, 8, Holds::LastUsable),
        unjudged(56, 16, Holds::DiskGuid),
        field(72, 8, Holds::EntriesBlock),
        field(80, 4, Holds::Number(128)),
        field(84, 4, Holds::Number(128)),
        field(88, 4, Holds::EntriesCrc),
    ],
    count: 128,
    entry_len: 128,
    entries_crc_len: 16_384,
    header_crc_len: 92,
    header_crc_own_byte: 0,
    entry: EntryFields { kind: 0, unique: 16, first: 32, last: 40, attributes: 48, name: 56 },
    last_past: 0,
    unused: UNUSED,
    first_at_most_last: true,
    zero_unique_bad: true,
    uniques_differ: true,
    ranges_disjoint: true,
    entry_rules_judged: true,
    also_judged: None,
    states: [1, 2, 3, 4],
    same_disk_guid: true,
    same_entries_len: 16_384,
    same_header_tails: false,
    different_uses: Which::Primary,
    table_in: [0, 1],
    table_of: None,
    longest: Longest::Run,
    block_0: [
        unjudged(446, 1, Holds::Number(0)),
        unjudged(447, 3, Holds::Bytes(&[0x00, 0x02, 0x00])),
        unjudged(450, 1, Holds::Number(0xEE)),
        unjudged(451, 3, Holds::Bytes(&[0xFF, 0xFF, 0xFF])),
        unjudged(454, 4, Holds::Number(1)),
        unjudged(458, 4, Holds::RecordSize),
        unjudged(510, 2, Holds::Bytes(&[0x55, 0xAA])),
    ],
    format_tail_byte: 0,
    slot: Slot::LowestUnused,
    start: Start::Lowest,
    alignment: ALIGNMENT,
    attributes: ATTRIBUTES,
    strings: STRINGS,
    delete_zeroes: 128,
    rename_units: 36,
    rename_stops_at_zero: false,
    resize_last_less: 1,
    resize_judges_others: true,
    resize_zeroes_attributes: false,
    free_of: None,
    edit_slip: None,
    repair_rewrites_same: false,
    repair_from: Which::Primary,
    repair_tail: Tail::Zero,
    repair_writes_block_0: false,
    repair_takes_disk_guid: true,
    repair_answers_found: true,
    add_answers_first: true,
    backup_header_copied: false,
    ledger: LedgerRules {
        whole_list: true,
        starts_at_formatting: true,
        add_grants_besides: 0,
        delete_gives_last_size: true,
        resize_by_difference: true,
        rename_grants: 0,
        repair_grants: 0,
        refusal_grants: 0,
        room_by_multiples: true,
        names_differ_in: 72,
        empty_names_repeat: true,
        zero_after_any: Bits { first: 3, last: 47 },
        zero_after_earlier: Bits { first: 1, last: 47 },
        after_earlier_alone: true,
        passes: [1, 0],
        strings: STRING_SUMS,
    },
};
