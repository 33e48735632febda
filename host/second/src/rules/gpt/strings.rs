use super::super::Row;

/// The fields of a partition.
#[derive(Clone, Copy, Debug, PartialEq, Eq)]
pub enum Key {
    Name,
    Size,
    Uuid,
    Start,
    Type,
    Bootable,
}

/// What a GUID of the text is of.
#[derive(Clone, Copy, Debug, PartialEq, Eq)]
pub enum GuidOf {
    Disk,
    Unique,
    Type,
}

/// Blanks that are passed over.
#[derive(Clone, Copy, Debug, PartialEq, Eq)]
pub enum Blanks {
    None,
    /// By a slip, at the end of the text, behind its signs, or in any place.
    AtEnd(&'static [u8]),
    BehindSigns(&'static [u8]),
    Anywhere(&'static [u8]),
}

/// The sizes 0 that reach to the end of a run.
#[derive(Clone, Copy, Debug, PartialEq, Eq)]
pub enum Open {
    Last,
    /// By a slip.
    Never,
    Any,
    LastWithStart,
    LastWithoutStart,
    LastBeforeSemicolon,
    LastWithoutSemicolon,
}

/// Where a partition of size 0 without a start begins.
#[derive(Clone, Copy, Debug, PartialEq, Eq)]
pub enum OpenFrom {
    LowestFree,
    /// By a slip.
    AnyBlock,
    LongestRun,
    LastRun,
    BehindOthers,
}

/// Where a partition of size 0 ends.
#[derive(Clone, Copy, Debug, PartialEq, Eq)]
pub enum OpenTo {
    RunEnd,
    /// By a slip.
    LastUsable,
    OneBlock,
    OneLess,
    OneMore,
}

/// What is wrong with a given start.
#[derive(Clone, Copy, Debug, PartialEq, Eq)]
pub enum StartSlip {
    /// It is the next multiple of the alignment.
    RoundedUp,
    Ignored,
    /// 0 is as if it were left out.
    ZeroOmitted,
    /// It is counted in blocks.
    InBlocks,
    /// It is counted from the first usable block.
    FromFirstUsable,
    /// The partition begins behind it.
    OneLater,
}

/// What is judged of a given start.
#[derive(Clone, Copy, Debug, PartialEq, Eq)]
pub enum StartJudged {
    Free,
    /// By a slip: not whether it is taken, not whether it is usable, or all blocks from it on.
    Usable,
    Untaken,
    WholeRange,
}

/// Numbers of a layout string: b3 and b5.
#[derive(Clone, Copy, Debug)]
pub struct StringNumbers {
    /// b3: what stands before the digits, and their base.
    pub bases: &'static [(&'static [u8], u128)],
    pub digits_min: usize,
    pub leading_zeros_max: usize,
    /// b3: each with its factor.
    pub suffixes: &'static [(&'static [u8], u128)],
    pub suffixes_max: usize,
    pub suffix_in_any_case: bool,
    /// b5.
    pub max: u128,
    /// b5: the bits in which a number is read; it saturates.
    pub mask: u128,
    /// b5: whether the product is judged, not the number before it.
    pub multiplied_judged: bool,
    /// b7: whether a size is 0 by its value, not by the digit alone.
    pub zero_by_value: bool,
}

/// The boot loader's layout strings: b1 to b8 and b10 of the sentences of request b of document 02, with e2, e3, l5 and k5.
#[derive(Clone, Copy, Debug)]
pub struct StringRules {
    /// b10: of the call, then of each partition. 23 and 28 are not among them, since no string can be refused for its
    /// names or attributes.
    pub order: &'static [Row],
    pub partition_order: &'static [Row],

    /// b1.
    pub text_max: usize,
    pub disk_key: &'static [u8],
    pub disk_guid_first: bool,
    pub partition_sign: u8,
    pub field_sign: u8,
    pub partitions_min: usize,
    pub partitions_max: usize,
    /// b2.
    pub keys: [(Key, &'static [u8]); 6],
    pub keys_in_any_case: bool,
    pub required: &'static [Key],
    pub short_names_as: &'static [GuidOf],
    pub guid_texts_as: &'static [GuidOf],
    pub other_types: &'static [(&'static [u8], &'static [u8])],
    pub no_type: &'static [u8],
    pub bad_type_is_no_type: bool,
    pub bootable_may_have_value: bool,
    /// b2: the attributes without the mark and with it.
    pub attributes: [u64; 2],
    pub numbers: StringNumbers,
    /// b4.
    pub blanks: Blanks,
    pub last_signs_max: usize,
    pub last_sign_demanded: bool,
    pub empty_partitions_taken: bool,
    pub empty_fields_taken: bool,
    pub unknown_fields_taken: bool,
    /// b1: by a slip, `uuid_disk` once more among the fields of a partition.
    pub disk_key_as_field: bool,
    /// b4: by a slip, the first of the two comes before the second.
    pub demanded_order: Option<(Key, Key)>,
    /// b4: by a slip, a field that may stand again; the last one counts.
    pub may_repeat: Option<Key>,
    /// b5.
    pub name_min: usize,
    pub name_max: usize,
    pub name_byte_min: u8,
    pub name_byte_max: u8,
    pub name_without: &'static [u8],
    /// b5: by a slip, two bytes of a name make a unit.
    pub name_bytes_packed: bool,
    /// b6: by a slip, a GUID of zeros is a bad one.
    pub zero_guid_bad: Option<GuidOf>,
    /// b6, b10: 70 is of the text as a whole.
    pub whole_text_judged: bool,
    /// b7.
    pub open: Open,
    pub open_from: OpenFrom,
    pub open_to: OpenTo,
    pub open_without_room_is_size_0: bool,
    /// b8.
    pub start_slip: Option<StartSlip>,
    /// b10, l5: whether starts and sizes must be multiples of the block; by a slip, of so many bytes.
    pub start_whole: bool,
    pub size_whole: bool,
    pub whole_of: Option<u64>,
    pub start_judged: StartJudged,
    /// e2: whether the alignment is judged where a start is given too.
    pub alignment_with_start_judged: bool,
    /// b10: as many partitions find a slot, the first of them this one, and whether in the text's order.
    pub slots: usize,
    pub first_index: usize,
    pub in_text_order: bool,
    /// b10: by a slip, the disk GUID counts as one that a slot has.
    pub disk_guid_taken: bool,
    /// b1: by a slip, what head and tail had before stays.
    pub keeps: Option<Keeps>,
}

/// What stays that a string should write.
#[derive(Clone, Copy, Debug, PartialEq, Eq)]
pub enum Keeps {
    Block0,
    Partitions,
    HeaderTails,
    Primary,
    Backup,
}

/// What an accepted string does to the sums over calls and replies: b9.
#[derive(Clone, Copy, Debug)]
pub struct StringSums {
    /// "an accepted string counts as formatting".
    pub starts_afresh: bool,
    /// "every partition is then a grant, to its slot, of its size in blocks", and of this besides.
    pub first_slot: u64,
    pub grants_besides: u64,
    /// By a slip, partitions are no grants, or those of size 0 alone are none.
    pub partitions_granted: bool,
    pub open_granted: bool,
}

pub const STRING_SUMS: StringSums = StringSums {
    starts_afresh: true,
    first_slot: 1,
    grants_besides: 0,
    partitions_granted: true,
    open_granted: true,
};

const NUMBERS: StringNumbers = StringNumbers {
    bases: &[(b"", 10)],
    digits_min: 1,
    leading_zeros_max: usize::MAX,
    suffixes: &[(b"KiB", 1 << 10), (b"MiB", 1 << 20), (b"GiB", 1 << 30)],
    suffixes_max: 1,
    suffix_in_any_case: false,
    max: 18_446_744_073_709_551_615,
    mask: u128::MAX,
    multiplied_judged: true,
    zero_by_value: true,
};

pub const STRINGS: StringRules = StringRules {
    order: &[Row::BlockSize, Row::WrongLength, Row::BadBlockCount, Row::StringForm, Row::ZeroDiskGuid],
    partition_order: &[
        Row::NotWholeBlocks,
        Row::StartTaken,
        Row::ZeroSize,
        Row::Alignment,
        Row::ZeroType,
        Row::UniqueTaken,
        Row::NameTaken,
        Row::NoSlot,
        Row::NoRoom,
    ],

    text_max: 8192,
    disk_key: b"uuid_disk",
    disk_guid_first: true,
    partition_sign: b';',
    field_sign: b',',
    partitions_min: 1,
    partitions_max: usize::MAX,
    keys: [
        (Key::Name, b"name"),
        (Key::Size, b"size"),
        (Key::Uuid, b"uuid"),
        (Key::Start, b"start"),
        (Key::Type, b"type"),
        (Key::Bootable, b"bootable"),
    ],
    keys_in_any_case: false,
    required: &[Key::Name, Key::Size, Key::Uuid],
    short_names_as: &[GuidOf::Type],
    guid_texts_as: &[GuidOf::Disk, GuidOf::Unique, GuidOf::Type],
    other_types: &[],
    no_type: b"data",
    bad_type_is_no_type: false,
    bootable_may_have_value: false,
    attributes: [0, 1 << 2],
    numbers: NUMBERS,
    blanks: Blanks::None,
    last_signs_max: 1,
    last_sign_demanded: false,
    empty_partitions_taken: false,
    empty_fields_taken: false,
    unknown_fields_taken: false,
    disk_key_as_field: false,
    demanded_order: None,
    may_repeat: None,
    name_min: 1,
    name_max: 36,
    name_byte_min: 0x21,
    name_byte_max: 0x7E,
    name_without: b"",
    name_bytes_packed: false,
    zero_guid_bad: None,
    whole_text_judged: true,
    open: Open::Last,
    open_from: OpenFrom::LowestFree,
    open_to: OpenTo::RunEnd,
    open_without_room_is_size_0: false,
    start_slip: None,
    start_whole: true,
    size_whole: true,
    whole_of: None,
    start_judged: StartJudged::Free,
    alignment_with_start_judged: true,
    slots: 128,
    first_index: 0,
    in_text_order: true,
    disk_guid_taken: false,
    keeps: None,
};
