mod operands;

pub use operands::*;

use super::Row;

/// The layout language: Q4 to Q6, R3, R4, R17 to R22, R33, R34, L1 to L18. What a map's bytes are stands in `FmapRules`.
#[derive(Clone, Copy, Debug)]
pub struct FmdRules {
    /// Q5.
    pub text_max: usize,
    pub sections_max: usize,
    pub levels_max: usize,
    /// Q4.
    pub image_min: u64,
    pub image_max: u64,
    /// R3.
    pub count_of: Counted,
    pub no_address: u64,
    /// R4: lengths of the lent buffers.
    pub name_buffer_len: usize,
    pub list_records: usize,

    /// R33, R34.
    pub read_order: &'static [Row],
    pub records_order: &'static [Row],
    pub write_order: &'static [Row],
    pub pick: FaultPick,
    pub word_fault: WordFault,
    pub too_deep: TooDeep,
    pub unfit: Unfit,
    /// How many bytes before its end a text that ends early is at fault.
    pub end_before: usize,
    pub lowest_at_one_place: bool,

    /// R18.
    pub section_names_judged: bool,
    /// R19.
    pub compared: Compared,
    pub names_any_case: bool,
    /// R20.
    pub unknown_flag_refused: bool,
    pub repeated_flag_refused: bool,
    pub leaf_flag: &'static [u8],
    /// R20: so many levels, from the first, are judged for 56.
    pub leaf_levels: usize,
    /// R22.
    pub fmap_children_refused: bool,
    pub fmap_size_judged: bool,
    pub fmap_missing_refused: bool,
    pub fmap_levels: usize,
    pub fmap_name: &'static [u8],

    /// L1.
    pub address_optional: bool,
    pub address_allowed: bool,
    pub image_range_judged: bool,
    /// L2: in this order, each at most once.
    pub head: &'static [HeadPart],
    pub flags_min: usize,
    pub flag_bits: &'static [(&'static [u8], u64)],
    /// L3.
    pub sections_min: usize,
    /// L4.
    pub blanks: &'static [u8],
    pub comment: Option<u8>,
    pub comment_ends: &'static [u8],
    /// L5.
    pub signs: &'static [u8],
    pub comment_ends_word: bool,
    pub word_byte_min: u8,
    pub word_byte_max: u8,
    pub other_byte: OtherByte,
    pub comment_bytes_judged: bool,
    /// L6.
    pub name_len_max: usize,
    pub name_digit_refused: bool,
    /// L7.
    pub size_after: &'static [Option<HeadPart>],
    pub size_by: SizeBy,
    /// L8.
    pub leading_zero_refused: bool,
    pub hex_marks: &'static [u8],
    pub hex_upper: bool,
    pub hex_lower: bool,
    pub hex_digits_min: usize,
    pub suffixes: &'static [(u8, u32)],
    pub suffixes_max: usize,
    pub suffix_on_hex: bool,
    pub suffix_on_zero: bool,
    pub number_max: u128,
    /// L8: the bits in which a number is read; it saturates.
    pub number_mask: u128,
    /// L9: the row of a word that is no number.
    pub due_after_at: Row,
    pub due_as_image_size: Row,
    /// L10.
    pub trailing: Trailing,
    /// L11.
    pub zero_offset_given: bool,
    pub zero_size_given: bool,
    /// L12.
    pub missing_offset: MissingOffset,
    pub first_offset: i128,
    /// L13.
    pub missing_size: Reach,
    pub missing_last_size: Reach,
    pub undecided: Undecided,
    pub last_undecided: bool,
    /// L14.
    pub size_min: i128,
    pub overlap_refused: bool,
    pub descending_refused: bool,
    pub touching_refused: bool,
    pub within: Within,
    /// L14: the bits in which offset and size are added.
    pub sum_mask: u64,
    /// L15.
    pub above: Above,
    /// L16.
    pub list_order: ListOrder,
    pub first_record: usize,
    pub unused: Unused,
    pub zeros_after_name: bool,
    /// L17.
    pub map_order: ListOrder,
    pub map_version: (u64, u64),
    pub base_is_address: bool,
    /// L18.
    pub map_at: MapAt,
    pub room_for: Counted,
    pub room_besides: i128,
    pub map_slip: Option<MapSlip>,
}

const LENT_FIRST: &[Row] = &[
    Row::WrongLength,
    Row::TextTooLong,
    Row::InText,
    Row::NameTwice,
    Row::CbfsOnParent,
    Row::Undecided,
    Row::DoesNotFit,
    Row::NoFmap,
];

pub const FMD: FmdRules = FmdRules {
    text_max: 32_768,
    sections_max: 128,
    levels_max: 8,
    image_min: 98,
    image_max: 16_777_216,
    count_of: Counted::All,
    no_address: 0,
    name_buffer_len: 32,
    list_records: 128,

    read_order: LENT_FIRST,
    records_order: LENT_FIRST,
    write_order: &[
        Row::TextTooLong,
        Row::InText,
        Row::NameTwice,
        Row::CbfsOnParent,
        Row::Undecided,
        Row::DoesNotFit,
        Row::NoFmap,
        Row::WrongLength,
    ],
    pick: FaultPick::First,
    word_fault: WordFault::FirstByte,
    too_deep: TooDeep::Name,
    unfit: Unfit::Itself,
    end_before: 0,
    lowest_at_one_place: true,

    section_names_judged: true,
    compared: Compared::AllSections,
    names_any_case: false,
    unknown_flag_refused: true,
    repeated_flag_refused: true,
    leaf_flag: b"CBFS",
    leaf_levels: usize::MAX,
    fmap_children_refused: true,
    fmap_size_judged: true,
    fmap_missing_refused: true,
    fmap_levels: usize::MAX,
    fmap_name: b"FMAP",

    address_optional: true,
    address_allowed: true,
    image_range_judged: true,
    head: &[HeadPart::Flags, HeadPart::Offset, HeadPart::Size],
    flags_min: 1,
    flag_bits: &[(b"CBFS", 0), (b"PRESERVE", 8)],
    sections_min: 1,
    blanks: b" \t\r\n",
    comment: Some(b'#'),
    comment_ends: b"\n",
    signs: b"@{}()",
    comment_ends_word: true,
    word_byte_min: 0x21,
    word_byte_max: 0x7E,
    other_byte: OtherByte::Fault,
    comment_bytes_judged: false,
    name_len_max: 31,
    name_digit_refused: true,
    size_after: &[None, Some(HeadPart::Flags), Some(HeadPart::Offset)],
    size_by: SizeBy::Digit,
    leading_zero_refused: true,
    hex_marks: b"x",
    hex_upper: true,
    hex_lower: true,
    hex_digits_min: 1,
    suffixes: &[(b'K', 10), (b'M', 20), (b'G', 30)],
    suffixes_max: 1,
    suffix_on_hex: true,
    suffix_on_zero: true,
    number_max: 4_294_967_295,
    number_mask: u128::MAX,
    due_after_at: Row::BadNumber,
    due_as_image_size: Row::BadNumber,
    trailing: Trailing::Nothing,
    zero_offset_given: true,
    zero_size_given: true,
    missing_offset: MissingOffset::PreviousEnd,
    first_offset: 0,
    missing_size: Reach::NextOffset,
    missing_last_size: Reach::ParentEnd,
    undecided: Undecided::Offset,
    last_undecided: false,
    size_min: 1,
    overlap_refused: true,
    descending_refused: true,
    touching_refused: false,
    within: Within::Parent,
    sum_mask: u64::MAX,
    above: Above::ParentPosition,
    list_order: ListOrder::Text,
    first_record: 0,
    unused: Unused::Stay,
    zeros_after_name: true,
    map_order: ListOrder::Text,
    map_version: (1, 1),
    base_is_address: true,
    map_at: MapAt::FmapPosition,
    room_for: Counted::All,
    room_besides: 0,
    map_slip: None,
};
