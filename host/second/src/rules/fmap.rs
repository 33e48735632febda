use super::Row;

/// Where bytes stand in a header, an area or an entry.
#[derive(Clone, Copy, Debug)]
pub struct Span {
    pub at: usize,
    pub len: usize,
}

const fn span(at: usize, len: usize) -> Span {
    Span { at, len }
}

/// Which of several good maps is found.
#[derive(Clone, Copy, Debug, PartialEq, Eq)]
pub enum Pick {
    Lowest,
    Highest,
    /// The lowest signature's, or none.
    FirstSignature,
}

/// In which of a carry's maps something is looked for.
#[derive(Clone, Copy, Debug, PartialEq, Eq)]
pub enum In {
    Old,
    New,
    Either,
}

/// By what an area of the old map is found in the new one.
#[derive(Clone, Copy, Debug, PartialEq, Eq)]
pub enum By {
    Name,
    Index,
    Offset,
}

/// What a carry writes besides the areas' bytes.
#[derive(Clone, Copy, Debug, PartialEq, Eq)]
pub enum CarrySlip {
    OneByteMore,
    OneByteLess,
    FlagsToo,
    AtOldOffset,
}

/// What a good map is, rule by rule (M1 to M8), with the number that a broken one has in the C interface.
#[derive(Clone, Copy, Debug, PartialEq, Eq)]
pub enum MapRule {
    Signature,
    HeaderEnd,
    Major,
    Minor,
    ImageSize,
    NoArea,
    TooManyAreas,
    MapEnd,
    Name,
    AreaSize,
    AreaEnd,
    AreaName,
    MapArea,
    SameName,
    Crossing,
}

/// The flash map: Q4, R31, R32, M1 to M13.
#[derive(Clone, Copy, Debug)]
pub struct FmapRules {
    /// Q4.
    pub image_min: usize,
    pub image_max: usize,
    /// Q6.
    pub little_endian: bool,
    /// R4: length of the buffer that is lent for an area.
    pub area_buffer_len: usize,

    /// R31, R32.
    pub find_order: &'static [Row],
    pub area_order: &'static [Row],
    pub named_order: &'static [Row],
    pub carry_order: &'static [Row],
    pub fault_refusals: &'static [Row],
    /// M1 to M8, in the order in which a map at a position is judged.
    pub fault_order: &'static [(MapRule, u64)],
    /// R16: a signature counts where a whole header does not fit any more.
    pub signature_at_end_counts: bool,

    /// M1.
    pub signature: &'static [u8],
    pub header_len: usize,
    pub major: Span,
    pub minor: Span,
    pub base: Span,
    pub image_size: Span,
    pub image_name: Span,
    pub count: Span,
    /// M2.
    pub area_len: usize,
    pub offset: Span,
    pub size: Span,
    pub name: Span,
    pub flags: Span,
    pub preserve: u64,
    /// M3.
    pub major_is: u64,
    pub minor_max: u64,
    pub image_size_judged: bool,
    pub count_min: u64,
    pub count_max: u64,
    pub map_in_image: bool,
    /// M4.
    pub name_len_min: usize,
    pub name_len_max: usize,
    pub name_byte_min: u8,
    pub name_byte_max: u8,
    pub zeros_after_name: bool,
    pub image_name_judged: bool,
    /// M5.
    pub names_differ: bool,
    /// M6.
    pub size_min: u64,
    pub ends_in_image: bool,
    /// M6: the bits in which offset and size are added.
    pub sum_mask: u64,
    /// M7.
    pub equal_good: bool,
    pub nested_good: bool,
    pub crossing_good: bool,
    /// M8.
    pub fmap_name: &'static [u8],
    pub fmap_starts_there: bool,
    pub fmap_holds_map: bool,
    /// M9: by a slip, flags outside these bits are bad.
    pub flags_judged: Option<u64>,
    /// M10.
    pub pick: Pick,
    pub alignment: usize,
    pub after_signature: usize,
    /// M11.
    pub preserve_in: In,
    pub target_by: By,
    /// R24.
    pub shared_in: In,
    pub equal_shares: bool,
    pub nested_shares: bool,
    pub touching_shares: bool,
    pub fmap_of: In,
    /// M12.
    pub carry_slip: Option<CarrySlip>,
    /// M13.
    pub found_before_carry: bool,
}

pub const FMAP: FmapRules = FmapRules {
    image_min: 98,
    image_max: 16_777_216,
    little_endian: true,
    area_buffer_len: 42,

    find_order: &[Row::ImageLength, Row::NoSignature, Row::NoGoodMap],
    area_order: &[Row::WrongLength, Row::ImageLength, Row::NoSignature, Row::NoGoodMap, Row::Nothing],
    named_order: &[Row::ImageLength, Row::NoSignature, Row::NoGoodMap, Row::Nothing],
    carry_order: &[
        Row::ImageLength,
        Row::NoSignature,
        Row::NoGoodMap,
        Row::NewImageLength,
        Row::NewNoSignature,
        Row::NewNoGoodMap,
        Row::AreaMissing,
        Row::OtherSize,
        Row::SharedByte,
        Row::OnFmap,
    ],
    fault_refusals: &[Row::ImageLength],
    fault_order: &[
        (MapRule::Signature, 1),
        (MapRule::HeaderEnd, 2),
        (MapRule::Major, 3),
        (MapRule::Minor, 4),
        (MapRule::ImageSize, 5),
        (MapRule::NoArea, 6),
        (MapRule::TooManyAreas, 7),
        (MapRule::MapEnd, 8),
        (MapRule::Name, 9),
        (MapRule::AreaSize, 10),
        (MapRule::AreaEnd, 11),
        (MapRule::AreaName, 12),
        (MapRule::MapArea, 13),
        (MapRule::SameName, 14),
        (MapRule::Crossing, 15),
    ],
    signature_at_end_counts: true,

    signature: b"__FMAP__",
    header_len: 56,
    major: span(8, 1),
    minor: span(9, 1),
    base: span(10, 8),
    image_size: span(18, 4),
    image_name: span(22, 32),
    count: span(54, 2),
    area_len: 42,
    offset: span(0, 4),
    size: span(4, 4),
    name: span(8, 32),
    flags: span(40, 2),
    preserve: 8,
    major_is: 1,
    minor_max: 1,
    image_size_judged: true,
    count_min: 1,
    count_max: 128,
    map_in_image: true,
    name_len_min: 1,
    name_len_max: 31,
    name_byte_min: 0x21,
    name_byte_max: 0x7E,
    zeros_after_name: true,
    image_name_judged: true,
    names_differ: true,
    size_min: 1,
    ends_in_image: true,
    sum_mask: u64::MAX,
    equal_good: true,
    nested_good: true,
    crossing_good: false,
    fmap_name: b"FMAP",
    fmap_starts_there: true,
    fmap_holds_map: true,
    flags_judged: None,
    pick: Pick::Lowest,
    alignment: 1,
    after_signature: 1,
    preserve_in: In::Old,
    target_by: By::Name,
    shared_in: In::Either,
    equal_shares: true,
    nested_shares: true,
    touching_shares: false,
    fmap_of: In::New,
    carry_slip: None,
    found_before_carry: true,
};
