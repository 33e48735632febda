use crate::topic::{number_variants, order_variants, variant, Order, Variant};
use second::rules::{
    Above, Compared, Counted, FaultPick, HeadPart, ListOrder, MapAt, MapSlip, MissingOffset, OtherByte,
    Reach, Row, SizeBy, Span, TooDeep, Trailing, Undecided, Unfit, Unused, Within, WordFault,
};

pub const RULES_TO_BREAK: &[&str] = &[
    "A2", "Q4", "Q5", "Q6", "Q7", "R1", "R3", "R4", "R17", "R18", "R19", "R20", "R21", "R22", "R33", "R34",
    "L1", "L2", "L3", "L4", "L5", "L6", "L7", "L8", "L9", "L10", "L11", "L12", "L13", "L14", "L15", "L16",
    "L17", "L18", "E3",
];

pub fn all() -> Vec<Variant> {
    [
        quantities(),
        number_variants(NUMBERS),
        order_variants(ORDERS),
        places(),
        rows(),
        grammar(),
        bytes_and_words(),
        numbers(),
        resolution(),
        lists_and_maps(),
    ]
    .into_iter()
    .flatten()
    .collect()
}

fn quantities() -> Vec<Variant> {
    vec![
        variant("text-of-32768-refused", "Q5", |r| r.fmd.text_max -= 1),
        variant("text-of-32769-taken", "Q5", |r| r.fmd.text_max += 1),
        variant("128-sections-refused", "Q5", |r| r.fmd.sections_max = 127),
        variant("129-sections-taken", "Q5", |r| r.fmd.sections_max = 129),
        variant("8-levels-refused", "Q5", |r| r.fmd.levels_max = 7),
        variant("9-levels-taken", "Q5", |r| r.fmd.levels_max = 9),
        variant("image-of-97-taken", "Q4", |r| r.fmd.image_min = 97),
        variant("image-of-98-refused", "Q4", |r| r.fmd.image_min = 99),
        variant("image-of-2^24-refused", "Q4", |r| r.fmd.image_max -= 1),
        variant("image-past-2^24-taken", "Q4", |r| r.fmd.image_max += 1),
        variant("records-big-endian", "Q6", |r| r.fmap.little_endian = false),
        variant("refused-write-zeroes-a-byte", "R1", |r| r.refusals.zeroes = 1),
        variant("refused-list-is-zeroed", "R1", |r| r.refusals.zeroes = usize::MAX),
        variant("refused-read-answers-0", "R1", |r| r.refusals.zeroes_answers = true),
        variant("count-of-top-level", "R3", |r| r.fmd.count_of = Counted::TopLevel),
        variant("count-of-leaves", "R3", |r| r.fmd.count_of = Counted::Leaves),
        variant("no-address-is-1", "R3", |r| r.fmd.no_address = 1),
        variant("name-buffer-of-31", "R4", |r| r.fmd.name_buffer_len = 31),
        variant("name-buffer-of-33", "R4", |r| r.fmd.name_buffer_len = 33),
        variant("list-of-127", "R4", |r| r.fmd.list_records = 127),
        variant("list-of-129", "R4", |r| r.fmd.list_records = 129),
    ]
}

/// Another number for each refusal.
const NUMBERS: &[(Row, &str, u32)] = &[
    (Row::WrongLength, "R4", 50),
    (Row::TextTooLong, "R17", 51),
    (Row::OutOfGrammar, "R18", 52),
    (Row::BadNumber, "R18", 51),
    (Row::BadLayoutName, "R18", 51),
    (Row::NameTwice, "R19", 53),
    (Row::TooMany, "R19", 54),
    (Row::BadFlag, "R20", 51),
    (Row::CbfsOnParent, "R20", 58),
    (Row::Undecided, "R21", 58),
    (Row::DoesNotFit, "R21", 57),
    (Row::NoFmap, "R22", 58),
];

const ORDERS: &[Order] = &[
    ("fmd-read", "R33", |r| &mut r.fmd.read_order, None),
    ("fmd-records", "R33", |r| &mut r.fmd.records_order, None),
    ("fmd-write", "R34", |r| &mut r.fmd.write_order, None),
];

/// R33: which fault of a text is given.
fn places() -> Vec<Variant> {
    vec![
        variant("last-fault", "R33", |r| r.fmd.pick = FaultPick::Last),
        variant("fault-of-lowest-number", "R33", |r| r.fmd.pick = FaultPick::LowestNumber),
        variant("word-fault-behind-the-word", "R33", |r| r.fmd.word_fault = WordFault::Behind),
        variant("too-deep-at-the-brace", "R33", |r| r.fmd.too_deep = TooDeep::Brace),
        variant("unfit-sign-at-the-token-before", "R33", |r| r.fmd.unfit = Unfit::Before),
        variant("early-end-at-the-last-byte", "R33", |r| r.fmd.end_before = 1),
        variant("early-end-first", "R33", |r| r.fmd.end_before = usize::MAX),
        variant("highest-number-at-one-place", "R33", |r| r.fmd.lowest_at_one_place = false),
    ]
}

fn rows() -> Vec<Variant> {
    vec![
        variant("section-names-unjudged", "R18", |r| r.fmd.section_names_judged = false),
        variant("name-twice-among-siblings", "R19", |r| r.fmd.compared = Compared::Siblings),
        variant("name-twice-among-neighbours", "R19", |r| r.fmd.compared = Compared::Neighbours),
        variant("image-name-compared-too", "R19", |r| r.fmd.compared = Compared::ImageToo),
        variant("names-in-any-case", "R19", |r| r.fmd.names_any_case = true),
        variant("unknown-flag-taken", "R20", |r| r.fmd.unknown_flag_refused = false),
        variant("repeated-flag-taken", "R20", |r| r.fmd.repeated_flag_refused = false),
        variant("preserve-on-parent-refused", "R20", |r| r.fmd.leaf_flag = b"PRESERVE"),
        variant("cbfs-on-inner-parent-taken", "R20", |r| r.fmd.leaf_levels = 1),
        variant("fmap-with-children-taken", "R22", |r| r.fmd.fmap_children_refused = false),
        variant("fmap-too-small-taken", "R22", |r| r.fmd.fmap_size_judged = false),
        variant("no-fmap-taken", "R22", |r| r.fmd.fmap_missing_refused = false),
        variant("inner-fmap-refused", "R22", |r| r.fmd.fmap_levels = 1),
        variant("fmap-in-lower-case", "R22", |r| r.fmd.fmap_name = b"fmap"),
    ]
}

fn grammar() -> Vec<Variant> {
    use HeadPart::*;
    vec![
        variant("address-demanded", "L1", |r| r.fmd.address_optional = false),
        variant("address-refused", "L1", |r| r.fmd.address_allowed = false),
        variant("image-size-unjudged", "L1", |r| r.fmd.image_range_judged = false),
        variant("flags-after-offset", "L2", |r| r.fmd.head = &[Offset, Flags, Size]),
        variant("flags-after-size", "L2", |r| r.fmd.head = &[Offset, Size, Flags]),
        variant("offset-after-size", "L2", |r| r.fmd.head = &[Flags, Size, Offset]),
        variant("flags-twice", "L2", |r| r.fmd.head = &[Flags, Flags, Offset, Size]),
        variant("flags-also-after-offset", "L2", |r| r.fmd.head = &[Flags, Offset, Flags, Size]),
        variant("offset-twice", "L2", |r| r.fmd.head = &[Flags, Offset, Offset, Size]),
        variant("offset-also-after-size", "L2", |r| r.fmd.head = &[Flags, Offset, Size, Offset]),
        variant("no-flag-in-parentheses", "L2", |r| r.fmd.flags_min = 0),
        variant("two-flags-demanded", "L2", |r| r.fmd.flags_min = 2),
        variant("flag-RO-taken", "L2", |r| {
            r.fmd.flag_bits = &[(b"CBFS", 0), (b"PRESERVE", 8), (b"RO", 4)];
        }),
        variant("no-flag-PRESERVE", "L2", |r| r.fmd.flag_bits = &[(b"CBFS", 0)]),
        variant("no-section-in-braces", "L3", |r| r.fmd.sections_min = 0),
        variant("two-sections-demanded", "L3", |r| r.fmd.sections_min = 2),
        variant("size-not-after-name", "L7", |r| r.fmd.size_after = &[Some(Flags), Some(Offset)]),
        variant("size-not-after-flags", "L7", |r| r.fmd.size_after = &[None, Some(Offset)]),
        variant("size-not-after-offset", "L7", |r| r.fmd.size_after = &[None, Some(Flags)]),
        variant("size-only-if-a-number", "L7", |r| r.fmd.size_by = SizeBy::Number),
        variant("two-sizes", "L7", |r| {
            r.fmd.head = &[Flags, Offset, Size, Size];
            r.fmd.size_after = &[None, Some(Flags), Some(Offset), Some(Size)];
        }),
        variant("word-after-at-is-51", "L9", |r| r.fmd.due_after_at = Row::OutOfGrammar),
        variant("word-after-at-is-53", "L9", |r| r.fmd.due_after_at = Row::BadLayoutName),
        variant("word-as-image-size-is-51", "L9", |r| r.fmd.due_as_image_size = Row::OutOfGrammar),
        variant("word-as-image-size-is-53", "L9", |r| r.fmd.due_as_image_size = Row::BadLayoutName),
        variant("words-after-the-last-brace", "L10", |r| r.fmd.trailing = Trailing::Words),
        variant("anything-after-the-last-brace", "L10", |r| r.fmd.trailing = Trailing::Anything),
    ]
}

fn bytes_and_words() -> Vec<Variant> {
    vec![
        variant("space-no-blank", "L4", |r| r.fmd.blanks = b"\t\r\n"),
        variant("tab-no-blank", "L4", |r| r.fmd.blanks = b" \r\n"),
        variant("cr-no-blank", "L4", |r| r.fmd.blanks = b" \t\n"),
        variant("lf-no-blank", "L4", |r| r.fmd.blanks = b" \t\r"),
        variant("vt-a-blank", "L4", |r| r.fmd.blanks = b" \t\r\n\x0B"),
        variant("ff-a-blank", "L4", |r| r.fmd.blanks = b" \t\r\n\x0C"),
        variant("nul-a-blank", "L4", |r| r.fmd.blanks = b" \t\r\n\0"),
        variant("no-comments", "L4", |r| r.fmd.comment = None),
        variant("comment-by-semicolon", "L4", |r| r.fmd.comment = Some(b';')),
        variant("comment-ends-at-cr", "L4", |r| r.fmd.comment_ends = b"\r\n"),
        variant("comment-ends-at-cr-alone", "L4", |r| r.fmd.comment_ends = b"\r"),
        variant("comment-runs-to-the-text's-end", "L4", |r| r.fmd.comment_ends = b""),
        variant("at-no-sign", "L5", |r| r.fmd.signs = b"{}()"),
        variant("opening-brace-no-sign", "L5", |r| r.fmd.signs = b"@}()"),
        variant("closing-brace-no-sign", "L5", |r| r.fmd.signs = b"@{()"),
        variant("opening-parenthesis-no-sign", "L5", |r| r.fmd.signs = b"@{})"),
        variant("closing-parenthesis-no-sign", "L5", |r| r.fmd.signs = b"@{}("),
        variant("comma-a-sign", "L5", |r| r.fmd.signs = b"@{}(),"),
        variant("number-sign-in-words", "L5", |r| r.fmd.comment_ends_word = false),
        variant("word-with-20", "L5", |r| (r.fmd.blanks, r.fmd.word_byte_min) = (b"\t\r\n", 0x20)),
        variant("word-with-1F", "L5", |r| r.fmd.word_byte_min = 0x1F),
        variant("word-without-21", "L5", |r| r.fmd.word_byte_min = 0x22),
        variant("word-without-7E", "L5", |r| r.fmd.word_byte_max = 0x7D),
        variant("word-with-7F", "L5", |r| r.fmd.word_byte_max = 0x7F),
        variant("word-with-FF", "L5", |r| r.fmd.word_byte_max = 0xFF),
        variant("other-bytes-are-blanks", "L5", |r| r.fmd.other_byte = OtherByte::Blank),
        variant("other-bytes-refused-in-comments", "L5", |r| r.fmd.comment_bytes_judged = true),
        variant("name-of-31-refused", "L6", |r| r.fmd.name_len_max = 30),
        variant("name-of-32-taken", "L6", |r| r.fmd.name_len_max = 32),
        variant("name-with-a-digit-first", "L6", |r| r.fmd.name_digit_refused = false),
    ]
}

fn numbers() -> Vec<Variant> {
    vec![
        variant("leading-zero-taken", "L8", |r| r.fmd.leading_zero_refused = false),
        variant("0X-taken", "L8", |r| r.fmd.hex_marks = b"xX"),
        variant("no-hex", "L8", |r| r.fmd.hex_marks = b""),
        variant("upper-case-hex-refused", "L8", |r| r.fmd.hex_upper = false),
        variant("lower-case-hex-refused", "L8", |r| r.fmd.hex_lower = false),
        variant("empty-hex-is-0", "L8", |r| r.fmd.hex_digits_min = 0),
        variant("two-hex-digits-demanded", "L8", |r| r.fmd.hex_digits_min = 2),
        variant("K-is-512", "L8", |r| r.fmd.suffixes = &[(b'K', 9), (b'M', 20), (b'G', 30)]),
        variant("M-is-K", "L8", |r| r.fmd.suffixes = &[(b'K', 10), (b'M', 10), (b'G', 30)]),
        variant("G-is-M", "L8", |r| r.fmd.suffixes = &[(b'K', 10), (b'M', 20), (b'G', 20)]),
        variant("no-G", "L8", |r| r.fmd.suffixes = &[(b'K', 10), (b'M', 20)]),
        variant("no-suffix", "L8", |r| r.fmd.suffixes = &[]),
        variant("k-taken", "L8", |r| {
            r.fmd.suffixes = &[(b'K', 10), (b'M', 20), (b'G', 30), (b'k', 10)];
        }),
        variant("two-suffixes-taken", "L8", |r| r.fmd.suffixes_max = 2),
        variant("no-suffix-on-hex", "L8", |r| r.fmd.suffix_on_hex = false),
        variant("no-suffix-on-0", "L8", |r| r.fmd.suffix_on_zero = false),
        variant("2^32-1-refused", "L8", |r| r.fmd.number_max -= 1),
        variant("2^32-taken", "L8", |r| r.fmd.number_max += 1),
        variant("numbers-wrap-at-2^32", "L8", |r| r.fmd.number_mask = 0xFFFF_FFFF),
        variant("numbers-wrap-at-2^64", "L8", |r| r.fmd.number_mask = u128::from(u64::MAX)),
    ]
}

fn resolution() -> Vec<Variant> {
    vec![
        variant("offset-0-is-omitted", "L11", |r| r.fmd.zero_offset_given = false),
        variant("size-0-is-omitted", "L11", |r| r.fmd.zero_size_given = false),
        variant("missing-offset-at-previous-start", "L12", |r| {
            r.fmd.missing_offset = MissingOffset::PreviousStart;
        }),
        variant("missing-offset-is-0", "L12", |r| r.fmd.missing_offset = MissingOffset::Zero),
        variant("first-missing-offset-is-1", "L12", |r| r.fmd.first_offset = 1),
        variant("missing-size-to-the-parent's-end", "L13", |r| r.fmd.missing_size = Reach::ParentEnd),
        variant("last-size-to-the-image's-end", "L13", |r| r.fmd.missing_last_size = Reach::ImageEnd),
        variant("undecided-by-the-next-size", "L13", |r| r.fmd.undecided = Undecided::Size),
        variant("undecided-by-offset-and-size", "L13", |r| r.fmd.undecided = Undecided::OffsetAndSize),
        variant("undecided-by-any-next", "L13", |r| r.fmd.undecided = Undecided::Nothing),
        variant("last-undecided", "L13", |r| r.fmd.last_undecided = true),
        variant("size-0-taken", "L14", |r| r.fmd.size_min = 0),
        variant("size-1-refused", "L14", |r| r.fmd.size_min = 2),
        variant("size-below-0-taken", "L14", |r| r.fmd.size_min = i128::MIN),
        variant("overlap-taken", "L14", |r| r.fmd.overlap_refused = false),
        variant("descending-taken", "L14", |r| r.fmd.descending_refused = false),
        variant("touching-refused", "L14", |r| r.fmd.touching_refused = true),
        variant("end-within-the-image", "L14", |r| r.fmd.within = Within::Image),
        variant("end-unjudged", "L14", |r| r.fmd.within = Within::Anything),
        variant("end-wraps-at-2^32", "L14", |r| r.fmd.sum_mask = 0xFFFF_FFFF),
        variant("offset-from-the-image-start", "E3", |r| r.fmd.above = Above::Nothing),
        variant("offset-from-the-parent's-offset", "L15", |r| r.fmd.above = Above::ParentOffset),
    ]
}

fn lists_and_maps() -> Vec<Variant> {
    vec![
        variant("children-before-parents", "L16", |r| r.fmd.list_order = ListOrder::ChildrenFirst),
        variant("list-by-level", "L16", |r| r.fmd.list_order = ListOrder::ByLevel),
        variant("list-reversed", "L16", |r| r.fmd.list_order = ListOrder::Reversed),
        variant("list-from-the-second-record", "L16", |r| r.fmd.first_record = 1),
        variant("unused-records-zeroed", "L16", |r| r.fmd.unused = Unused::Zeroed),
        variant("name-bytes-stay-behind-a-name", "L16", |r| r.fmd.zeros_after_name = false),
        variant("records-of-44", "L16", |r| r.fmap.area_len = 44),
        variant("position-and-size-exchanged", "L16", |r| (r.fmap.offset.at, r.fmap.size.at) = (4, 0)),
        variant("position-of-2-bytes", "L16", |r| r.fmap.offset = Span { at: 0, len: 2 }),
        variant("name-at-9", "L16", |r| r.fmap.name = Span { at: 9, len: 31 }),
        variant("flags-at-39", "L16", |r| r.fmap.flags.at = 39),
        variant("flags-of-1-byte", "L16", |r| r.fmap.flags.len = 1),
        variant("cbfs-stored", "A2", |r| r.fmd.flag_bits = &[(b"CBFS", 1), (b"PRESERVE", 8)]),
        variant("preserve-is-4", "L17", |r| r.fmd.flag_bits = &[(b"CBFS", 0), (b"PRESERVE", 4)]),
        variant("preserve-stored-nowhere", "L17", |r| r.fmd.flag_bits = &[(b"CBFS", 0), (b"PRESERVE", 0)]),
        variant("map-by-level", "L17", |r| r.fmd.map_order = ListOrder::ByLevel),
        variant("map-children-first", "L17", |r| r.fmd.map_order = ListOrder::ChildrenFirst),
        variant("map-reversed", "L17", |r| r.fmd.map_order = ListOrder::Reversed),
        variant("version-1.0", "L17", |r| r.fmd.map_version = (1, 0)),
        variant("version-0.1", "L17", |r| r.fmd.map_version = (0, 1)),
        variant("base-always-0", "L17", |r| r.fmd.base_is_address = false),
        variant("base-of-3", "L17", |r| r.fmap.base.len = 3),
        variant("map-without-image-size", "L17", |r| r.fmap.image_size.len = 0),
        variant("image-name-at-21", "L17", |r| r.fmap.image_name.at = 21),
        variant("count-of-no-byte", "L17", |r| r.fmap.count.len = 0),
        variant("map-at-the-image-start", "L18", |r| r.fmd.map_at = MapAt::ImageStart),
        variant("map-at-fmap's-offset", "Q7", |r| r.fmd.map_at = MapAt::FmapOffset),
        variant("map-at-fmap's-end", "L18", |r| r.fmd.map_at = MapAt::FmapEnd),
        variant("room-for-top-level", "L18", |r| r.fmd.room_for = Counted::TopLevel),
        variant("room-for-leaves", "L18", |r| r.fmd.room_for = Counted::Leaves),
        variant("room-of-one-byte-less", "L18", |r| r.fmd.room_besides = -1),
        variant("room-of-one-byte-more", "L18", |r| r.fmd.room_besides = 1),
        variant("a-byte-more-written", "L18", |r| r.fmd.map_slip = Some(MapSlip::OneByteMore)),
        variant("rest-of-fmap-written", "L18", |r| r.fmd.map_slip = Some(MapSlip::RestOfSection)),
    ]
}
