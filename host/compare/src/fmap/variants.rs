use crate::topic::{number_variants, order_variants, variant, Order, Variant};
use second::rules::{By, CarrySlip, In, MapRule, Pick, Row, Span};
use second::RULES;

pub const RULES_TO_BREAK: &[&str] = &[
    "Q4", "Q6", "R1", "R4", "R15", "R16", "R23", "R24", "R31", "R32", "M1", "M2", "M3", "M4", "M5", "M6",
    "M7", "M8", "M9", "M10", "M11", "M12", "M13",
];

pub fn all() -> Vec<Variant> {
    [
        rows(),
        number_variants(NUMBERS),
        order_variants(ORDERS),
        layout(),
        good_maps(),
        faults(),
        finding(),
        carrying(),
    ]
    .into_iter()
    .flatten()
    .collect()
}

fn rows() -> Vec<Variant> {
    vec![
        variant("image-of-97-taken", "Q4", |r| r.fmap.image_min = 97),
        variant("image-of-98-refused", "Q4", |r| r.fmap.image_min = 99),
        variant("image-of-2^24-refused", "Q4", |r| r.fmap.image_max -= 1),
        variant("image-past-2^24-taken", "Q4", |r| r.fmap.image_max += 1),
        variant("map-big-endian", "Q6", |r| r.fmap.little_endian = false),
        variant("refused-carry-zeroes-a-byte", "R1", |r| r.refusals.zeroes = 1),
        variant("refused-find-answers-0", "R1", |r| r.refusals.zeroes_answers = true),
        variant("area-buffer-of-41", "R4", |r| r.fmap.area_buffer_len = 41),
        variant("area-buffer-of-43", "R4", |r| r.fmap.area_buffer_len = 43),
        variant("signature-at-end-uncounted", "R16", |r| r.fmap.signature_at_end_counts = false),
    ]
}

/// Another number for each refusal.
const NUMBERS: &[(Row, &str, u32)] = &[
    (Row::WrongLength, "R4", 40),
    (Row::ImageLength, "R15", 1),
    (Row::NoSignature, "R16", 42),
    (Row::NoGoodMap, "R16", 41),
    (Row::NewImageLength, "R15", 1),
    (Row::NewNoSignature, "R16", 42),
    (Row::NewNoGoodMap, "R16", 41),
    (Row::AreaMissing, "R23", 61),
    (Row::OtherSize, "R23", 60),
    (Row::SharedByte, "R24", 63),
    (Row::OnFmap, "R24", 62),
    (Row::Nothing, "R31", 42),
];

const ORDERS: &[Order] = &[
    ("find", "R31", |r| &mut r.fmap.find_order, None),
    ("fault", "R15", |r| &mut r.fmap.fault_refusals, None),
    ("area", "R31", |r| &mut r.fmap.area_order, None),
    ("named", "R31", |r| &mut r.fmap.named_order, None),
    // An area is missing in a map only where a map is.
    ("carry", "R32", |r| &mut r.fmap.carry_order, Some(Row::AreaMissing)),
];

fn layout() -> Vec<Variant> {
    vec![
        variant("signature-of-7", "M1", |r| r.fmap.signature = b"__FMAP_"),
        variant("signature-in-lower-case", "M1", |r| r.fmap.signature = b"__fmap__"),
        variant("header-of-55", "M1", |r| r.fmap.header_len = 55),
        variant("header-of-57", "M1", |r| r.fmap.header_len = 57),
        variant("versions-exchanged", "M1", |r| (r.fmap.major.at, r.fmap.minor.at) = (9, 8)),
        variant("base-of-4", "M1", |r| r.fmap.image_size.at = 14),
        variant("image-size-of-3", "M1", |r| r.fmap.image_size.len = 3),
        variant("image-name-at-21", "M1", |r| r.fmap.image_name.at = 21),
        variant("image-name-of-31", "M1", |r| r.fmap.image_name.len = 31),
        variant("count-of-1-byte", "M1", |r| r.fmap.count = Span { at: 54, len: 1 }),
        variant("areas-of-43", "M2", |r| r.fmap.area_len = 43),
        variant("areas-of-40", "M2", |r| r.fmap.area_len = 40),
        variant("offset-and-size-exchanged", "M2", |r| (r.fmap.offset.at, r.fmap.size.at) = (4, 0)),
        variant("area-name-at-9", "M2", |r| r.fmap.name.at = 9),
        variant("area-name-of-31", "M2", |r| r.fmap.name.len = 31),
        variant("flags-at-41", "M2", |r| r.fmap.flags = Span { at: 41, len: 1 }),
        variant("preserve-is-4", "M2", |r| r.fmap.preserve = 4),
        variant("preserve-is-16", "M2", |r| r.fmap.preserve = 16),
        variant("preserve-by-any-flag", "M2", |r| r.fmap.preserve = 15),
    ]
}

/// Of M3, that a map has an area and lies in the image cannot be broken alone: M6 and M8 say it too.
fn good_maps() -> Vec<Variant> {
    vec![
        variant("major-2", "M3", |r| r.fmap.major_is = 2),
        variant("major-0", "M3", |r| r.fmap.major_is = 0),
        variant("minor-1-refused", "M3", |r| r.fmap.minor_max = 0),
        variant("minor-2-taken", "M3", |r| r.fmap.minor_max = 2),
        variant("any-minor-taken", "M3", |r| r.fmap.minor_max = 255),
        variant("image-size-unjudged", "M3", |r| r.fmap.image_size_judged = false),
        variant("count-1-refused", "M3", |r| r.fmap.count_min = 2),
        variant("count-128-refused", "M3", |r| r.fmap.count_max = 127),
        variant("count-129-taken", "M3", |r| r.fmap.count_max = 129),
        variant("empty-name-taken", "M4", |r| r.fmap.name_len_min = 0),
        variant("name-of-1-refused", "M4", |r| r.fmap.name_len_min = 2),
        variant("name-of-31-refused", "M4", |r| r.fmap.name_len_max = 30),
        variant("name-of-32-taken", "M4", |r| r.fmap.name_len_max = 32),
        variant("name-20-taken", "M4", |r| r.fmap.name_byte_min = 0x20),
        variant("name-21-refused", "M4", |r| r.fmap.name_byte_min = 0x22),
        variant("name-7E-refused", "M4", |r| r.fmap.name_byte_max = 0x7D),
        variant("name-7F-taken", "M4", |r| r.fmap.name_byte_max = 0x7F),
        variant("name-goes-on-after-zero", "M4", |r| r.fmap.zeros_after_name = false),
        variant("image-name-unjudged", "M4", |r| r.fmap.image_name_judged = false),
        variant("equal-names-taken", "M5", |r| r.fmap.names_differ = false),
        variant("size-0-taken", "M6", |r| r.fmap.size_min = 0),
        variant("size-1-refused", "M6", |r| r.fmap.size_min = 2),
        variant("end-unjudged", "M6", |r| r.fmap.ends_in_image = false),
        variant("end-wraps-at-2^32", "M6", |r| r.fmap.sum_mask = 0xFFFF_FFFF),
        variant("equal-areas-refused", "M7", |r| r.fmap.equal_good = false),
        variant("nested-areas-refused", "M7", |r| r.fmap.nested_good = false),
        variant("crossing-areas-taken", "M7", |r| r.fmap.crossing_good = true),
        variant("fmap-by-another-name", "M8", |r| r.fmap.fmap_name = b"fmap"),
        variant("fmap-starts-anywhere", "M8", |r| r.fmap.fmap_starts_there = false),
        variant("fmap-too-small-taken", "M8", |r| r.fmap.fmap_holds_map = false),
        variant("flags-judged", "M9", |r| r.fmap.flags_judged = Some(15)),
    ]
}

/// Each rule of a map not judged, judged after the next one, and under another number.
fn faults() -> Vec<Variant> {
    let rules = RULES.fmap.fault_order;
    let without = |k: usize| {
        let rest = [&rules[..k], &rules[k + 1..]].concat();
        variant(format!("fault-without-{:?}", rules[k].0), sentence(rules[k].0), |r| {
            r.fmap.fault_order = rest.leak()
        })
    };
    let after = |k: usize| {
        let mut swapped = rules.to_vec();
        swapped.swap(k - 1, k);
        let name = format!("fault-{:?}-before-{:?}", rules[k].0, rules[k - 1].0);
        variant(name, sentence(rules[k].0), |r| r.fmap.fault_order = swapped.leak())
    };
    let renumbered = |k: usize| {
        let mut numbers = rules.to_vec();
        numbers[k].1 = 16;
        variant(format!("fault-16-for-{:?}", rules[k].0), sentence(rules[k].0), |r| {
            r.fmap.fault_order = numbers.leak()
        })
    };
    // A map has not at once no area and too many.
    let neighbours = (1..rules.len()).filter(|k| rules[*k].0 != MapRule::TooManyAreas);
    let all = 0..rules.len();
    all.clone().map(without).chain(neighbours.map(after)).chain(all.map(renumbered)).collect()
}

/// The sentence that has the rule.
fn sentence(rule: MapRule) -> &'static str {
    match rule {
        MapRule::Signature => "M1",
        MapRule::Name | MapRule::AreaName => "M4",
        MapRule::SameName => "M5",
        MapRule::AreaSize | MapRule::AreaEnd => "M6",
        MapRule::Crossing => "M7",
        MapRule::MapArea => "M8",
        _ => "M3",
    }
}

fn finding() -> Vec<Variant> {
    vec![
        variant("highest-map", "M10", |r| r.fmap.pick = Pick::Highest),
        variant("first-signature-only", "M10", |r| r.fmap.pick = Pick::FirstSignature),
        variant("every-4th-position", "M10", |r| r.fmap.alignment = 4),
        variant("every-2nd-position", "M10", |r| r.fmap.alignment = 2),
        variant("no-overlapping-signatures", "M10", |r| r.fmap.after_signature = 8),
        variant("search-goes-on-after-a-header", "M10", |r| r.fmap.after_signature = 56),
    ]
}

fn carrying() -> Vec<Variant> {
    vec![
        variant("preserve-by-new-flags", "M11", |r| r.fmap.preserve_in = In::New),
        variant("preserve-by-either-flags", "M11", |r| r.fmap.preserve_in = In::Either),
        variant("target-by-index", "M11", |r| r.fmap.target_by = By::Index),
        variant("target-by-offset", "M11", |r| r.fmap.target_by = By::Offset),
        variant("carried-to-old-offset", "M11", |r| r.fmap.carry_slip = Some(CarrySlip::AtOldOffset)),
        variant("a-byte-less-carried", "M11", |r| r.fmap.carry_slip = Some(CarrySlip::OneByteLess)),
        variant("a-byte-more-carried", "M12", |r| r.fmap.carry_slip = Some(CarrySlip::OneByteMore)),
        variant("flags-carried", "M12", |r| r.fmap.carry_slip = Some(CarrySlip::FlagsToo)),
        variant("new-map-found-again", "M13", |r| r.fmap.found_before_carry = false),
        variant("shared-in-old-only", "R24", |r| r.fmap.shared_in = In::Old),
        variant("shared-in-new-only", "R24", |r| r.fmap.shared_in = In::New),
        variant("equal-areas-share-nothing", "R24", |r| r.fmap.equal_shares = false),
        variant("nested-areas-share-nothing", "R24", |r| r.fmap.nested_shares = false),
        variant("touching-areas-share", "R24", |r| r.fmap.touching_shares = true),
        variant("fmap-of-old", "R24", |r| r.fmap.fmap_of = In::Old),
        variant("fmap-of-either", "R24", |r| r.fmap.fmap_of = In::Either),
    ]
}
