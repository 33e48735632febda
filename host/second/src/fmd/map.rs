use super::layout::{Layout, Place};
use super::reading::Section;
use crate::bytes::{part, put, stored};
use crate::rules::{FmapRules, ListOrder, MapAt, MapSlip, Rules, Span, Unused};

/// L16: fills the lent records, each as an area of the map.
pub fn fill(rules: &Rules, layout: &Layout, records: &mut [u8]) {
    let len = rules.fmap.area_len;
    if rules.fmd.unused == Unused::Zeroed {
        records.fill(0);
    }
    for (at, k) in listed(layout, rules.fmd.list_order).into_iter().enumerate() {
        let at = (at + rules.fmd.first_record) * len;
        let before = part(records, at, len).to_vec();
        put(records, at, &area(rules, layout, k, &before));
    }
}

/// L17, L18: writes the map into the image.
pub fn write(rules: &Rules, layout: &Layout, image: &mut [u8]) {
    let fmap = layout.fmap(&rules.fmd).map(|k| layout.places[k]);
    let Some(at) = fmap.and_then(|fmap| start(rules, fmap)) else { return };
    let mut bytes = map(rules, layout);
    match rules.fmd.map_slip {
        Some(MapSlip::OneByteMore) => bytes.push(0),
        Some(MapSlip::RestOfSection) => bytes.resize(fmap.map_or(0, |fmap| fmap.size as usize), 0xFF),
        None => {}
    }
    put(image, at, &bytes);
}

fn start(rules: &Rules, fmap: Place) -> Option<usize> {
    let at = match rules.fmd.map_at {
        MapAt::FmapPosition => fmap.position,
        MapAt::FmapOffset => fmap.offset,
        MapAt::FmapEnd => fmap.position + fmap.size,
        MapAt::ImageStart => 0,
    };
    usize::try_from(at).ok()
}

/// M1, L17: header and areas.
fn map(rules: &Rules, layout: &Layout) -> Vec<u8> {
    let (fmap, image) = (&rules.fmap, &layout.reading.image);
    let mut bytes = vec![0; fmap.header_len];
    let address = image.address.filter(|_| rules.fmd.base_is_address);
    put(&mut bytes, 0, fmap.signature);
    number(fmap, &mut bytes, fmap.major, rules.fmd.map_version.0);
    number(fmap, &mut bytes, fmap.minor, rules.fmd.map_version.1);
    number(fmap, &mut bytes, fmap.base, address.unwrap_or(rules.fmd.no_address));
    number(fmap, &mut bytes, fmap.image_size, image.size);
    put(&mut bytes, fmap.image_name.at, &image.name);
    number(fmap, &mut bytes, fmap.count, layout.places.len() as u64);
    for k in listed(layout, rules.fmd.map_order) {
        bytes.extend(area(rules, layout, k, &vec![0; fmap.area_len]));
    }
    bytes
}

/// M2: the area of a section; `before` is what stood there.
fn area(rules: &Rules, layout: &Layout, k: usize, before: &[u8]) -> Vec<u8> {
    let (fmap, section, place) = (&rules.fmap, &layout.reading.sections[k], layout.places[k]);
    let mut bytes = before.to_vec();
    if rules.fmd.zeros_after_name {
        put(&mut bytes, fmap.name.at, &vec![0; fmap.name.len]);
    }
    number(fmap, &mut bytes, fmap.offset, place.position as u64);
    number(fmap, &mut bytes, fmap.size, place.size as u64);
    put(&mut bytes, fmap.name.at, &section.name);
    number(fmap, &mut bytes, fmap.flags, bits(rules, section));
    bytes
}

/// L17, A2: "flags 8 or 0".
fn bits(rules: &Rules, section: &Section) -> u64 {
    let of = |flag: &Vec<u8>| rules.fmd.flag_bits.iter().find(|(word, _)| word == flag);
    section.flags.iter().filter_map(of).fold(0, |bits, (_, flag)| bits | flag)
}

fn number(fmap: &FmapRules, bytes: &mut [u8], span: Span, value: u64) {
    put(bytes, span.at, &stored(fmap.little_endian, value, span.len));
}

/// The sections in the order of a list.
fn listed(layout: &Layout, order: ListOrder) -> Vec<usize> {
    let sections = &layout.reading.sections;
    let mut all: Vec<usize> = (0..sections.len()).collect();
    match order {
        ListOrder::Text => {}
        ListOrder::ByLevel => all.sort_by_key(|k| sections[*k].level),
        ListOrder::Reversed => all.reverse(),
        // A section comes behind the last that lies in it.
        ListOrder::ChildrenFirst => all.sort_by_key(|k| {
            let inner = |j: &usize| sections[*j].level <= sections[*k].level;
            let after = (k + 1..sections.len()).find(inner).unwrap_or(sections.len());
            (after, std::cmp::Reverse(sections[*k].level))
        }),
    }
    all
}
