use crate::bytes::{is_zero, number, part};
use crate::rules::{FmapRules, Pick, Rules, Span};

/// A good map.
pub struct Map {
    pub position: usize,
    pub areas: Vec<Area>,
}

/// M2: an area; the name without the zeros after it.
#[derive(Clone)]
pub struct Area {
    pub offset: u64,
    pub size: u64,
    pub name: Vec<u8>,
    pub flags: u64,
    pub bytes: Vec<u8>,
}

impl Area {
    /// M2: an area whose name is not judged, and empty.
    pub fn stored(rules: &FmapRules, bytes: &[u8]) -> Area {
        Area {
            offset: value(rules, bytes, rules.offset),
            size: value(rules, bytes, rules.size),
            name: Vec::new(),
            flags: value(rules, bytes, rules.flags),
            bytes: bytes.to_vec(),
        }
    }

    /// M4: the name that the bytes have, if it is one.
    pub fn named(&self, rules: &FmapRules) -> Option<Vec<u8>> {
        name(rules, part(&self.bytes, rules.name.at, rules.name.len))
    }

    pub fn ends_past(&self, rules: &FmapRules, image_len: u64) -> bool {
        rules.ends_in_image && self.end(rules) > image_len
    }

    /// M6: offset and size added in 64 bits.
    fn end(&self, rules: &FmapRules) -> u64 {
        (self.offset + self.size) & rules.sum_mask
    }

    pub fn shares_a_byte(&self, other: &Area) -> bool {
        self.offset < other.offset + other.size && other.offset < self.offset + self.size
    }

    pub fn is_equal(&self, other: &Area) -> bool {
        (self.offset, self.size) == (other.offset, other.size)
    }

    pub fn holds(&self, other: &Area) -> bool {
        self.offset <= other.offset && other.offset + other.size <= self.offset + self.size
    }
}

/// What a search finds.
pub enum Found {
    NoSignature,
    NoGoodMap,
    Map(Map),
}

impl Found {
    pub fn map(&self) -> Option<&Map> {
        match self {
            Found::Map(map) => Some(map),
            _ => None,
        }
    }
}

/// M10, R16.
pub fn find(rules: &Rules, image: &[u8]) -> Found {
    let positions = signatures(&rules.fmap, image);
    if positions.is_empty() {
        return Found::NoSignature;
    }
    let mut good = positions.iter().filter_map(|position| good_map(&rules.fmap, image, *position));
    let found = match rules.fmap.pick {
        Pick::Lowest => good.next(),
        Pick::Highest => good.next_back(),
        Pick::FirstSignature => good_map(&rules.fmap, image, positions[0]),
    };
    found.map_or(Found::NoGoodMap, Found::Map)
}

/// Every position of the eight signature bytes.
fn signatures(rules: &FmapRules, image: &[u8]) -> Vec<usize> {
    let needed = match rules.signature_at_end_counts {
        true => rules.signature.len(),
        false => rules.header_len,
    };
    let mut found = Vec::new();
    let mut position = 0;
    while position + needed <= image.len() {
        let here = image[position..].starts_with(rules.signature);
        if here {
            found.push(position);
        }
        position += if here { rules.after_signature } else { 1 };
    }
    found.retain(|position| position % rules.alignment == 0);
    found
}

/// M3 to M8: the map at that position, if it is good.
fn good_map(rules: &FmapRules, image: &[u8], position: usize) -> Option<Map> {
    let map = part(image, position, image.len());
    let header = part(map, 0, rules.header_len);
    if map.len() < rules.header_len || !header_good(rules, image.len(), header) {
        return None;
    }
    let count = value(rules, header, rules.count) as usize;
    let len = rules.header_len + rules.area_len * count;
    if rules.map_in_image && map.len() < len {
        return None;
    }
    let stored = part(map, rules.header_len, rules.area_len * count);
    let areas: Vec<Area> =
        stored.chunks(rules.area_len).map(|bytes| area(rules, bytes)).collect::<Option<_>>()?;
    let good = areas_good(rules, image.len(), &areas) && fmap_good(rules, position, len, &areas);
    good.then_some(Map { position, areas })
}

/// M3, and M4 of the image's name.
fn header_good(rules: &FmapRules, image_len: usize, header: &[u8]) -> bool {
    let value = |span| value(rules, header, span);
    let image_name = part(header, rules.image_name.at, rules.image_name.len);
    value(rules.major) == rules.major_is
        && value(rules.minor) <= rules.minor_max
        && (!rules.image_size_judged || value(rules.image_size) == image_len as u64)
        && (rules.count_min..=rules.count_max).contains(&value(rules.count))
        && (!rules.image_name_judged || name(rules, image_name).is_some())
}

pub fn value(rules: &FmapRules, bytes: &[u8], span: Span) -> u64 {
    number(rules.little_endian, part(bytes, span.at, span.len))
}

/// M4: the bytes before the zeros, if it is a name.
pub fn name(rules: &FmapRules, stored: &[u8]) -> Option<Vec<u8>> {
    let len = stored.iter().position(|byte| *byte == 0).unwrap_or(stored.len());
    let (name, zeros) = stored.split_at(len);
    let bytes = rules.name_byte_min..=rules.name_byte_max;
    let legal = name.iter().all(|byte| bytes.contains(byte));
    let lengths = rules.name_len_min..=rules.name_len_max;
    let good = legal && lengths.contains(&len) && (!rules.zeros_after_name || is_zero(zeros));
    good.then(|| name.to_vec())
}

/// M2, and M4 of its name.
fn area(rules: &FmapRules, bytes: &[u8]) -> Option<Area> {
    let stored = Area::stored(rules, bytes);
    let name = stored.named(rules)?;
    Some(Area { name, ..stored })
}

/// M5 to M7, M9.
fn areas_good(rules: &FmapRules, image_len: usize, areas: &[Area]) -> bool {
    let alone = |area: &Area| {
        let ends = !area.ends_past(rules, image_len as u64);
        let flags = rules.flags_judged.is_none_or(|known| area.flags & !known == 0);
        area.size >= rules.size_min && ends && flags
    };
    let pairs = || (1..areas.len()).all(|k| areas[..k].iter().all(|area| pair_good(rules, area, &areas[k])));
    areas.iter().all(alone) && pairs()
}

/// M5, M7: names differ; disjoint, equal or one in the other.
fn pair_good(rules: &FmapRules, one: &Area, other: &Area) -> bool {
    !(rules.names_differ && one.name == other.name) && !crosses(rules, one, other)
}

/// M7: neither disjoint nor equal nor one in the other.
pub fn crosses(rules: &FmapRules, one: &Area, other: &Area) -> bool {
    if !one.shares_a_byte(other) {
        return false;
    }
    if one.is_equal(other) {
        return !rules.equal_good;
    }
    if one.holds(other) || other.holds(one) {
        return !rules.nested_good;
    }
    !rules.crossing_good
}

/// M8.
fn fmap_good(rules: &FmapRules, position: usize, map_len: usize, areas: &[Area]) -> bool {
    let Some(fmap) = area_named(areas, rules.fmap_name) else { return false };
    (!rules.fmap_starts_there || fmap.offset == position as u64)
        && (!rules.fmap_holds_map || fmap.size >= map_len as u64)
}

pub fn area_named<'a>(areas: &'a [Area], name: &[u8]) -> Option<&'a Area> {
    areas.iter().find(|area| area.name == name)
}
