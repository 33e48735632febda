use super::map::{crosses, name, value, Area};
use super::Image;
use crate::bytes::part;
use crate::refuse::{first_refusal, leave_answer};
use crate::rules::{FmapRules, MapRule, Rules};

/// The first rule that a map at that position breaks; 0 where it is good.
pub fn fmap_fault(rules: &Rules, image: &[u8], position: u64, rule: &mut u64) -> u32 {
    let length = Image::of_length(image.len());
    let refusal = first_refusal(rules, rules.fmap.fault_refusals, |row| length.holds(rules, row));
    match refusal {
        None => *rule = first_broken(&rules.fmap, image, position),
        Some(_) => leave_answer(rules, rule),
    }
    refusal.unwrap_or(0)
}

fn first_broken(rules: &FmapRules, image: &[u8], position: u64) -> u64 {
    let stored = Stored::at(rules, image, usize::try_from(position).unwrap_or(usize::MAX));
    let broken = rules.fault_order.iter().find(|(rule, _)| stored.breaks(*rule));
    broken.map_or(0, |(_, number)| *number)
}

/// What stands at a position, as a map.
struct Stored<'a> {
    rules: &'a FmapRules,
    image_len: u64,
    position: usize,
    /// From the position on.
    bytes: &'a [u8],
    count: u64,
    areas: Vec<Area>,
}

impl<'a> Stored<'a> {
    fn at(rules: &'a FmapRules, image: &'a [u8], position: usize) -> Stored<'a> {
        let bytes = part(image, position, image.len());
        let count = value(rules, bytes, rules.count);
        let areas = part(bytes, rules.header_len, rules.area_len * count as usize).chunks(rules.area_len);
        let areas = areas.map(|area| Area::stored(rules, area)).collect();
        Stored { rules, image_len: image.len() as u64, position, bytes, count, areas }
    }

    /// M1, M2.
    fn map_len(&self) -> u64 {
        self.rules.header_len as u64 + self.rules.area_len as u64 * self.count
    }

    fn value(&self, span: crate::rules::Span) -> u64 {
        value(self.rules, self.bytes, span)
    }

    fn breaks(&self, rule: MapRule) -> bool {
        let (rules, len) = (self.rules, self.bytes.len() as u64);
        match rule {
            MapRule::Signature => !self.bytes.starts_with(rules.signature),
            MapRule::HeaderEnd => len < rules.header_len as u64,
            MapRule::Major => self.value(rules.major) != rules.major_is,
            MapRule::Minor => self.value(rules.minor) > rules.minor_max,
            MapRule::ImageSize => rules.image_size_judged && self.value(rules.image_size) != self.image_len,
            MapRule::NoArea => self.count < rules.count_min,
            MapRule::TooManyAreas => self.count > rules.count_max,
            MapRule::MapEnd => rules.map_in_image && len < self.map_len(),
            MapRule::Name => {
                let stored = part(self.bytes, rules.image_name.at, rules.image_name.len);
                rules.image_name_judged && name(rules, stored).is_none()
            }
            MapRule::AreaSize => self.areas.iter().any(|area| area.size < rules.size_min),
            MapRule::AreaEnd => self.areas.iter().any(|area| area.ends_past(rules, self.image_len)),
            MapRule::AreaName => self.areas.iter().any(|area| area.named(rules).is_none()),
            MapRule::MapArea => !self.areas.iter().any(|area| self.is_map_area(area)),
            MapRule::SameName => rules.names_differ && self.some_two(|a, b| a.named(rules) == b.named(rules)),
            MapRule::Crossing => self.some_two(|a, b| crosses(rules, a, b)),
        }
    }

    /// M8.
    fn is_map_area(&self, area: &Area) -> bool {
        area.named(self.rules).is_some_and(|name| name == self.rules.fmap_name)
            && (!self.rules.fmap_starts_there || area.offset == self.position as u64)
            && (!self.rules.fmap_holds_map || area.size >= self.map_len())
    }

    fn some_two(&self, two: impl Fn(&Area, &Area) -> bool) -> bool {
        (1..self.areas.len()).any(|k| self.areas[..k].iter().any(|earlier| two(earlier, &self.areas[k])))
    }
}
