//! The flash map calls. Arguments and answers are those of the C interface.

mod carry;
mod fault;
mod map;

pub use carry::fmap_carry;
pub use fault::fmap_fault;

use crate::bytes::put;
use crate::refuse::{first_refusal, leave, leave_answer};
use crate::rules::{Row, Rules};
use map::{find, Found, Map};

/// An image as a search finds it.
struct Image {
    len: usize,
    found: Found,
}

impl Image {
    fn of(rules: &Rules, image: &[u8]) -> Image {
        Image { len: image.len(), found: find(rules, image) }
    }

    /// An image of which nothing is known but its length.
    fn of_length(len: usize) -> Image {
        Image { len, found: Found::NoSignature }
    }

    fn map(&self) -> Option<&Map> {
        self.found.map()
    }

    /// R15, R16.
    fn holds(&self, rules: &Rules, row: Row) -> bool {
        match row {
            Row::ImageLength => !(rules.fmap.image_min..=rules.fmap.image_max).contains(&self.len),
            Row::NoSignature => matches!(self.found, Found::NoSignature),
            Row::NoGoodMap => self.map().is_none(),
            _ => false,
        }
    }
}

/// M10: the position of the map.
pub fn fmap_find(rules: &Rules, image: &[u8], position: &mut u64) -> u32 {
    let image = Image::of(rules, image);
    let refusal = first_refusal(rules, rules.fmap.find_order, |row| image.holds(rules, row));
    let found = image.map().map(|map| map.position as u64);
    answer(rules, refusal, found, position)
}

/// The number of areas.
pub fn fmap_area_count(rules: &Rules, image: &[u8], count: &mut u64) -> u32 {
    let image = Image::of(rules, image);
    let refusal = first_refusal(rules, rules.fmap.find_order, |row| image.holds(rules, row));
    let found = image.map().map(|map| map.areas.len() as u64);
    answer(rules, refusal, found, count)
}

/// The 42 bytes of the area at `k`, counted from 0.
pub fn fmap_area(rules: &Rules, image: &[u8], k: u64, area: &mut [u8]) -> u32 {
    let image = Image::of(rules, image);
    let found = image.map().and_then(|map| map.areas.get(usize::try_from(k).ok()?));
    let refusal = first_refusal(rules, rules.fmap.area_order, |row| match row {
        Row::WrongLength => area.len() != rules.fmap.area_buffer_len,
        Row::Nothing => found.is_none(),
        _ => image.holds(rules, row),
    });
    match (refusal, found) {
        (None, Some(found)) => put(area, 0, &found.bytes),
        _ => leave(rules, area),
    }
    refusal.unwrap_or(0)
}

/// The place, counted from 0, of the area of that name.
pub fn fmap_named(rules: &Rules, image: &[u8], name: &[u8], k: &mut u64) -> u32 {
    let image = Image::of(rules, image);
    let place = image.map().and_then(|map| map.areas.iter().position(|area| area.name == name));
    let refusal = first_refusal(rules, rules.fmap.named_order, |row| match row {
        Row::Nothing => place.is_none(),
        _ => image.holds(rules, row),
    });
    answer(rules, refusal, place.map(|place| place as u64), k)
}

fn answer(rules: &Rules, refusal: Option<u32>, found: Option<u64>, answer: &mut u64) -> u32 {
    match (refusal, found) {
        (None, Some(found)) => *answer = found,
        (None, None) => {}
        (Some(_), _) => leave_answer(rules, answer),
    }
    refusal.unwrap_or(0)
}
