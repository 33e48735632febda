//! Flash images and their map.

use crate::raw;
use crate::refusal::accepted;
use crate::refused::{Detail, Refused};
use crate::Refusal;

pub use crate::rule::Rule;

const AREA_LEN: usize = 42;
const HEADER_LEN: usize = 56;

/// A map with its areas (rules M1, M2).
#[derive(Clone, Debug, PartialEq, Eq)]
pub struct Map {
    pub position: u64,
    pub major: u8,
    pub minor: u8,
    pub base: u64,
    pub name: String,
    pub areas: Vec<Area>,
}

/// An area that a carry moves, by the two maps.
#[derive(Clone, Debug, PartialEq, Eq)]
pub struct Carried {
    pub name: String,
    pub from: u32,
    pub to: u32,
    pub size: u32,
}

/// An area of the map (rule M2).
#[derive(Clone, Debug, PartialEq, Eq)]
pub struct Area {
    pub offset: u32,
    pub size: u32,
    pub name: String,
    pub flags: u16,
}

impl Area {
    pub const STATIC: u16 = 1;
    pub const COMPRESSED: u16 = 2;
    pub const RO: u16 = 4;
    pub const PRESERVE: u16 = 8;

    pub fn preserved(&self) -> bool {
        self.flags & Area::PRESERVE != 0
    }

    /// The area's bytes in the image that has the map.
    pub fn bytes<'a>(&self, image: &'a [u8]) -> &'a [u8] {
        &image[self.offset as usize..][..self.size as usize]
    }
}

/// The position of the lowest good map (rule M10).
pub fn find(image: &[u8]) -> Result<u64, Refused> {
    let mut position = 0;
    accepted_for(image, raw::fmap_find(image, &mut position))?;
    Ok(position)
}

/// The first rule that a map at that position breaks; `None` if a good map stands there.
pub fn fault_at(image: &[u8], position: u64) -> Result<Option<Rule>, Refused> {
    let mut rule = 0;
    accepted_for(image, raw::fmap_fault(image, position, &mut rule))?;
    Ok(Rule::from_number(rule))
}

/// The area at `k`, counted from 0; `None` if the map has no more than `k` areas.
pub fn area(image: &[u8], k: u64) -> Result<Option<Area>, Refused> {
    let mut bytes = [0; AREA_LEN];
    let answer = raw::fmap_area(image, k, &mut bytes);
    there(image, answer, || decoded(&bytes))
}

/// The map that is found, with all its areas, by one search.
pub fn map(image: &[u8]) -> Result<Map, Refused> {
    let position = find(image)?;
    let (header, rest) = image[position as usize..].split_at(HEADER_LEN);
    let count = u16::from_le_bytes([header[54], header[55]]);
    let areas = rest.chunks_exact(AREA_LEN).take(count.into());
    Ok(Map {
        position,
        major: header[8],
        minor: header[9],
        base: u64::from_le_bytes(header[10..18].try_into().expect("8 bytes")),
        name: text_of(&header[22..54]),
        areas: areas.map(|bytes| decoded(bytes.try_into().expect("42 bytes"))).collect(),
    })
}

/// All areas, in the order of the map.
pub fn areas(image: &[u8]) -> Result<Vec<Area>, Refused> {
    Ok(map(image)?.areas)
}

/// The place, counted from 0, of the area of that name, if there is one.
pub fn area_named(image: &[u8], name: impl AsRef<[u8]>) -> Result<Option<u64>, Refused> {
    let mut k = 0;
    let answer = raw::fmap_named(image, name.as_ref(), &mut k);
    there(image, answer, || k)
}

/// Copies each area that the old map preserves to the same-named area of the new image (rules M11 to M13).
pub fn carry(old: &[u8], new: &mut [u8]) -> Result<(), Refused> {
    let answer = raw::fmap_carry(old, new);
    let blamed = || if find(old).is_err() { "old" } else { "new" };
    accepted(answer).map_err(|refused| {
        let area = blamed_area(old, new, refused.refusal).map(Detail::Area);
        refused.about(&[[Detail::Image(blamed())].as_slice(), area.as_slice()].concat())
    })
}

/// The first area that is missing in the new map (60) or has another size there (61), as the old map stores its name.
fn blamed_area(old: &[u8], new: &[u8], refusal: Refusal) -> Option<[u8; 32]> {
    let there = map(new).ok()?.areas;
    let same = |old: &Area| there.iter().find(|new| new.name == old.name);
    let at_fault = |area: &&Area| match refusal {
        Refusal::AreaMissing => same(area).is_none(),
        Refusal::AreaOtherSize => same(area).is_some_and(|new| new.size != area.size),
        _ => false,
    };
    let areas = map(old).ok()?.areas;
    let blamed = areas.iter().filter(|area| area.preserved()).find(at_fault)?;
    let mut name = [0; 32];
    name[..blamed.name.len()].copy_from_slice(blamed.name.as_bytes());
    Some(name)
}

/// What a carry between two images moves, in the order of the old map.
pub fn carried(old: &[u8], new: &[u8]) -> Result<Vec<Carried>, Refused> {
    let (old, new) = (map(old)?.areas, map(new)?.areas);
    let pair = |area: &Area| {
        let target = new.iter().find(|target| target.name == area.name)?;
        Some(Carried { name: area.name.clone(), from: area.offset, to: target.offset, size: area.size })
    };
    Ok(old.iter().filter(|area| area.preserved()).filter_map(pair).collect())
}

fn accepted_for(image: &[u8], answer: u32) -> Result<(), Refused> {
    accepted(answer).map_err(|refused| refused.about(&[Detail::Bytes(image.len())]))
}

/// An accepted answer's value, `None` where no such area is there.
fn there<T>(image: &[u8], answer: u32, value: impl FnOnce() -> T) -> Result<Option<T>, Refused> {
    if answer == Refusal::NoSuchArea.number() {
        return Ok(None);
    }
    accepted_for(image, answer)?;
    Ok(Some(value()))
}

fn decoded(bytes: &[u8; AREA_LEN]) -> Area {
    let number = |at: usize| u32::from_le_bytes(bytes[at..at + 4].try_into().expect("4 bytes"));
    Area {
        offset: number(0),
        size: number(4),
        name: text_of(&bytes[8..40]),
        flags: u16::from_le_bytes([bytes[40], bytes[41]]),
    }
}

fn text_of(name: &[u8]) -> String {
    name.iter().take_while(|byte| **byte != 0).map(|byte| char::from(*byte)).collect()
}

#[cfg(test)]
mod tests {
    use super::*;

    const LEN: usize = 300;

    /// A map at 7 with the areas FMAP and CAL, by the layout of rules M1 and M2.
    fn image(cal_offset: u32, cal_size: u32) -> Vec<u8> {
        let mut map = b"__FMAP__\x01\x01".to_vec();
        map.extend(0x1_0000_0002u64.to_le_bytes());
        map.extend((LEN as u32).to_le_bytes());
        map.extend(name(b"CHIP"));
        map.extend(2u16.to_le_bytes());
        for (offset, size, area_name, flags) in
            [(7, 140, &b"FMAP"[..], 0), (cal_offset, cal_size, b"CAL", Area::PRESERVE)]
        {
            map.extend(u32::to_le_bytes(offset));
            map.extend(u32::to_le_bytes(size));
            map.extend(name(area_name));
            map.extend(flags.to_le_bytes());
        }
        let mut image = vec![0xFF; LEN];
        image[7..7 + map.len()].copy_from_slice(&map);
        image
    }

    fn name(bytes: &[u8]) -> [u8; 32] {
        let mut name = [0; 32];
        name[..bytes.len()].copy_from_slice(bytes);
        name
    }

    #[test]
    fn areas_of_a_map() {
        let image = image(200, 50);
        assert_eq!(find(&image), Ok(7));
        let cal = Area { offset: 200, size: 50, name: "CAL".into(), flags: Area::PRESERVE };
        assert_eq!(areas(&image).unwrap()[1], cal);
        assert_eq!(areas(&image).unwrap().len(), 2);
        let map = map(&image).unwrap();
        assert_eq!((map.position, map.major, map.minor, map.base), (7, 1, 1, 0x1_0000_0002));
        assert_eq!((map.name.as_str(), map.areas.len()), ("CHIP", 2));
        for (k, one) in (0..).zip(map.areas) {
            assert_eq!(area(&image, k), Ok(Some(one)));
        }
        assert_eq!(area(&image, 2), Ok(None));
        assert_eq!(area_named(&image, "CAL"), Ok(Some(1)));
        assert_eq!(area_named(&image, "CALL"), Ok(None));
        assert_eq!(cal.bytes(&image), &image[200..250]);
    }

    #[test]
    fn the_first_rule_that_a_map_breaks() {
        let (mut image, good) = (image(200, 50), image(200, 50));
        assert_eq!(fault_at(&image, 7), Ok(None));
        for nowhere in [0, 6, 8, 300, u64::from(u32::MAX) + 8, u64::MAX] {
            assert_eq!(fault_at(&image, nowhere), Ok(Some(Rule::Signature)));
        }
        image[7 + 9] = 2;
        assert_eq!(fault_at(&image, 7), Ok(Some(Rule::Minor)));
        assert_eq!(Rule::Minor.found(&image, 7), "minor version 2");
        image[7 + 18..7 + 22].copy_from_slice(&301u32.to_le_bytes());
        assert_eq!(fault_at(&image, 7), Ok(Some(Rule::Minor)));
        image[7 + 9] = 0;
        assert_eq!(fault_at(&image, 7), Ok(Some(Rule::ImageSize)));
        assert_eq!(
            Rule::ImageSize.found(&image, 7),
            "image size 301 in the map, and the image has 300 bytes"
        );
        assert_eq!(fault_at(&good[..97], 7).unwrap_err().number(), 40);
        assert_eq!(
            Rule::MapArea.found(&image, u64::MAX),
            "no area FMAP starts at the map and holds all of it"
        );
        for rule in Rule::ALL {
            assert_eq!(Rule::from_number(rule.number()), Some(*rule));
        }
    }

    #[test]
    fn refusals_in_words() {
        assert_eq!(
            find(&[0; 97]).unwrap_err().to_string(),
            "40: the image length is outside its range: 97 bytes"
        );
        assert_eq!(areas(&[0; 98]).unwrap_err().number(), 41);
        assert_eq!(area_named(&image(100, 50), "CAL").unwrap_err().to_string(), "42: no good map");
    }

    #[test]
    fn a_carry_moves_the_bytes() {
        let (mut old, mut new) = (image(200, 50), image(150, 50));
        old[200..250].fill(0x5A);
        carry(&old, &mut new).unwrap();
        let mut expected = image(150, 50);
        expected[150..200].fill(0x5A);
        assert_eq!(new, expected);
        assert_eq!(
            carry(&old, &mut image(150, 49)).unwrap_err().to_string(),
            "61: a preserved area has another size in the new map: CAL"
        );
        let moved = Carried { name: "CAL".into(), from: 200, to: 150, size: 50 };
        assert_eq!(carried(&old, &new), Ok(vec![moved]));
        let refused = carry(&old, &mut [0; 98]).unwrap_err().to_string();
        assert_eq!(refused, "41: the signature of a map stands nowhere: the new image");
    }
}
