//! The kinds of images that a comparison must have met.

use crate::run::Cell::{self, On};
use usigrambal::flash::{self, Area};

pub const FIND: &[Cell] = &[
    On(ODD_POSITION),
    On(SIGNATURE_BELOW),
    On(SIGNATURE_ABOVE),
    On(OVERLAPPING),
    On(NO_ROOM_FOR_A_HEADER),
    On(IN_THE_LAST_BYTES),
];

const ODD_POSITION: &str = "map at an odd position";
const SIGNATURE_BELOW: &str = "signature below the map";
const SIGNATURE_ABOVE: &str = "signature above the map";
const OVERLAPPING: &str = "overlapping signatures";
const NO_ROOM_FOR_A_HEADER: &str = "signature without room for a header";
const IN_THE_LAST_BYTES: &str = "signature in the last 8 bytes";

/// Of an image, and where its map was found.
pub fn of_image(image: &[u8], found: Option<u64>) -> Vec<Cell> {
    let mut kinds = Vec::new();
    let signed: Vec<usize> = signatures(image);
    let mut note = |kind, holds: bool| kinds.extend(holds.then_some(On(kind)));
    if let Some(position) = found {
        note(ODD_POSITION, position % 2 == 1);
        note(SIGNATURE_BELOW, signed.iter().any(|at| (*at as u64) < position));
        note(SIGNATURE_ABOVE, signed.iter().any(|at| *at as u64 > position));
    }
    note(OVERLAPPING, signed.windows(2).any(|two| two[1] - two[0] < 8));
    note(NO_ROOM_FOR_A_HEADER, signed.last().is_some_and(|at| image.len() - at < 56));
    note(IN_THE_LAST_BYTES, signed.last().is_some_and(|at| image.len() - at == 8));
    kinds
}

fn signatures(image: &[u8]) -> Vec<usize> {
    let places = image.windows(8).enumerate();
    places.filter(|(_, bytes)| bytes == b"__FMAP__").map(|(at, _)| at).collect()
}

pub const CARRY: &[Cell] = &[
    On(MISSING),
    On(SMALLER),
    On(LARGER),
    On(NESTED_IN_OLD),
    On(EQUAL_IN_OLD),
    On(NESTED_IN_NEW),
    On(EQUAL_IN_NEW),
    On(IN_FMAP),
    On(HOLDS_FMAP),
    On(FMAP_ITSELF),
    On(BESIDE_FMAP),
    On(OTHER_ORDER),
    On(OTHER_PLACE),
    On(OTHER_LENGTH),
    On(NOTHING_TO_CARRY),
];

const MISSING: &str = "missing";
const SMALLER: &str = "smaller in new";
const LARGER: &str = "larger in new";
const NESTED_IN_OLD: &str = "nested in old";
const EQUAL_IN_OLD: &str = "equal in old";
const NESTED_IN_NEW: &str = "nested in new";
const EQUAL_IN_NEW: &str = "equal in new";
const IN_FMAP: &str = "in FMAP";
const HOLDS_FMAP: &str = "around FMAP";
const FMAP_ITSELF: &str = "FMAP preserved";
const BESIDE_FMAP: &str = "beside FMAP";
const OTHER_ORDER: &str = "in another order";
const OTHER_PLACE: &str = "in another place";
const OTHER_LENGTH: &str = "images of different lengths";
const NOTHING_TO_CARRY: &str = "nothing preserved";

/// Of a carry between two images that have a map.
pub fn of_carry(old: &[u8], new: &[u8]) -> Vec<Cell> {
    let (Ok(olds), Ok(news)) = (flash::areas(old), flash::areas(new)) else { return Vec::new() };
    let from: Vec<&Area> = olds.iter().filter(|area| area.flags & Area::PRESERVE != 0).collect();
    let target = |area: &Area| news.iter().find(|other| other.name == area.name);
    let places: Vec<(&Area, &Area)> = from.iter().filter_map(|area| Some((*area, target(area)?))).collect();
    let to: Vec<&Area> = places.iter().map(|(_, to)| *to).collect();
    let fmap = news.iter().find(|area| area.name == "FMAP").expect("area FMAP");
    let others: Vec<&Area> = to.iter().copied().filter(|area| area.name != "FMAP").collect();
    let order = |names: &[Area]| {
        let kept = |name: &String| to.iter().any(|area| area.name == *name);
        names.iter().map(|area| area.name.clone()).filter(kept).collect::<Vec<_>>()
    };
    let mut kinds = Vec::new();
    let mut note = |kind, holds: bool| kinds.extend(holds.then_some(On(kind)));
    note(MISSING, to.len() < from.len());
    note(SMALLER, places.iter().any(|(from, to)| to.size < from.size));
    note(LARGER, places.iter().any(|(from, to)| to.size > from.size));
    note(NESTED_IN_OLD, any_two(&from, |a, b| holds(a, b) && !equal(a, b)));
    note(EQUAL_IN_OLD, any_two(&from, equal));
    note(NESTED_IN_NEW, any_two(&to, |a, b| holds(a, b) && !equal(a, b)));
    note(EQUAL_IN_NEW, any_two(&to, equal));
    note(IN_FMAP, others.iter().any(|area| holds(fmap, area)));
    note(HOLDS_FMAP, others.iter().any(|area| holds(area, fmap) && !equal(area, fmap)));
    note(FMAP_ITSELF, from.iter().any(|area| area.name == "FMAP"));
    note(BESIDE_FMAP, others.iter().any(|area| end(area) == fmap.offset || end(fmap) == area.offset));
    note(OTHER_ORDER, order(&olds) != order(&news));
    note(OTHER_PLACE, places.iter().any(|(from, to)| from.offset != to.offset));
    note(OTHER_LENGTH, old.len() != new.len());
    note(NOTHING_TO_CARRY, from.is_empty());
    kinds
}

fn any_two(areas: &[&Area], test: impl Fn(&Area, &Area) -> bool) -> bool {
    let other = |k: usize, j: usize| k != j && test(areas[k], areas[j]);
    (0..areas.len()).any(|k| (0..areas.len()).any(|j| other(k, j)))
}

fn end(area: &Area) -> u32 {
    area.offset + area.size
}

fn equal(a: &Area, b: &Area) -> bool {
    (a.offset, a.size) == (b.offset, b.size)
}

/// The first holds the second.
fn holds(a: &Area, b: &Area) -> bool {
    a.offset <= b.offset && end(b) <= end(a)
}
