//! Pairs of images for a carry.

use super::call::carry;
use crate::run::{Outcome, Run};
use testkit::flash::{map_len, new_name, Area, Map, PRESERVE};
use testkit::random::Random;

const CARRIES: usize = 1500;
const FAULT_ROUNDS: usize = 6;

macro_rules! faults {
    ($($fault:ident),+ $(,)?) => {
        /// A way to make a row hold, or almost: to lie in the old map's FMAP, or to preserve nothing, is no fault.
        #[derive(Clone, Copy, Debug, PartialEq, Eq)]
        enum Fault {
            $($fault),+
        }

        const FAULTS: &[Fault] = &[$(Fault::$fault),+];
    };
}

faults! {
    OldLength,
    OldSignature,
    OldMap,
    NewLength,
    NewSignature,
    NewMap,
    Missing,
    Smaller,
    Larger,
    NestedInOld,
    EqualInOld,
    NestedInNew,
    EqualInNew,
    InFmap,
    InOldFmap,
    HoldsFmap,
    FmapItself,
    Unmarked,
}

use Fault::*;

/// Pairs of maps with the same preserved areas, in another order and elsewhere; any faults.
pub fn any(run: &mut Run) -> Outcome {
    for _ in 0..CARRIES {
        let mut faults = Vec::new();
        if run.random.below(3) == 0 {
            faults.push(run.random.pick(FAULTS));
        }
        pair(run, &faults)?;
    }
    Ok(())
}

/// No fault, each fault and each two together.
pub fn each_two(run: &mut Run) -> Outcome {
    for _ in 0..FAULT_ROUNDS {
        pair(run, &[])?;
        for (k, fault) in FAULTS.iter().enumerate() {
            for earlier in &FAULTS[..=k] {
                pair(run, &[*earlier, *fault])?;
            }
        }
    }
    Ok(())
}

fn pair(run: &mut Run, faults: &[Fault]) -> Outcome {
    let random = &mut run.random;
    let carried = carried_areas(random);
    let (mut old, mut new) = (with_others(&carried, random), with_others(&carried, random));
    for area in new.iter_mut() {
        area.flags = random.number() as u16;
    }
    faults.iter().for_each(|fault| on_areas(&mut old, &mut new, *fault, random));
    let (mut old, mut new) = (laid_out(old, random), laid_out(new, random));
    faults.iter().for_each(|fault| on_maps(&mut old, &mut new, *fault, random));
    let (mut old, mut new) = (image_of(&old, random), image_of(&new, random));
    faults.iter().for_each(|fault| on_images(&mut old, &mut new, *fault));
    carry(run, &old, &new)
}

/// FMAP, then 2 to 5 areas to be carried; offsets come later.
fn carried_areas(random: &mut Random) -> Vec<Area> {
    let fmap = Area { offset: 0, size: 0, name: b"FMAP".to_vec(), flags: random.number() as u16 & !PRESERVE };
    let mut areas = vec![fmap];
    for _ in 0..2 + random.below(4) {
        let name = new_name(&areas, random);
        let size = 2 + random.below(40) as u32;
        areas.push(Area { offset: 0, size, name, flags: random.number() as u16 | PRESERVE });
    }
    areas
}

/// Some areas more, that are not preserved; those to be carried stay in front.
fn with_others(carried: &[Area], random: &mut Random) -> Vec<Area> {
    let mut areas = carried.to_vec();
    for _ in 0..random.below(3) {
        let name = new_name(&areas, random);
        areas.push(Area { offset: 0, size: 5, name, flags: random.number() as u16 & !PRESERVE });
    }
    areas
}

/// The areas side by side in any order, touching or with gaps, some of them in one that holds them.
fn laid_out(mut areas: Vec<Area>, random: &mut Random) -> Map {
    let holders = random.below(2);
    areas[0].size = (map_len(areas.len() + holders) + random.below(60)) as u32;
    let mut order: Vec<usize> = (0..areas.len()).collect();
    for k in (1..order.len()).rev() {
        order.swap(k, random.below(k + 1));
    }
    let mut next = 0;
    for k in &order {
        areas[*k].offset = next + random.below(3) as u32 * random.below(9) as u32;
        next = areas[*k].end() as u32;
    }
    let length = (next + random.below(20) as u32).max(98);
    for _ in 0..holders {
        let (a, b) = (random.below(order.len()), random.below(order.len()));
        let (first, last) = (&areas[order[a.min(b)]], &areas[order[a.max(b)]]);
        let (offset, size) = (first.offset, last.end() as u32 - first.offset);
        let name = new_name(&areas, random);
        areas.push(Area { offset, size, name, flags: 0 });
    }
    let position = areas[0].offset as usize;
    for k in (1..areas.len()).rev() {
        areas.swap(k, random.below(k + 1));
    }
    Map { major: 1, minor: 1, base: random.number(), size: length, name: b"CHIP".to_vec(), areas, position }
}

fn image_of(map: &Map, random: &mut Random) -> Vec<u8> {
    let mut image = random.bytes(map.size as usize);
    map.write(&mut image);
    image
}

/// Faults of sizes, names and marks, before the areas have places; 1 and 2 are carried.
fn on_areas(old: &mut [Area], new: &mut [Area], fault: Fault, random: &mut Random) {
    match fault {
        Missing => {
            let name = new_name(new, random);
            if let Some(area) = new.iter_mut().find(|area| area.name == old[1].name) {
                area.name = name;
            }
        }
        Smaller => resize(new, &old[2].name, -1),
        Larger => resize(new, &old[2].name, 1),
        NestedInOld | NestedInNew => {
            old[1].size += 60;
            resize(new, &old[1].name, 60);
        }
        EqualInOld | EqualInNew => {
            let by = i64::from(old[1].size) - i64::from(old[2].size);
            resize(new, &old[2].name.clone(), by);
            old[2].size = old[1].size;
        }
        HoldsFmap => {
            old[1].size += 1000;
            resize(new, &old[1].name, 1000);
        }
        FmapItself => old[0].flags |= PRESERVE,
        Unmarked => old.iter_mut().for_each(|area| area.flags &= !PRESERVE),
        _ => {}
    }
}

fn resize(areas: &mut [Area], name: &[u8], by: i64) {
    for area in areas.iter_mut().filter(|area| area.name == name) {
        area.size = u32::try_from(i64::from(area.size) + by).expect("a size");
    }
}

/// Faults of places. An area that leaves its place leaves a gap.
fn on_maps(old: &mut Map, new: &mut Map, fault: Fault, random: &mut Random) {
    let mut carried: Vec<Vec<u8>> = old
        .areas
        .iter()
        .filter(|area| area.flags & PRESERVE != 0 && area.name != b"FMAP")
        .map(|area| area.name.clone())
        .collect();
    carried.sort_by_key(|name| old.areas.iter().find(|area| area.name == *name).map(|area| area.size));
    let (Some(small), Some(large)) = (carried.first().cloned(), carried.last().cloned()) else { return };
    match fault {
        NestedInOld | EqualInOld => put_into(old, &small, &large, random),
        NestedInNew | EqualInNew => put_into(new, &small, &large, random),
        InFmap => put_into(new, &small, b"FMAP", random),
        InOldFmap => put_into(old, &small, b"FMAP", random),
        HoldsFmap => put_around_fmap(new, &large),
        _ => {}
    }
}

/// Moves an area into another, if it is not larger.
fn put_into(map: &mut Map, inner: &[u8], outer: &[u8], random: &mut Random) {
    let Some(outer) = map.areas.iter().find(|area| area.name == outer).cloned() else { return };
    if let Some(inner) = map.area_mut(inner).filter(|inner| inner.size <= outer.size) {
        inner.offset = outer.offset + random.below((outer.size - inner.size) as usize + 1) as u32;
    }
}

/// Moves FMAP, and the map with it, into the large area.
fn put_around_fmap(map: &mut Map, large: &[u8]) {
    let Some(large) = map.areas.iter().find(|area| area.name == large).cloned() else { return };
    if let Some(fmap) = map.area_mut(b"FMAP").filter(|fmap| fmap.size <= large.size) {
        fmap.offset = large.offset + (large.size - fmap.size) / 2;
        map.position = fmap.offset as usize;
    }
}

fn on_images(old: &mut Vec<u8>, new: &mut Vec<u8>, fault: Fault) {
    match fault {
        OldLength => old.truncate(97),
        NewLength => new.truncate(97),
        OldSignature => erase(old),
        NewSignature => erase(new),
        OldMap => break_map(old),
        NewMap => break_map(new),
        _ => {}
    }
}

fn signature(image: &[u8]) -> Option<usize> {
    image.windows(8).position(|bytes| bytes == b"__FMAP__")
}

fn erase(image: &mut [u8]) {
    while let Some(at) = signature(image) {
        image[at] = 0;
    }
}

fn break_map(image: &mut [u8]) {
    if let Some(at) = signature(image).filter(|at| at + 8 < image.len()) {
        image[at + 8] = 7;
    }
}

/// An area to be carried holds a map that is good in the new image, below the new image's own map, and places the
/// next area elsewhere; the maps that count are those found before.
pub fn map_in_area(run: &mut Run) -> Outcome {
    for length in [600, 601, 777] {
        let area = |name: &[u8], offset: u32, size: u32, flags: u16| Area {
            offset,
            size,
            name: name.to_vec(),
            flags,
        };
        let map = |areas: Vec<Area>| Map {
            major: 1,
            minor: 0,
            base: 0,
            size: length,
            name: b"CHIP".to_vec(),
            position: areas[0].offset as usize,
            areas,
        };
        let a = |offset| area(b"A", offset, 150, PRESERVE);
        let b = |offset| area(b"B", offset, 20, PRESERVE);
        let fmap = |offset| area(b"FMAP", offset, map_len(3) as u32, 0);
        let inner = map(vec![area(b"FMAP", 3, map_len(2) as u32, 0), b(400)]);
        let mut new = image_of(&map(vec![fmap(200), a(3), b(500)]), &mut run.random);
        let mut old = image_of(&map(vec![fmap(0), a(300), b(460)]), &mut run.random);
        let bytes = inner.to_bytes();
        old[300..300 + bytes.len()].copy_from_slice(&bytes);
        new[..3].fill(0);
        carry(run, &old, &new)?;
        let back = image_of(&map(vec![fmap(0), a(300), b(460)]), &mut run.random);
        carry(run, &new, &back)?;
    }
    Ok(())
}

/// Large areas, and images of different lengths.
pub fn large(run: &mut Run) -> Outcome {
    for size in [1 << 16, (1 << 20) - 1, (1 << 20) + 1] {
        let area = |name: &[u8], offset: u32, size: u32, flags: u16| Area {
            offset,
            size,
            name: name.to_vec(),
            flags,
        };
        let map = |length: u32, fmap: u32, data: u32| Map {
            major: 1,
            minor: 1,
            base: 0,
            size: length,
            name: b"CHIP".to_vec(),
            position: fmap as usize,
            areas: vec![area(b"DATA", data, size, PRESERVE), area(b"FMAP", fmap, map_len(2) as u32, 0)],
        };
        let old = image_of(&map(size + 1000, size + 7, 3), &mut run.random);
        let new = image_of(&map(2 * size + 5, 1, size + 5), &mut run.random);
        carry(run, &old, &new)?;
    }
    Ok(())
}
