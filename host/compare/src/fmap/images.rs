//! Images with good maps, with maps that one rule alone makes bad, and with decoys.

use super::call::{area, fault, find, look, named};
use crate::run::{Outcome, Run};
use testkit::flash::{good_map, map_len, Map, HEADER_LEN, SIGNATURE};
use testkit::random::Random;

const GOOD: usize = 1200;
const NEAR_MISS_ROUNDS: usize = 30;
const DECOYS: usize = 900;
const LARGEST: usize = 1 << 24;

/// What fills an image around its maps; some fillers hold the signature or begin it at every byte.
fn filled(length: usize, random: &mut Random) -> Vec<u8> {
    match random.below(6) {
        0 => vec![0xFF; length],
        1 => vec![0; length],
        2 => vec![b'_'; length],
        3 => SIGNATURE.iter().copied().cycle().take(length).collect(),
        4 => b"__FMAP".iter().copied().cycle().take(length).collect(),
        _ => random.bytes(length),
    }
}

/// A good map of up to `most` areas at any position of an image of any of several lengths.
fn any_map(most: usize, random: &mut Random) -> Map {
    let count = 1 + random.below(most);
    let least = map_len(count);
    let spare = random.pick(&[0, 1, 7, 300, 5000]);
    let length = (least + random.below(spare + 1)).max(98);
    let position = random.below(length - least + 1);
    good_map(length, position, count, random)
}

pub fn image_of(map: &Map, random: &mut Random) -> Vec<u8> {
    let mut image = filled(map.size as usize, random);
    map.write(&mut image);
    image
}

fn names(map: &Map) -> Vec<&[u8]> {
    map.areas.iter().map(|area| &area.name[..]).collect()
}

/// Good maps of 1 to 128 areas at any position, over all fillers.
pub fn good(run: &mut Run) -> Outcome {
    for k in 0..GOOD {
        let map = any_map(if k % 40 == 0 { 128 } else { 9 }, &mut run.random);
        let image = image_of(&map, &mut run.random);
        look(run, &image, &names(&map)[..map.areas.len().min(3)])?;
        let name = &map.areas[run.random.below(map.areas.len())].name;
        near_names(run, &image, name)?;
    }
    Ok(())
}

/// A name that the map has, and others like it.
fn near_names(run: &mut Run, image: &[u8], name: &[u8]) -> Outcome {
    named(run, image, name)?;
    named(run, image, &name[..name.len() - 1])?;
    named(run, image, &[name, b"\0"].concat())?;
    named(run, image, &[name, &[0; 32]].concat())?;
    named(run, image, &[name, &b"X".repeat(32)].concat())
}

/// One change of a map, or of where it stands in an image of `length` bytes.
type Change = fn(&mut Vec<u8>, usize, &mut Random);

/// Where a field of the area at `k` stands in the map.
pub fn in_area(k: usize, at: usize) -> usize {
    HEADER_LEN + 42 * k + at
}

pub fn set32(map: &mut [u8], at: usize, value: u64) {
    map[at..at + 4].copy_from_slice(&(value as u32).to_le_bytes());
}

pub fn get32(map: &[u8], at: usize) -> u64 {
    u64::from(u32::from_le_bytes(map[at..at + 4].try_into().expect("4 bytes")))
}

/// Maps have the areas FMAP, A, B and C in this order; see `base`.
const CHANGES: &[(&str, Change)] = &[
    ("none", |_, _, _| {}),
    ("signature", |m, _, r| m[r.below(8)] ^= 1 << r.below(8)),
    ("major 0", |m, _, _| m[8] = 0),
    ("major 2", |m, _, _| m[8] = 2),
    ("minor 0", |m, _, _| m[9] = 0),
    ("minor 2", |m, _, _| m[9] = 2),
    ("minor 255", |m, _, _| m[9] = 255),
    ("base", |m, _, r| m[10..18].copy_from_slice(&r.bytes(8))),
    ("size less 1", |m, length, _| set32(m, 18, length as u64 - 1)),
    ("size and 1", |m, length, _| set32(m, 18, length as u64 + 1)),
    ("size and 2^24", |m, _, _| m[21] ^= 1),
    ("size 0", |m, _, _| set32(m, 18, 0)),
    ("count 0", |m, _, _| m[54] = 0),
    ("count less 1", |m, _, _| m[54] -= 1),
    ("count and 1", |m, _, _| m[54] += 1),
    ("count and 256", |m, _, _| m[55] = 1),
    ("count 129", |m, _, _| m[54] = 129),
    ("image name none", |m, _, _| m[22..54].fill(0)),
    ("image name 31", |m, _, _| m[22..53].fill(b'N')),
    ("image name 32", |m, _, _| m[22..54].fill(b'N')),
    ("image name goes on", |m, _, _| (m[52], m[53]) = (0, b'x')),
    ("image name 20", |m, _, _| m[22] = 0x20),
    ("image name 21", |m, _, _| m[22] = 0x21),
    ("image name 7E", |m, _, _| m[22] = 0x7E),
    ("image name 7F", |m, _, _| m[22] = 0x7F),
    ("image name FF", |m, _, _| m[22] = 0xFF),
    ("name none", |m, _, _| m[in_area(1, 8)..in_area(1, 40)].fill(0)),
    ("name 31", |m, _, _| m[in_area(1, 8)..in_area(1, 39)].fill(b'N')),
    ("name 32", |m, _, _| m[in_area(1, 8)..in_area(1, 40)].fill(b'N')),
    ("name goes on", |m, _, _| m[in_area(2, 39)] = b'x'),
    ("name 20", |m, _, _| m[in_area(3, 9)] = 0x20),
    ("name 21", |m, _, _| m[in_area(3, 9)] = 0x21),
    ("name 7E", |m, _, _| m[in_area(3, 9)] = 0x7E),
    ("name 7F", |m, _, _| m[in_area(3, 9)] = 0x7F),
    ("name 80", |m, _, _| m[in_area(3, 9)] = 0x80),
    ("name twice", |m, _, _| m[in_area(3, 8)] = b'B'),
    ("name twice, but for a byte more", |m, _, _| (m[in_area(3, 8)], m[in_area(3, 9)]) = (b'B', b'B')),
    ("name FMAP twice", |m, _, _| m[in_area(2, 8)..in_area(2, 12)].copy_from_slice(b"FMAP")),
    ("size none", |m, _, _| set32(m, in_area(2, 4), 0)),
    ("size one", |m, _, _| set32(m, in_area(2, 4), 1)),
    ("end at end", |m, length, _| {
        let offset = get32(m, in_area(3, 0));
        set32(m, in_area(3, 4), length as u64 - offset);
    }),
    ("end past end", |m, length, _| {
        let offset = get32(m, in_area(3, 0));
        set32(m, in_area(3, 4), length as u64 + 1 - offset);
    }),
    ("end past 2^32", |m, _, _| {
        let offset = get32(m, in_area(3, 0));
        set32(m, in_area(3, 4), (1 << 32) + 1 - offset);
    }),
    ("offset past end", |m, length, _| set32(m, in_area(3, 0), length as u64)),
    ("offset 2^32 less 1", |m, _, _| set32(m, in_area(3, 0), 0xFFFF_FFFF)),
    ("A and B equal", |m, _, _| m.copy_within(in_area(1, 0)..in_area(1, 8), in_area(2, 0))),
    ("A touches B", |m, _, _| {
        let (a, b) = (get32(m, in_area(1, 0)), get32(m, in_area(2, 0)));
        set32(m, in_area(1, 4), b - a);
    }),
    ("A crosses B", |m, _, _| {
        let (a, b) = (get32(m, in_area(1, 0)), get32(m, in_area(2, 0)));
        set32(m, in_area(1, 4), b + 1 - a);
    }),
    ("A holds B", |m, _, _| {
        let (a, b, size) = (get32(m, in_area(1, 0)), get32(m, in_area(2, 0)), get32(m, in_area(2, 4)));
        set32(m, in_area(1, 4), b + size - a);
    }),
    ("A holds B but for a byte", |m, _, _| {
        let (a, b, size) = (get32(m, in_area(1, 0)), get32(m, in_area(2, 0)), get32(m, in_area(2, 4)));
        set32(m, in_area(1, 4), b + size - 1 - a);
    }),
    ("A holds all", |m, length, _| {
        set32(m, in_area(1, 0), 0);
        set32(m, in_area(1, 4), length as u64);
    }),
    ("FMAP in lower case", |m, _, _| m[in_area(0, 8)..in_area(0, 12)].copy_from_slice(b"fmap")),
    ("FMAP with a byte more", |m, _, _| m[in_area(0, 12)] = b'2'),
    ("FMAP starts after", |m, _, _| {
        let offset = get32(m, in_area(0, 0));
        set32(m, in_area(0, 0), offset + 1);
    }),
    ("FMAP starts before", |m, _, _| {
        let offset = get32(m, in_area(0, 0));
        set32(m, in_area(0, 0), offset - 1);
    }),
    ("FMAP as long as the map", |m, _, _| set32(m, in_area(0, 4), map_len(4) as u64)),
    ("FMAP shorter by a byte", |m, _, _| set32(m, in_area(0, 4), map_len(4) as u64 - 1)),
    ("flags", |m, _, r| m[in_area(1, 40)..in_area(1, 42)].copy_from_slice(&r.bytes(2))),
    ("flags all", |m, _, _| m[in_area(2, 40)..in_area(2, 42)].fill(0xFF)),
];

/// A map of FMAP, A, B and C, in this order in the map and in the image too, with gaps between them.
pub fn base(random: &mut Random) -> Map {
    let position = 1 + random.below(40);
    let fmap = map_len(4) + 2 + random.below(9);
    let mut next = position + fmap + 1;
    let mut map = good_map(next + 400, position, 1, random);
    map.areas[0].size = fmap as u32;
    for name in [b"A1", b"B1", b"C1"] {
        let offset = (next + 1 + random.below(9)) as u32;
        let size = 3 + random.below(20) as u32;
        let mut area = map.areas[0].clone();
        (area.name, area.offset, area.size) = (name[..1].to_vec(), offset, size);
        map.areas.push(area);
        next = (offset + size) as usize;
    }
    map
}

/// Each rule of a map broken alone, or kept at its border; in the image's one map, or below or above a good one.
pub fn near_misses(run: &mut Run) -> Outcome {
    for round in 0..NEAR_MISS_ROUNDS {
        for (_, change) in CHANGES {
            let map = base(&mut run.random);
            let mut image = filled(map.size as usize, &mut run.random);
            if round % 3 == 1 {
                second_map(&map, &mut run.random).write(&mut image);
            }
            let mut bytes = map.to_bytes();
            change(&mut bytes, image.len(), &mut run.random);
            image[map.position..map.position + bytes.len()].copy_from_slice(&bytes);
            find(run, &image)?;
            fault(run, &image, map.position as u64)?;
            area(run, &image, 1, 42)?;
            named(run, &image, b"B")?;
        }
    }
    Ok(())
}

/// A good map of one area above the other.
fn second_map(map: &Map, random: &mut Random) -> Map {
    let length = map.size as usize;
    let free = map.position + map.len();
    let position = free + random.below(length - map_len(1) - free + 1);
    good_map(length, position, 1, random)
}

/// Every byte of a good map changed to several values.
pub fn each_byte(run: &mut Run) -> Outcome {
    let map = base(&mut run.random);
    let image = image_of(&map, &mut run.random);
    for at in map.position..map.position + map.len() {
        for change in [1, 0x80, 0xFF, 0x20] {
            let mut changed = image.clone();
            changed[at] ^= change;
            find(run, &changed)?;
            fault(run, &changed, map.position as u64)?;
            area(run, &changed, 2, 42)?;
        }
    }
    Ok(())
}

/// Signatures, near misses and good maps below and above a good map, some of them overlapping.
pub fn decoys(run: &mut Run) -> Outcome {
    for _ in 0..DECOYS {
        let map = base(&mut run.random);
        let mut image = filled(map.size as usize, &mut run.random);
        let other = second_map(&map, &mut run.random);
        match run.random.below(4) {
            0 => other.write(&mut image),
            1 => put(&mut image, other.position, &SIGNATURE),
            2 => put(&mut image, other.position, &other.to_bytes()[..97]),
            _ => {}
        }
        map.write(&mut image);
        // Overlaps the map's own signature by two bytes, or stands just before it.
        match run.random.below(4) {
            0 => put(&mut image, map.position.saturating_sub(6), &b"__FMAP"[..map.position.min(6)]),
            1 if map.position >= 8 => put(&mut image, map.position - 8, &SIGNATURE),
            2 => put(&mut image, 0, &SIGNATURE[..map.position.min(8)]),
            _ => {}
        }
        look(run, &image, &[b"FMAP", b"A"])?;
    }
    Ok(())
}

fn put(image: &mut [u8], at: usize, bytes: &[u8]) {
    image[at..at + bytes.len()].copy_from_slice(bytes);
}

/// A signature or a map cut off by the image's end, byte by byte.
pub fn ends(run: &mut Run) -> Outcome {
    for count in [1, 2] {
        for missing in 0..map_len(count) {
            let length = 300;
            let position = length + missing - map_len(count);
            let mut map = good_map(length + missing, position, count, &mut run.random);
            map.size = length as u32;
            for area in &mut map.areas {
                area.size = area.size.min(length as u32 - area.offset.min(length as u32 - 1));
            }
            let mut image = vec![0xFF; length];
            map.write(&mut image);
            find(run, &image)?;
        }
    }
    Ok(())
}

/// No signature, but almost one.
pub fn no_signature(run: &mut Run) -> Outcome {
    for at in 0..8 {
        for change in [1, 0x20, 0x80] {
            let map = base(&mut run.random);
            let mut image = vec![0xFF; map.size as usize];
            map.write(&mut image);
            image[map.position + at] ^= change;
            look(run, &image, &[b"FMAP"])?;
        }
    }
    for length in 90..130 {
        let image = run.random.bytes(length);
        look(run, &image, &[b"FMAP"])?;
        find(run, &vec![b'_'; length])?;
    }
    Ok(())
}

/// Every length around the least one and the largest, with the smallest map or none.
pub fn lengths(run: &mut Run) -> Outcome {
    for length in (0..100).chain([LARGEST - 1, LARGEST, LARGEST + 1]) {
        let mut image = vec![0xFF; length];
        find(run, &image)?;
        let position = length.saturating_sub(map_len(1));
        let mut map = good_map(length.max(98), position, 1, &mut run.random);
        map.size = length as u32;
        map.write(&mut image);
        find(run, &image)?;
        fault(run, &image, position as u64)?;
        area(run, &image, 0, 42)?;
        named(run, &image, b"FMAP")?;
        area(run, &image, 0, 41)?;
    }
    Ok(())
}

/// 127, 128 and 129 areas.
pub fn many_areas(run: &mut Run) -> Outcome {
    for count in [127, 128, 129] {
        let length = map_len(count) + 2000;
        let mut map = good_map(length, 5, 1, &mut run.random);
        map.areas[0].size = map_len(count) as u32;
        for k in 1..count {
            let mut area = map.areas[0].clone();
            (area.offset, area.size) = ((map_len(count) + 6 + k * 10) as u32, 9);
            area.name = format!("AREA_{k}").into_bytes();
            map.areas.push(area);
        }
        let image = image_of(&map, &mut run.random);
        look(run, &image, &[b"AREA_126", b"AREA_127", b"AREA_128"])?;
        fault(run, &image, 5)?;
    }
    Ok(())
}

/// Each length of the buffer for an area, of a map that is there and of one that is not.
pub fn area_lengths(run: &mut Run) -> Outcome {
    let map = base(&mut run.random);
    let image = image_of(&map, &mut run.random);
    for length in 0..100 {
        area(run, &image, 0, length)?;
        area(run, &image, 200, length)?;
        area(run, &image[..90], 0, length)?;
        area(run, &[0; 98], 0, length)?;
        area(run, &[&SIGNATURE[..], &[0; 98]].concat(), 0, length)?;
    }
    Ok(())
}
