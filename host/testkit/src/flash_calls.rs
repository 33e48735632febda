//! What an implementation of the flash map calls is held to: the fixtures, and other tools on the same images.

use crate::disk::Scratch;
use crate::flash::{good_map, map_len, Area, Map, AREA_LEN, PRESERVE, SIGNATURE};
use crate::random::Random;
use crate::{fixture, listing, peer};
use std::fs;
use std::path::Path;

/// The calls of an implementation; an error is the refusal's number.
pub struct Calls {
    pub find: fn(&[u8]) -> Result<u64, u32>,
    pub area: fn(&[u8], u64) -> Result<[u8; AREA_LEN], u32>,
    pub named: fn(&[u8], &[u8]) -> Result<u64, u32>,
    pub carry: fn(&[u8], &mut [u8]) -> Result<(), u32>,
}

/// The tests of an implementation's flash map calls.
#[macro_export]
macro_rules! flash_tests {
    ($calls:expr) => {
        $crate::tests!(
            flash_calls,
            $calls,
            [
                fixtures_read_as_their_tool_said,
                dump_fmap_lists_the_same_areas,
                cbfstool_lists_the_same_areas,
                flashrom_lists_the_same_areas,
                a_carry_is_what_dump_fmap_and_futility_make,
            ]
        );
    };
}

/// Answered where the map has no such area.
const NOTHING: u32 = 255;
/// How many images `dump_fmap` is given.
const IMAGES: usize = 120;

impl Calls {
    /// The areas of the map, and the names of those with PRESERVE.
    fn areas(&self, image: &[u8]) -> (Vec<listing::Area>, Vec<String>) {
        let (mut areas, mut preserved) = (Vec::new(), Vec::new());
        for k in 0.. {
            match (self.area)(image, k) {
                Ok(bytes) => {
                    let (area, flags) = decoded(&bytes);
                    assert_eq!((self.named)(image, area.name.as_bytes()), Ok(k));
                    preserved.extend((flags & PRESERVE != 0).then(|| area.name.clone()));
                    areas.push(area);
                }
                Err(number) => {
                    assert_eq!(number, NOTHING);
                    break;
                }
            }
        }
        (areas, preserved)
    }
}

fn decoded(bytes: &[u8; AREA_LEN]) -> (listing::Area, u16) {
    let number = |at: usize| u64::from(u32::from_le_bytes(bytes[at..at + 4].try_into().expect("4 bytes")));
    let name = bytes[8..40].iter().copied().take_while(|byte| *byte != 0).collect();
    let name = String::from_utf8(name).expect("a name in ASCII");
    let flags = u16::from_le_bytes([bytes[40], bytes[41]]);
    (listing::Area { name, offset: number(0), size: number(4) }, flags)
}

/// Flash images that other tools made are read as the tool told; others are derived by hand.
pub fn fixtures_read_as_their_tool_said(calls: &Calls) {
    let files = fixture::files("fmap", "flash");
    assert!(files.len() >= 5);
    for path in files {
        let fixture = fixture::flash(&path).expect("a fixture");
        let name = path.display();
        assert_eq!((calls.find)(&fixture.image), fixture.reads_as, "{name}");
        if fixture.reads_as.is_ok() {
            assert!(!fixture.areas.is_empty(), "{name} lists no area");
            assert_eq!(calls.areas(&fixture.image), (fixture.areas, fixture.preserved), "{name}");
        }
    }
}

/// `dump_fmap` (Debian: vboot-utils) lists the same areas; it looks at multiples of 4 alone, and at the first signature.
pub fn dump_fmap_lists_the_same_areas(calls: &Calls) {
    if !peer::present("dump_fmap", "vboot-utils") {
        return;
    }
    let mut random = Random::new(7);
    for _ in 0..IMAGES {
        let image = aligned_image(&mut random);
        assert_eq!(listing::dump_fmap(&file(&image).path), calls.areas(&image).0);
    }
    let image = aligned_image(&mut random);
    let mut changed = image.clone();
    let at = (calls.find)(&image).expect("a map") as usize;
    changed[at + 56 + 8] ^= 1;
    assert_ne!(listing::dump_fmap(&file(&changed).path), calls.areas(&image).0);
}

/// `cbfstool layout` (Debian: coreboot-utils) lists the same areas and tells which are preserved.
pub fn cbfstool_lists_the_same_areas(calls: &Calls) {
    if !peer::present("cbfstool", "coreboot-utils") {
        return;
    }
    let mut random = Random::new(11);
    let mut told = 0;
    for _ in 0..IMAGES {
        let image = aligned_image(&mut random);
        let theirs = listing::cbfstool(&file(&image).path);
        told += theirs.iter().filter(|(_, preserved)| preserved.is_some()).count();
        assert!(same_areas(calls.areas(&image), theirs.clone()), "{:?}\n{theirs:?}", calls.areas(&image));
    }
    assert!(told > IMAGES, "{told}");
    let image =
        written(&map(4096, 0, &[("CAL", 1000, 300), ("SERIAL", 2000, 1), ("LOG", 2001, 99)]), &mut random);
    // Offset, size, name and flags of the first area.
    for (place, bit) in [(0, 1), (4, 1), (8, 1), (40, PRESERVE as u8)] {
        let mut changed = image.clone();
        changed[56 + place] ^= bit;
        assert!(!same_areas(calls.areas(&image), listing::cbfstool(&file(&changed).path)), "byte {place}");
    }
    // In an image whose length is a power of two it looks at multiples of 16 alone.
    let odd = written(&map(4096, 1001, &[("CAL", 0, 300)]), &mut random);
    assert_eq!((calls.find)(&odd), Ok(1001));
    assert!(!peer::run("cbfstool", [&file(&odd).path, Path::new("layout")]).status.success());
}

/// In any order.
fn same_areas(ours: (Vec<listing::Area>, Vec<String>), theirs: Vec<(listing::Area, Option<bool>)>) -> bool {
    let (areas, preserved) = ours;
    let agrees = |(area, mark): &(listing::Area, Option<bool>)| {
        areas.contains(area) && mark.is_none_or(|mark| mark == preserved.contains(&area.name))
    };
    areas.len() == theirs.len() && theirs.iter().all(agrees)
}

/// `flashrom --fmap` (Debian: flashrom) lists the same areas of a chip, and reads an area's bytes.
pub fn flashrom_lists_the_same_areas(calls: &Calls) {
    if !peer::present("flashrom", "flashrom") {
        return;
    }
    let part = Scratch::new();
    let listed = |image: &[u8]| listing::flashrom(&file(image).path, &part.path);
    let mut random = Random::new(13);
    for _ in 0..CHIPS {
        let image = chip_image(&mut random);
        let areas = calls.areas(&image).0;
        assert_eq!(listed(&image), areas);
        let fmap = areas.iter().find(|area| area.name == "FMAP").expect("area FMAP");
        let bytes = &image[fmap.offset as usize..][..fmap.size as usize];
        assert!(fs::read(&part.path).expect("the area's bytes") == bytes);
    }
    let image = chip_image(&mut random);
    let areas = calls.areas(&image).0;
    let other = areas.iter().position(|area| area.name != "FMAP").expect("another area");
    let mut changed = image.clone();
    let at = (calls.find)(&image).expect("a map") as usize + 56 + AREA_LEN * other;
    changed[at + 8] ^= 2;
    assert_ne!(listed(&changed), areas);
    // It looks at multiples of large powers of two first.
    let mut two = written(&map(CHIP_LEN as u32, 1001, &[("LOW", 0, 1)]), &mut random);
    map(CHIP_LEN as u32, 65_536, &[("HIGH", 0, 1)]).write(&mut two);
    assert_eq!((calls.areas(&two).0[0].name.as_str(), listed(&two)[0].name.as_str()), ("LOW", "HIGH"));
}

/// The bytes of the chip that flashrom plays.
const CHIP_LEN: usize = 128 << 10;
const CHIPS: usize = 20;

fn chip_image(random: &mut Random) -> Vec<u8> {
    let count = 2 + random.below(30);
    let position = random.below(CHIP_LEN - map_len(count) + 1);
    written(&good_map(CHIP_LEN, position, count, random), random)
}

/// A good map at a multiple of 4, in an image with no signature below it.
fn aligned_image(random: &mut Random) -> Vec<u8> {
    loop {
        let count = 1 + random.below(12);
        let length = map_len(count) + random.below(6000);
        let position = random.below((length - map_len(count)) / 4 + 1) * 4;
        let image = written(&good_map(length.max(98), position, count, random), random);
        if image.windows(8).position(|bytes| bytes == SIGNATURE) == Some(position) {
            return image;
        }
    }
}

/// `dump_fmap -x` takes each preserved area out of the old image, `futility load_fmap` puts it into the new one.
pub fn a_carry_is_what_dump_fmap_and_futility_make(calls: &Calls) {
    if !peer::present("dump_fmap", "vboot-utils") || !peer::present("futility", "vboot-kernel-utils") {
        return;
    }
    let mut random = Random::new(9);
    let old =
        written(&map(4096, 0, &[("CAL", 1000, 300), ("SERIAL", 2000, 1), ("LOG", 2001, 99)]), &mut random);
    let new =
        written(&map(8192, 512, &[("LOG", 0, 99), ("SERIAL", 7000, 1), ("CAL", 7001, 300)]), &mut random);
    let (old_file, new_file) = (file(&old), file(&new));
    for name in ["CAL", "SERIAL", "LOG"] {
        let part = Scratch::new();
        let to_part = format!("{name}:{}", part.path.display());
        peer::printed("dump_fmap", [Path::new("-x"), &old_file.path, Path::new(&to_part)]);
        peer::printed("futility", [Path::new("load_fmap"), &new_file.path, Path::new(&to_part)]);
    }
    let mut carried = new.clone();
    assert_eq!((calls.carry)(&old, &mut carried), Ok(()));
    assert_eq!(carried, fs::read(&new_file.path).expect("the new image"));
    assert_ne!(carried, new);
}

fn file(bytes: &[u8]) -> Scratch {
    let scratch = Scratch::new();
    fs::write(&scratch.path, bytes).expect("a file to write");
    scratch
}

fn map(length: u32, fmap: u32, areas: &[(&str, u32, u32)]) -> Map {
    let area = |(name, offset, size): (&str, u32, u32)| {
        let name = name.as_bytes().to_vec();
        Area { offset, size, name, flags: PRESERVE }
    };
    let mut all: Vec<Area> = areas.iter().copied().map(area).collect();
    all.insert(1, Area { flags: 0, ..area(("FMAP", fmap, map_len(areas.len() + 1) as u32)) });
    let name = b"CHIP".to_vec();
    Map { major: 1, minor: 1, base: 0, size: length, name, areas: all, position: fmap as usize }
}

fn written(map: &Map, random: &mut Random) -> Vec<u8> {
    let mut image = random.bytes(map.size as usize);
    map.write(&mut image);
    image
}
