//! Flash maps for the tests' images. A map is written as it is given, good or not.

use crate::random::Random;

pub const SIGNATURE: [u8; 8] = *b"__FMAP__";
pub const HEADER_LEN: usize = 56;
pub const AREA_LEN: usize = 42;
pub const NAME_LEN: usize = 32;
pub const PRESERVE: u16 = 8;

#[derive(Clone, Debug, PartialEq, Eq)]
pub struct Area {
    pub offset: u32,
    pub size: u32,
    pub name: Vec<u8>,
    pub flags: u16,
}

impl Area {
    pub fn end(&self) -> u64 {
        u64::from(self.offset) + u64::from(self.size)
    }

    pub fn to_bytes(&self) -> Vec<u8> {
        let numbers = [self.offset.to_le_bytes(), self.size.to_le_bytes()].concat();
        [&numbers[..], &padded(&self.name), &self.flags.to_le_bytes()].concat()
    }

    /// Whether the two have a byte in common, neither holding the other.
    fn crosses(&self, other: &Area) -> bool {
        let (low, high) = if self.offset <= other.offset { (self, other) } else { (other, self) };
        low.offset < high.offset && u64::from(high.offset) < low.end() && low.end() < high.end()
    }
}

#[derive(Clone, Debug)]
pub struct Map {
    pub major: u8,
    pub minor: u8,
    pub base: u64,
    pub size: u32,
    pub name: Vec<u8>,
    pub areas: Vec<Area>,
    /// Where it stands in the image.
    pub position: usize,
}

impl Map {
    pub fn len(&self) -> usize {
        map_len(self.areas.len())
    }

    pub fn is_empty(&self) -> bool {
        self.areas.is_empty()
    }

    pub fn to_bytes(&self) -> Vec<u8> {
        let mut bytes = SIGNATURE.to_vec();
        bytes.extend([self.major, self.minor]);
        bytes.extend(self.base.to_le_bytes());
        bytes.extend(self.size.to_le_bytes());
        bytes.extend(padded(&self.name));
        bytes.extend((self.areas.len() as u16).to_le_bytes());
        bytes.extend(self.areas.iter().flat_map(Area::to_bytes));
        bytes
    }

    /// Writes the map at its position, as far as the image reaches.
    pub fn write(&self, image: &mut [u8]) {
        let bytes = self.to_bytes();
        for (to, from) in image.iter_mut().skip(self.position).zip(bytes) {
            *to = from;
        }
    }

    pub fn area_mut(&mut self, name: &[u8]) -> Option<&mut Area> {
        self.areas.iter_mut().find(|area| area.name == name)
    }

    /// Adds areas at random that cross no other, some nested, some equal, some up to the image's end.
    pub fn add_areas(&mut self, count: usize, random: &mut Random) {
        for _ in 0..20 * count {
            if self.areas.len() >= count {
                return;
            }
            let area = self.random_area(random);
            if self.areas.iter().all(|other| !other.crosses(&area)) {
                self.areas.insert(random.below(self.areas.len() + 1), area);
            }
        }
    }

    fn random_area(&self, random: &mut Random) -> Area {
        let length = u64::from(self.size);
        let like = random.below(self.areas.len());
        let (offset, size) = match random.below(6) {
            0 => (u64::from(self.areas[like].offset), u64::from(self.areas[like].size)),
            1 => (0, length),
            2 => (self.areas[like].end().min(length - 1), 1),
            3 => {
                let offset = random.number_below(length);
                (offset, length - offset)
            }
            _ => {
                let offset = random.number_below(length);
                (offset, 1 + random.number_below((length - offset).min(1 + length / 4)))
            }
        };
        let name = new_name(&self.areas, random);
        Area { offset: offset as u32, size: size as u32, name, flags: random.number() as u16 }
    }
}

pub fn map_len(areas: usize) -> usize {
    HEADER_LEN + AREA_LEN * areas
}

/// A good map of `count` areas for an image of `length` bytes; its flags are random.
pub fn good_map(length: usize, position: usize, count: usize, random: &mut Random) -> Map {
    let least = map_len(count);
    let size = match random.below(3) {
        0 => least,
        1 => length - position,
        _ => least + random.below(length - position - least + 1),
    };
    let name = name(random);
    let fmap = Area { offset: position as u32, size: size as u32, name: b"FMAP".to_vec(), flags: 0 };
    let (minor, base) = (random.below(2) as u8, random.number());
    let mut map = Map { major: 1, minor, base, size: length as u32, name, areas: vec![fmap], position };
    map.add_areas(count, random);
    map
}

/// 1 to 31 bytes of 21 to 7E hex.
pub fn name(random: &mut Random) -> Vec<u8> {
    let any = 1 + random.below(31);
    let length = random.pick(&[1, 2, 8, 31, any]);
    (0..length)
        .map(|_| {
            let any = 0x21 + random.below(0x7E - 0x20) as u8;
            random.pick(&[0x21, 0x7E, b'A', any])
        })
        .collect()
}

/// A name that none of the areas has; often one of them with a byte more, less or changed.
pub fn new_name(areas: &[Area], random: &mut Random) -> Vec<u8> {
    loop {
        let mut found = name(random);
        if random.below(3) == 0 {
            found = areas[random.below(areas.len())].name.clone();
            match random.below(3) {
                0 => found.push(b'X'),
                1 => found.truncate(found.len() - 1),
                _ => *found.last_mut().expect("a name") = b'Y',
            }
        }
        let legal = (1..NAME_LEN).contains(&found.len());
        if legal && areas.iter().all(|area| area.name != found) {
            return found;
        }
    }
}

/// The name's bytes and then zeros.
fn padded(name: &[u8]) -> [u8; NAME_LEN] {
    let mut bytes = [0; NAME_LEN];
    bytes[..name.len()].copy_from_slice(name);
    bytes
}

#[cfg(test)]
mod tests {
    use super::*;

    /// By hand, from the layout: 8 + 1 + 1 + 8 + 4 + 32 + 2 bytes, then 4 + 4 + 32 + 2.
    #[test]
    fn a_map_of_one_area() {
        let name = b"FLASH".to_vec();
        let areas = vec![Area { offset: 0x10, size: 0x200, name: b"FMAP".to_vec(), flags: 0x0108 }];
        let map = Map { major: 1, minor: 1, base: 0xFF80_0000, size: 0x1234, name, areas, position: 16 };
        let mut expected = b"__FMAP__\x01\x01\0\0\x80\xFF\0\0\0\0\x34\x12\0\0FLASH".to_vec();
        expected.extend([0; 27]);
        expected.extend(b"\x01\0\x10\0\0\0\0\x02\0\0FMAP");
        expected.extend([0; 28]);
        expected.extend([0x08, 0x01]);
        assert_eq!(map.to_bytes(), expected);
        assert_eq!(map.len(), 98);
    }

    #[test]
    fn crossing_is_neither_nested_nor_apart() {
        let area = |offset, size| Area { offset, size, name: b"A".to_vec(), flags: 0 };
        let ten = area(10, 10);
        assert!(ten.crosses(&area(19, 2)) && ten.crosses(&area(5, 6)));
        for apart_or_nested in
            [area(20, 1), area(0, 10), area(10, 10), area(10, 11), area(12, 8), area(5, 15)]
        {
            assert!(!ten.crosses(&apart_or_nested), "{apart_or_nested:?}");
        }
    }
}
