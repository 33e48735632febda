//! Layout texts for the tests: good layouts drawn at random and spelled in any of their ways, and texts changed from
//! such ones.

mod changed;
mod spelled;

pub use changed::{changed_bytes, changed_numbers, changed_tokens};
pub use spelled::{blanks, joined};

use crate::fixture;
use crate::flash::{map_len, NAME_LEN};
use crate::random::Random;
use spelled::number;
use std::collections::BTreeSet;

const IMAGE_MIN: u64 = 98;
const SIGNS: &[u8] = b"@{}()#";
const LEVELS: usize = 8;

/// The calls on a layout text, as the C interface has them, of the implementation that is tested.
pub struct Calls {
    /// Text and name; size, address and count.
    pub read: fn(&[u8], &mut [u8], &mut u64, &mut u64, &mut u64) -> u32,
    /// Text and records; count.
    pub records: fn(&[u8], &mut [u8], &mut u64) -> u32,
    /// Text and image.
    pub write: fn(&[u8], &mut [u8]) -> u32,
}

impl Calls {
    /// The stated size, or the number of the refusal.
    pub fn size(&self, text: &[u8]) -> Result<u64, u32> {
        let mut size = 0;
        match (self.read)(text, &mut [0; NAME_LEN], &mut size, &mut 0, &mut 0) {
            0 => Ok(size),
            number => Err(number),
        }
    }
}

/// The tests of an implementation's calls on layout texts.
#[macro_export]
macro_rules! layout_tests {
    ($calls:expr) => {
        $crate::tests!(layout, $calls, [fixtures_read_as_their_tool_said]);
        $crate::tests!(
            fmaptool,
            $calls,
            [fmaptool_makes_the_same_maps, fmaptool_differs_as_listed, fmaptool_differs_in_nothing_else]
        );
    };
}

/// Texts that fmaptool compiled, and others derived by hand.
pub fn fixtures_read_as_their_tool_said(calls: &Calls) {
    let files = fixture::files("fmd", "layout");
    assert!(files.len() >= 5);
    for path in files {
        fixture::layout(&path).expect("a fixture").holds(calls, &path.display().to_string());
    }
}

/// A section, with its place from its parent's start.
#[derive(Clone, Debug)]
pub struct Section {
    pub name: Vec<u8>,
    pub flags: Vec<&'static [u8]>,
    pub start: u64,
    pub size: u64,
    /// Whether the text gives them.
    pub offset_given: bool,
    pub size_given: bool,
    pub children: Vec<Section>,
}

#[derive(Clone, Debug)]
pub struct Layout {
    pub name: Vec<u8>,
    pub address: Option<u64>,
    pub size: u64,
    pub sections: Vec<Section>,
}

/// What a drawn layout must have.
#[derive(Clone, Copy)]
pub struct Wanted {
    /// 1 to 128.
    pub sections: usize,
    /// A leaf COREBOOT that bears CBFS, which fmaptool demands; it takes one section more than FMAP.
    pub coreboot: bool,
}

impl Layout {
    /// A layout that holds its map.
    pub fn random(wanted: Wanted, random: &mut Random) -> Layout {
        let names = names(wanted, random);
        let mut sections = tree(&names, random);
        sections.iter_mut().for_each(|section| mark(section, random));
        let room = place(&mut sections, map_len(names.len()) as u64, random);
        let slack = random.number_below(300) * random.number_below(2);
        let size = (room + slack).max(IMAGE_MIN);
        give(&mut sections, size, random);
        let name = if random.below(4) == 0 { names[random.below(names.len())].clone() } else { name(random) };
        let any = random.number_below(1 << 32);
        let address = random.pick(&[None, Some(0), Some(0xFF80_0000), Some(u64::from(u32::MAX)), Some(any)]);
        Layout { name, address, size, sections }
    }

    /// The text's tokens, each number in any of its spellings.
    pub fn tokens(&self, random: &mut Random) -> Vec<Vec<u8>> {
        let mut tokens = vec![self.name.clone()];
        if let Some(address) = self.address {
            tokens.extend([b"@".to_vec(), number(address, random)]);
        }
        tokens.push(number(self.size, random));
        braced(&self.sections, &mut tokens, random);
        tokens
    }

    pub fn text(&self, random: &mut Random) -> Vec<u8> {
        let tokens = self.tokens(random);
        joined(&tokens, random)
    }
}

/// FMAP, COREBOOT where it is wanted, and names that differ from each other, often by little; in any order.
fn names(wanted: Wanted, random: &mut Random) -> Vec<Vec<u8>> {
    let mut names = vec![b"FMAP".to_vec()];
    if wanted.coreboot {
        names.push(b"COREBOOT".to_vec());
    }
    let mut taken: BTreeSet<Vec<u8>> = names.iter().cloned().collect();
    while names.len() < wanted.sections {
        let found = match random.below(3) {
            0 => near(names[random.below(names.len())].clone(), random),
            _ => name(random),
        };
        if is_name(&found) && taken.insert(found.clone()) {
            names.push(found);
        }
    }
    for k in (1..names.len()).rev() {
        names.swap(k, random.below(k + 1));
    }
    names
}

/// A byte more, less or in another case.
fn near(mut name: Vec<u8>, random: &mut Random) -> Vec<u8> {
    let at = random.below(name.len());
    match random.below(3) {
        0 => name.push(b'_'),
        1 => drop(name.pop()),
        _ => name[at] = name[at].to_ascii_lowercase(),
    }
    name
}

pub fn is_name(name: &[u8]) -> bool {
    let legal = |byte: &u8| (0x21..=0x7E).contains(byte) && !SIGNS.contains(byte);
    (1..=31).contains(&name.len()) && name.iter().all(legal) && !name[0].is_ascii_digit()
}

/// 1 to 31 bytes that can stand in a name, the first one no digit.
pub fn name(random: &mut Random) -> Vec<u8> {
    let any = 1 + random.below(31);
    let len = random.pick(&[1, 2, 5, 31, any]);
    loop {
        let byte = |_| {
            let any = 0x21 + random.below(0x5E) as u8;
            random.pick(&[b'A', b'K', b'0', b'x', b'_', 0x21, 0x7E, any])
        };
        let found: Vec<u8> = (0..len).map(byte).collect();
        if is_name(&found) {
            return found;
        }
    }
}

/// Sections of these names, in this order, some of them in others; FMAP and COREBOOT are leaves.
fn tree(names: &[Vec<u8>], random: &mut Random) -> Vec<Section> {
    let mut top: Vec<Section> = Vec::new();
    for name in names {
        let section = Section {
            name: name.clone(),
            flags: Vec::new(),
            start: 0,
            size: 0,
            offset_given: false,
            size_given: true,
            children: Vec::new(),
        };
        // Down the last ones, as far as a die says.
        let mut list = &mut top;
        for _ in 1..LEVELS {
            let deeper = list.last().is_some_and(|last| !is_leaf(&last.name)) && random.below(5) < 2;
            if !deeper {
                break;
            }
            list = &mut list.last_mut().expect("a section").children;
        }
        list.push(section);
    }
    top
}

fn is_leaf(name: &[u8]) -> bool {
    name == b"FMAP" || name == b"COREBOOT"
}

/// Flags in any order; CBFS on leaves alone.
fn mark(section: &mut Section, random: &mut Random) {
    let flags: &[&[&[u8]]] = if section.name == b"COREBOOT" {
        &[&[b"CBFS"], &[b"CBFS", b"PRESERVE"], &[b"PRESERVE", b"CBFS"]]
    } else if section.children.is_empty() {
        &[&[], &[], &[b"CBFS"], &[b"PRESERVE"], &[b"CBFS", b"PRESERVE"], &[b"PRESERVE", b"CBFS"]]
    } else {
        &[&[], &[b"PRESERVE"]]
    };
    section.flags = random.pick(flags).to_vec();
    section.children.iter_mut().for_each(|child| mark(child, random));
}

/// Gives each section its place, with gaps here and there; answers where the last one ends.
fn place(sections: &mut [Section], map_len: u64, random: &mut Random) -> u64 {
    let mut end = 0;
    for section in sections {
        let gap = random.pick(&[0, 0, 1, 37]);
        let inner = place(&mut section.children, map_len, random);
        let least = if section.name == b"FMAP" { map_len } else { inner.max(1) };
        section.start = end + gap;
        section.size = least + random.pick(&[0, 0, 1, 300]);
        end = section.start + section.size;
    }
    end
}

/// What can be left out is left out here and there.
fn give(sections: &mut [Section], parent_size: u64, random: &mut Random) {
    let mut next: Option<(u64, bool)> = None;
    for k in (0..sections.len()).rev() {
        let previous_end = k.checked_sub(1).map_or(0, |j| sections[j].start + sections[j].size);
        let section = &mut sections[k];
        let end = section.start + section.size;
        section.offset_given = section.start != previous_end || random.below(2) == 0;
        let reached = match next {
            Some((start, given)) => given && start == end,
            None => parent_size == end,
        };
        section.size_given = !reached || random.below(2) == 0;
        next = Some((section.start, section.offset_given));
        give(&mut section.children, section.size, random);
    }
}

fn braced(sections: &[Section], tokens: &mut Vec<Vec<u8>>, random: &mut Random) {
    tokens.push(b"{".to_vec());
    for section in sections {
        tokens.push(section.name.clone());
        if !section.flags.is_empty() {
            tokens.push(b"(".to_vec());
            tokens.extend(section.flags.iter().map(|flag| flag.to_vec()));
            tokens.push(b")".to_vec());
        }
        if section.offset_given {
            tokens.extend([b"@".to_vec(), number(section.start, random)]);
        }
        if section.size_given {
            tokens.push(number(section.size, random));
        }
        if !section.children.is_empty() {
            braced(&section.children, tokens, random);
        }
    }
    tokens.push(b"}".to_vec());
}

/// 128 sections on 8 levels, with flags, offsets and sizes of many digits and names of 31 bytes; less than 32,768 bytes.
pub fn worst_text() -> Vec<u8> {
    let name = |k: usize| format!("S_{k:A>29}");
    let zeros = "0".repeat(100);
    let parents: String = (1..8).map(|k| format!("{} ( PRESERVE ) {{ ", name(k))).collect();
    let leaf =
        |k: usize| format!("{} ( CBFS PRESERVE ) @ 0x{zeros}{:x} 0x{zeros}10\n", name(k), 16 * (k - 8));
    let leaves: String = (8..128).map(leaf).collect();
    let ends = "}".repeat(7);
    format!("{} @ 0x{zeros}ffffffff 60000 {{ FMAP 8K {parents}{leaves}{ends} }}", name(0)).into_bytes()
}

#[cfg(test)]
mod tests {
    use super::*;

    fn sections(list: &[Section]) -> usize {
        list.iter().map(|section| 1 + sections(&section.children)).sum()
    }

    #[test]
    fn layouts_have_what_is_wanted() {
        let mut random = Random::new(3);
        for count in [1, 2, 9, 128] {
            let layout = Layout::random(Wanted { sections: count, coreboot: count > 1 }, &mut random);
            assert_eq!(sections(&layout.sections), count);
            let text = layout.text(&mut random);
            let named = |name: &[u8]| text.windows(name.len()).any(|part| part == name);
            assert!(named(b"FMAP") && named(b"COREBOOT") == (count > 1));
        }
    }
}
