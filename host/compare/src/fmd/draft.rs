//! Texts with planted ways of refusal, and the number that the rules' order gives them.

use super::ways::{Plant, Way};
use testkit::flash::map_len;
use testkit::random::Random;

const TEXT_MAX: usize = 32_768;

/// Good sections between the planted ones.
const GOOD: [&[u8]; 4] = [
    b"%1 50 { %2(PRESERVE)@5 9 %3@20 }",
    b"%1(CBFS) 70",
    b"%1 100 { %2 { %3 0x10 # a comment\n } %4@50 9 }",
    b"%1 1K { %2 { %3 } }",
];

pub struct Draft {
    pub text: Vec<u8>,
    /// The number that the rules give.
    pub number: u32,
}

/// Where a way stands in the order of R33; what is smaller comes first.
#[derive(Clone, Copy, PartialEq, Eq, PartialOrd, Ord)]
enum Rank {
    TooLong,
    /// By the place in the text.
    InText(usize),
    Row(u32),
}

/// Places in a text: the image's head first, then the planted sections, in their order.
const FIRST_PIECE: usize = 4;
const BEHIND: usize = 6;
/// The field that stands there.
const CLOSING: usize = 4;

struct Sketch {
    /// The image's name, address, size and opening brace, and its closing brace.
    fields: [&'static [u8]; 5],
    pieces: Vec<Vec<u8>>,
    /// Section FMAP; empty: one byte too small for the map.
    fmap: &'static [u8],
    /// The text ends with the last piece.
    ended: bool,
    long: bool,
    ranks: Vec<(Rank, u32)>,
}

impl Draft {
    /// A text with these ways; of those that stand among the sections, the first in front.
    pub fn of(ways: &[&Way], random: &mut Random) -> Draft {
        if let [Way { plant: Plant::Whole(text), number, .. }] = ways {
            return Draft { text: text.to_vec(), number: *number };
        }
        let address = random.pick::<&[u8]>(&[b"", b"@0", b" @ 0xff800000 "]);
        let mut sketch = Sketch {
            fields: [b"I", address, b" 60000", b" { ", b"}"],
            pieces: vec![random.pick(&GOOD).to_vec()],
            fmap: b"FMAP 20000",
            ended: false,
            long: false,
            ranks: Vec::new(),
        };
        for (slot, way) in ways.iter().enumerate() {
            sketch.plant(way, slot);
            if !sketch.ended {
                sketch.pieces.push(random.pick(&GOOD).to_vec());
            }
        }
        let number = sketch.ranks.iter().min().map_or(0, |(_, number)| *number);
        Draft { text: sketch.text(random), number }
    }
}

impl Sketch {
    /// What would stand behind the text's end is left out.
    fn plant(&mut self, way: &Way, slot: usize) {
        let in_slot = Rank::InText(FIRST_PIECE + slot);
        let rank = match way.plant {
            Plant::Field(CLOSING, _) if self.ended => return,
            Plant::Field(field, bytes) => {
                self.fields[field] = bytes;
                Rank::InText(if field == CLOSING { BEHIND } else { field })
            }
            Plant::Fmap(bytes) => {
                self.fmap = bytes;
                Rank::Row(way.number)
            }
            Plant::Long => {
                self.long = true;
                Rank::TooLong
            }
            _ if self.ended => return,
            Plant::Sections(bytes) => self.push(bytes.to_vec(), in_slot),
            Plant::List(bytes) => self.push(bytes.to_vec(), Rank::Row(way.number)),
            Plant::Many => self.push(many(slot), in_slot),
            Plant::Deep => self.push(deep(slot), in_slot),
            Plant::Cut(bytes) => {
                self.ended = true;
                self.push(bytes.to_vec(), in_slot)
            }
            Plant::Whole(_) => return,
        };
        self.ranks.push((rank, way.number));
    }

    fn push(&mut self, piece: Vec<u8>, rank: Rank) -> Rank {
        self.pieces.push(piece);
        rank
    }

    fn text(mut self, random: &mut Random) -> Vec<u8> {
        let at = if self.ended { 0 } else { random.below(self.pieces.len() + 1) };
        let fmap = match self.fmap {
            b"" => {
                let sections: usize = self.pieces.iter().map(|piece| sections_in(piece)).sum();
                format!("FMAP {}", map_len(1 + sections) - 1).into_bytes()
            }
            fmap => fmap.to_vec(),
        };
        self.pieces.insert(at, fmap);
        let named: Vec<_> = self.pieces.iter().enumerate().map(|(k, piece)| expanded(piece, k)).collect();
        let mut text = [self.fields[..CLOSING].concat(), named.join(&b' ')].concat();
        if !self.ended {
            text.extend([b" ", self.fields[CLOSING]].concat());
        }
        if self.long {
            text.resize(TEXT_MAX + 1 + random.below(3), b' ');
        }
        text
    }
}

fn many(slot: usize) -> Vec<u8> {
    (0..129).flat_map(|k| format!("M{slot}_{k} 1 ").into_bytes()).collect()
}

fn deep(slot: usize) -> Vec<u8> {
    let open: String = (1..9).map(|level| format!("D{slot}_{level} 9 {{ ")).collect();
    format!("{open} D{slot}_9 {}", "}".repeat(8)).into_bytes()
}

/// How many names a piece has.
fn sections_in(piece: &[u8]) -> usize {
    piece.iter().filter(|byte| **byte == b'%').count()
}

/// `%` and a digit is a name of that piece.
fn expanded(piece: &[u8], k: usize) -> Vec<u8> {
    let name = format!("S{k}_").into_bytes();
    piece.iter().flat_map(|byte| if *byte == b'%' { name.clone() } else { vec![*byte] }).collect()
}
