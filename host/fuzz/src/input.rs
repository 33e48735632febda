//! The bytes of a fuzzer's input as arguments. What lies past the end reads as zero.

pub struct Input<'a> {
    rest: &'a [u8],
}

/// Tags of numbers; every other byte is the number itself.
pub const TWO_BYTES: u8 = 0xE0;
pub const FOUR_BYTES: u8 = 0xE1;
pub const EIGHT_BYTES: u8 = 0xE2;
const BELOW_BASE: u8 = 0xE3;
const ABOVE_BASE: u8 = 0xE4;
const BELOW_ALL: u8 = 0xE5;
const ABOVE_32_BITS: u8 = 0xE6;

/// The alignments that are taken, chosen by a byte's remainder; from this byte on a number follows.
const ALIGNMENTS: [u64; 3] = [1, 8, 2048];
const ANY_ALIGNMENT: u8 = 0xC0;

/// The two rules about attributes, chosen likewise.
const ANY_RULE: u8 = 0xC0;

/// Attributes: below this byte one bit alone, below the next the bit of a second byte too, then these, then eight bytes.
const TWO_BITS: u8 = 64;
const SOME_BITS: u8 = 128;
const BITS: [u64; 4] = [0, u64::MAX, 0xFFFF_0000_0000_0001, 0xFFFF_0000_0000_0007];
const ANY_BITS: u8 = 0xC0;

impl<'a> Input<'a> {
    pub fn new(rest: &'a [u8]) -> Input<'a> {
        Input { rest }
    }

    pub fn is_empty(&self) -> bool {
        self.rest.is_empty()
    }

    pub fn byte(&mut self) -> u8 {
        match self.rest.split_first() {
            Some((byte, rest)) => {
                self.rest = rest;
                *byte
            }
            None => 0,
        }
    }

    /// At most `len` bytes, fewer at the end.
    pub fn bytes(&mut self, len: usize) -> &'a [u8] {
        let (bytes, rest) = self.rest.split_at(len.min(self.rest.len()));
        self.rest = rest;
        bytes
    }

    pub fn rest(&mut self) -> &'a [u8] {
        self.bytes(usize::MAX)
    }

    /// A number, small or near an edge; `base` is one that edges are near to.
    pub fn number(&mut self, base: u64) -> u64 {
        match self.byte() {
            TWO_BYTES => self.stored(2),
            FOUR_BYTES => self.stored(4),
            EIGHT_BYTES => self.stored(8),
            BELOW_BASE => base.wrapping_sub(u64::from(self.byte())),
            ABOVE_BASE => base.wrapping_add(u64::from(self.byte())),
            BELOW_ALL => u64::MAX - u64::from(self.byte()),
            ABOVE_32_BITS => (1 << 32) + u64::from(self.byte()),
            number => u64::from(number),
        }
    }

    fn stored(&mut self, len: usize) -> u64 {
        (0..len).fold(0, |number, place| number | u64::from(self.byte()) << (8 * place))
    }

    /// An alignment: mostly one that is taken, else a number.
    pub fn alignment(&mut self) -> u64 {
        match self.byte() {
            byte @ ..ANY_ALIGNMENT => ALIGNMENTS[usize::from(byte) % ALIGNMENTS.len()],
            _ => self.number(2048),
        }
    }

    /// The number of a rule about attributes: mostly 0 or 1, else any.
    pub fn rule(&mut self) -> u64 {
        match self.byte() {
            byte @ ..ANY_RULE => u64::from(byte % 2),
            _ => self.number(0),
        }
    }

    pub fn attributes(&mut self) -> u64 {
        match self.byte() {
            bit @ ..TWO_BITS => 1 << bit,
            bit @ ..SOME_BITS => 1 << (bit - TWO_BITS) | 1 << (self.byte() % TWO_BITS),
            byte @ ..ANY_BITS => BITS[usize::from(byte) % BITS.len()],
            _ => self.stored(8),
        }
    }

    /// A length: mostly the right one, else one near it, or 0.
    pub fn length(&mut self, right: usize) -> usize {
        match self.byte() {
            0xFF => 0,
            byte @ 0xF0.. => (right + usize::from(byte & 0xF)).saturating_sub(7),
            _ => right,
        }
    }

    /// A buffer for an answer, with a pattern that shows what was written.
    pub fn buffer(&mut self, right: usize) -> Vec<u8> {
        (0..self.length(right)).map(|place| 0xA5 ^ place as u8).collect()
    }

    /// The same byte all over, mostly 16 times: a GUID; 0 to 15 are one number more in its last byte.
    pub fn guid(&mut self) -> Vec<u8> {
        let (len, tag) = (self.length(16), self.byte());
        let mut guid = vec![if tag < 16 { 0 } else { tag }; len];
        if let Some(last) = guid.last_mut() {
            *last = tag;
        }
        guid
    }

    /// The units of a name as native bytes, mostly 36: a run of nonzero units, zeros, and perhaps one more unit.
    pub fn name(&mut self) -> Vec<u8> {
        let (len, filled) = (self.length(36), usize::from(self.byte()));
        let mut units: Vec<u16> =
            (0..len).map(|place| if place < filled { 0x61 + place as u16 } else { 0 }).collect();
        let (place, low, high) = (usize::from(self.byte()), self.byte(), self.byte());
        if let Some(unit) = units.get_mut(place) {
            if high != 0 || low != 0 {
                *unit = u16::from_le_bytes([low, high]);
            }
        }
        units.iter().flat_map(|unit| unit.to_ne_bytes()).collect()
    }
}

/// The bytes that [`Input::alignment`] reads as this number.
pub fn alignment(value: u64) -> Vec<u8> {
    match ALIGNMENTS.iter().position(|taken| *taken == value) {
        Some(place) => vec![place as u8],
        None => [vec![ANY_ALIGNMENT], number(value)].concat(),
    }
}

/// The bytes that [`Input::rule`] reads as this number.
pub fn rule(value: u64) -> Vec<u8> {
    match value {
        0 | 1 => vec![value as u8],
        _ => [vec![ANY_RULE], number(value)].concat(),
    }
}

/// The bytes that [`Input::attributes`] reads as this number.
pub fn attributes(value: u64) -> Vec<u8> {
    [&[ANY_BITS], &value.to_le_bytes()[..]].concat()
}

/// The bytes that [`Input::number`] reads as this number.
pub fn number(value: u64) -> Vec<u8> {
    match value {
        0..=0xDF => vec![value as u8],
        0..=0xFFFF => [&[TWO_BYTES], &value.to_le_bytes()[..2]].concat(),
        0..=0xFFFF_FFFF => [&[FOUR_BYTES], &value.to_le_bytes()[..4]].concat(),
        _ => [&[EIGHT_BYTES], &value.to_le_bytes()[..]].concat(),
    }
}
