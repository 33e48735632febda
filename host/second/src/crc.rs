use crate::rules::{CrcRules, Rules};

/// D3, as a division of polynomials.
pub fn crc32(rules: &Rules, data: &[u8]) -> u32 {
    let crc = rules.crc;
    let bits = crc.bits_per_byte;
    let remainders: Vec<u32> = (0..256).map(|top| remainder(crc, top)).collect();
    let mut register = crc.start;
    for &byte in data {
        let top = register >> (32 - bits) ^ entering(crc, byte);
        register = register << bits ^ remainders[top as usize];
    }
    if crc.answer_reversed {
        register = register.reverse_bits();
    }
    register ^ crc.final_xor
}

/// The bits of a byte in the order in which they enter, the first one highest.
fn entering(crc: CrcRules, byte: u8) -> u32 {
    let unused = 8 - crc.bits_per_byte;
    match crc.low_bit_first {
        true => u32::from(byte.reverse_bits() >> unused),
        false => u32::from(byte << unused >> unused),
    }
}

/// What the bits of `top` leave in an empty register, entering one at a time.
fn remainder(crc: CrcRules, top: u32) -> u32 {
    let places = (0..crc.bits_per_byte).rev();
    places.fold(0, |register, place| enter(crc, register, top >> place & 1))
}

/// Multiplies by x, adds `bit` · x^32 and reduces.
fn enter(crc: CrcRules, register: u32, bit: u32) -> u32 {
    let reduces = register >> 31 ^ bit;
    register << 1 ^ crc.polynomial.wrapping_mul(reduces)
}

#[cfg(test)]
mod tests {
    use super::*;
    use crate::RULES;

    #[test]
    fn published_vectors() {
        for vector in vectors::published() {
            let found = crc32(&RULES, &vector.input);
            assert_eq!(found, vector.crc, "{}", vector.label);
        }
    }

    /// A byte at a time gives what a bit at a time gives, also with operands that are not the rules'.
    #[test]
    fn bytes_enter_bit_by_bit() {
        let data: Vec<u8> = (0..=255).collect();
        for bits_per_byte in 1..=8 {
            for low_bit_first in [true, false] {
                let crc = CrcRules { bits_per_byte, low_bit_first, ..RULES.crc };
                let places = |byte: u8| {
                    let ascending: Vec<u32> = (0..bits_per_byte).map(|k| u32::from(byte) >> k & 1).collect();
                    if low_bit_first {
                        ascending
                    } else {
                        ascending.into_iter().rev().collect()
                    }
                };
                let bits = data.iter().flat_map(|byte| places(*byte));
                let register = bits.fold(crc.start, |register, bit| enter(crc, register, bit));
                let found = crc32(&Rules { crc, ..RULES }, &data);
                assert_eq!(found, !register.reverse_bits());
            }
        }
    }

    /// The start value alone: all ones, reversed, inverted.
    #[test]
    fn nothing_gives_zero() {
        assert_eq!(crc32(&RULES, &[]), 0);
    }

    /// FF x 4 cancels the start value (reduced mod the polynomial, the register is then 0), so
    /// the answer is the inverted zero register.
    #[test]
    fn four_ones_cancel_the_start() {
        assert_eq!(crc32(&RULES, &[0xFF; 4]), 0xFFFF_FFFF);
    }
}
