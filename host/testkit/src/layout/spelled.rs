//! The ways to spell a layout.

use super::SIGNS;
use crate::random::Random;

/// A number in one of its spellings.
pub fn number(value: u64, random: &mut Random) -> Vec<u8> {
    let suffixes: Vec<(u64, &str)> = [(0, ""), (10, "K"), (20, "M"), (30, "G")]
        .into_iter()
        .filter(|(shift, _)| value >> shift << shift == value)
        .collect();
    let (shift, suffix) = random.pick(&suffixes);
    let value = value >> shift;
    match random.below(5) {
        0 => format!("0x{value:x}{suffix}"),
        1 => format!("0x{value:X}{suffix}"),
        2 => format!("0x{}{value:x}{suffix}", "0".repeat(random.below(20))),
        _ => format!("{value}{suffix}"),
    }
    .into_bytes()
}

fn is_sign(token: &[u8]) -> bool {
    token.len() == 1 && SIGNS.contains(&token[0])
}

/// The tokens with blanks and comments between them, at least one between two words; every comment ends in LF.
pub fn joined(tokens: &[Vec<u8>], random: &mut Random) -> Vec<u8> {
    let mut text = blanks(random);
    for (k, token) in tokens.iter().enumerate() {
        text.extend(token);
        let words = tokens.get(k + 1).is_some_and(|next| !is_sign(token) && !is_sign(next));
        let mut between = blanks(random);
        if words && between.is_empty() {
            between.push(b' ');
        }
        text.extend(between);
    }
    text
}

/// Nothing, blanks, or a comment of any bytes.
pub fn blanks(random: &mut Random) -> Vec<u8> {
    let mut blanks = Vec::new();
    while random.below(3) == 0 {
        match random.below(6) {
            0 => {
                let len = random.below(12);
                let bytes = random.bytes(len);
                blanks.push(b'#');
                blanks.extend(bytes.into_iter().filter(|byte| *byte != b'\n'));
                blanks.push(b'\n');
            }
            1 => blanks.extend(b"# { A@01 (\r }\n"),
            _ => blanks.push(random.pick(b" \t\r\n")),
        }
    }
    blanks
}

#[cfg(test)]
mod tests {
    use super::*;
    use std::collections::BTreeSet;

    #[test]
    fn numbers_are_spelled_in_many_ways() {
        let mut random = Random::new(5);
        let spelled: BTreeSet<Vec<u8>> = (0..300).map(|_| number(2048, &mut random)).collect();
        for spelling in [&b"2048"[..], b"2K", b"0x800", b"0x2K"] {
            assert!(spelled.contains(spelling));
        }
    }

    #[test]
    fn words_stay_apart() {
        let mut random = Random::new(7);
        for _ in 0..200 {
            let text = joined(&[b"A".to_vec(), b"1".to_vec(), b"{".to_vec()], &mut random);
            assert!(!text.windows(2).any(|part| part == b"A1"));
        }
    }
}
