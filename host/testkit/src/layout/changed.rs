//! Texts changed at random.

use super::spelled::{joined, number};
use crate::random::Random;

/// Bytes and words that a text may be changed by.
const BYTES: &[u8] = b"@{}()# \t\r\n\x0B\x0C\0\x01\x1F!~\x7F\x80\xFF0189xXAFKMGkab";
const WORDS: &[&[u8]] = &[
    b"@",
    b"{",
    b"}",
    b"(",
    b")",
    b"{ }",
    b"( )",
    b"0",
    b"1",
    b"010",
    b"0x",
    b"0x10",
    b"0X10",
    b"0xK",
    b"1k",
    b"4G",
    b"4294967295",
    b"4294967296",
    b"98",
    b"97",
    b"9A",
    b"A",
    b"FMAP",
    b"CBFS",
    b"PRESERVE",
    b"COREBOOT",
    b"@0",
    b"@1",
    b"# \n",
    b"#",
    b"NAME_OF_31_BYTES_XXXXXXXXXXXXXX",
    b"NAME_OF_32_BYTES_XXXXXXXXXXXXXXX",
];

/// The text of changed tokens: one left out, said twice, exchanged with its neighbour or replaced, once or a few times.
pub fn changed_tokens(tokens: &[Vec<u8>], random: &mut Random) -> Vec<u8> {
    let mut tokens = tokens.to_vec();
    for _ in 0..1 + random.below(2) {
        if tokens.is_empty() {
            break;
        }
        let at = random.below(tokens.len());
        match random.below(5) {
            0 => drop(tokens.remove(at)),
            1 => tokens.insert(at, tokens[at].clone()),
            2 => tokens.swap(at, at.saturating_sub(1)),
            3 => tokens.insert(at, random.pick(WORDS).to_vec()),
            _ => tokens[at] = random.pick(WORDS).to_vec(),
        }
    }
    joined(&tokens, random)
}

/// The text with numbers changed: one more, one less, another one of the text, a small one; or an offset or a size left
/// out.
pub fn changed_numbers(tokens: &[Vec<u8>], random: &mut Random) -> Vec<u8> {
    let mut tokens = tokens.to_vec();
    for _ in 0..1 + random.below(3) {
        let numbers: Vec<usize> = (0..tokens.len()).filter(|k| tokens[*k][0].is_ascii_digit()).collect();
        let Some(&at) = numbers.get(random.below(numbers.len().max(1))) else { break };
        let decimal = std::str::from_utf8(&tokens[at]).ok().and_then(|word| word.parse::<u64>().ok());
        match (random.below(5), decimal) {
            (0, Some(number)) => tokens[at] = (number + 1).to_string().into_bytes(),
            (1, Some(number)) => tokens[at] = number.saturating_sub(1).to_string().into_bytes(),
            (2, _) => tokens[at] = tokens[random.pick(&numbers)].clone(),
            (3, _) => tokens[at] = number(random.number_below(400), random),
            _ => {
                let first = if tokens[at - 1] == b"@" { at - 1 } else { at };
                tokens.drain(first..=at);
            }
        }
    }
    joined(&tokens, random)
}

/// The text with bytes changed.
pub fn changed_bytes(text: &[u8], random: &mut Random) -> Vec<u8> {
    random.changed(text, BYTES)
}
