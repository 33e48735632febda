//! Attribute bits, as they are typed and told, and what would help where an add is refused for one.

use crate::arguments::Given;
use crate::failure::Failure;
use crate::show::printable;
use crate::sizes;
use usigrambal::attributes::{bit_named, bit_text, bits, bits_text};
use usigrambal::{AttributeRule, NewPartition};

const ATTRIBUTES: &str =
    "--attributes is a list, parted by commas, of required, no-block-io, legacy-boot (bits 0 to 2) and numbers from 48 to 63, \
     or else one number for all 64 bits (decimal, or 0x and hex digits)";

/// What `--attributes` says: a list of bits, or one number for all of them. 48 to 63 alone are a list: as all 64 bits they
/// would have bits 4 and 5 set, which every rule wants zero.
pub fn asked(given: &Given) -> Result<u64, Failure> {
    let Some(text) = given.text("--attributes")? else { return Ok(0) };
    parsed(text).map_err(|sentence| Failure::usage(sentence).hint(ATTRIBUTES))
}

fn parsed(text: &str) -> Result<u64, String> {
    let number = text.starts_with(|first: char| first.is_ascii_digit()) && !text.contains(',');
    match number && bit_named(text).is_none() {
        true => sizes::number(text),
        false => text.split(',').try_fold(0, with),
    }
}

/// The bits with the one that a word of a list names.
fn with(attributes: u64, word: &str) -> Result<u64, String> {
    let told = printable(word);
    let bit = bit_named(word).ok_or_else(|| format!("\"{told}\" is no attribute"))?;
    match attributes >> bit & 1 {
        0 => Ok(attributes | 1 << bit),
        _ => Err(format!("\"{told}\" stands twice in --attributes")),
    }
}

/// What `--rule` says, else the present one.
pub fn rule(given: &Given) -> Result<AttributeRule, Failure> {
    let Some(text) = given.text("--rule")? else { return Ok(AttributeRule::Present) };
    text.parse().map_err(|_| {
        Failure::usage(format!("\"{}\" is no rule", printable(text))).hint("--rule is present or earlier")
    })
}

/// The bits that are set, where any are: as `--attributes` takes them, if none of them is 3 to 47.
pub fn listed(attributes: u64) -> Option<String> {
    let names = names(attributes);
    (!names.is_empty()).then(|| names.join(","))
}

pub fn names(attributes: u64) -> Vec<String> {
    bits(attributes).into_iter().map(bit_text).collect()
}

/// What would help where an add is refused for an attribute bit.
pub fn of_add(new: &NewPartition) -> String {
    let (set, rule) = (new.attributes, new.rule);
    let offending = rule.offending(set);
    let without = set & !offending.iter().fold(0, |mask, bit| mask | 1_u64 << bit);
    let left_out = match listed(without) {
        Some(others) => format!("--attributes {others} leaves {} out", it(&offending)),
        None => "without --attributes no bit is set".to_string(),
    };
    let under_both = AttributeRule::Present.offending(set);
    match under_both.is_empty() {
        true => format!("--rule present takes {}; {left_out}", it(&offending)),
        false => format!("{} must be zero under both rules; {left_out}", bits_text(&under_both)),
    }
}

fn it(bits: &[u32]) -> &'static str {
    match bits.len() {
        1 => "it",
        _ => "them",
    }
}

#[cfg(test)]
mod tests {
    use super::*;
    use usigrambal::attributes::{BIT_NAMES, TYPE_BITS};

    #[test]
    fn attributes_as_they_are_typed() {
        let expected = [
            ("0", 0),
            ("4", 4),
            ("7", 7),
            ("47", 47),
            ("64", 64),
            ("0x30", 0x30),
            ("0x8000000000000004", 0x8000_0000_0000_0004),
            ("18446744073709551615", u64::MAX),
            ("required", 1),
            ("no-block-io", 2),
            ("legacy-boot", 4),
            ("48", 1 << 48),
            ("63", 1 << 63),
            ("63,required,60", 1 << 63 | 1 << 60 | 1),
            ("required,no-block-io,legacy-boot", 7),
        ];
        for (text, attributes) in expected {
            assert_eq!(parsed(text), Ok(attributes), "{text}");
        }
    }

    #[test]
    fn what_stands_in_no_list() {
        let none = |word: &str| Err(format!("\"{word}\" is no attribute"));
        for (text, word) in [
            ("", ""),
            ("x", "x"),
            ("boot", "boot"),
            ("bit-4", "bit-4"),
            ("Required", "Required"),
            ("-1", "-1"),
            ("required,", ""),
            (",48", ""),
            ("required,2", "2"),
            ("47,48", "47"),
            ("64,48", "64"),
            ("0x4,48", "0x4"),
            ("48, 49", " 49"),
            ("required,\u{1b}[2J", "\\u{1b}[2J"),
        ] {
            assert_eq!(parsed(text), none(word), "{text}");
        }
        for word in ["required", "48"] {
            let twice = format!("\"{word}\" stands twice in --attributes");
            assert_eq!(parsed(&format!("{word},no-block-io,{word}")), Err(twice));
        }
        assert!(parsed("48K").unwrap_err().contains("is no number"));
        assert!(parsed("18446744073709551616").unwrap_err().contains("too large"));
    }

    #[test]
    fn bits_as_they_are_told() {
        assert_eq!(listed(0), None);
        for attributes in [1, 6, 7, 1 << 48, 1 << 63 | 5, 0xFFFF << 48] {
            assert_eq!(parsed(&listed(attributes).unwrap()), Ok(attributes));
        }
        assert_eq!(listed(1 << 60 | 0x15).as_deref(), Some("required,legacy-boot,bit-4,60"));
    }

    /// The hint names what a list may have.
    #[test]
    fn the_hint_names_every_bit_of_a_list() {
        assert!(BIT_NAMES.iter().all(|(_, name)| ATTRIBUTES.contains(name)));
        assert!(ATTRIBUTES.contains(&format!("{} to {}", TYPE_BITS.start(), TYPE_BITS.end())));
    }
}
