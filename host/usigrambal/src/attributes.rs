//! The 64 attribute bits of a partition, and the rules of which must be zero, as include/usigrambal.h has them.

use std::fmt;
use std::ops::RangeInclusive;
use std::str::FromStr;

/// Which attribute bits must be zero (rule k1); the caller of an add and of a check names it.
/// Bits 0 and 48 to 63 are free under both.
#[derive(Clone, Copy, Debug, Default, PartialEq, Eq, Hash)]
#[repr(u64)]
pub enum AttributeRule {
    /// Bits 3 to 47.
    #[default]
    Present = 0,
    /// Bits 1 to 47, as some firmware wants it.
    Earlier = 1,
}

impl AttributeRule {
    pub const ALL: [AttributeRule; 2] = [AttributeRule::Present, AttributeRule::Earlier];

    pub const fn number(self) -> u64 {
        self as u64
    }

    pub const fn name(self) -> &'static str {
        match self {
            AttributeRule::Present => "present",
            AttributeRule::Earlier => "earlier",
        }
    }

    /// The bits that must be zero.
    pub const fn zero_bits(self) -> RangeInclusive<u32> {
        match self {
            AttributeRule::Present => 3..=47,
            AttributeRule::Earlier => 1..=47,
        }
    }

    /// The bits that are set and must be zero, in order.
    pub fn offending(self, attributes: u64) -> Vec<u32> {
        bits(attributes).into_iter().filter(|bit| self.zero_bits().contains(bit)).collect()
    }
}

impl fmt::Display for AttributeRule {
    fn fmt(&self, f: &mut fmt::Formatter<'_>) -> fmt::Result {
        f.pad(self.name())
    }
}

/// A text that names no rule.
#[derive(Clone, Copy, Debug, PartialEq, Eq)]
pub struct NoSuchRule;

impl fmt::Display for NoSuchRule {
    fn fmt(&self, f: &mut fmt::Formatter<'_>) -> fmt::Result {
        f.write_str("a rule of attribute bits is present or earlier")
    }
}

impl std::error::Error for NoSuchRule {}

impl FromStr for AttributeRule {
    type Err = NoSuchRule;

    fn from_str(text: &str) -> Result<AttributeRule, NoSuchRule> {
        AttributeRule::ALL.into_iter().find(|rule| rule.name() == text).ok_or(NoSuchRule)
    }
}

/// The bits to which UEFI gives a meaning whatever the partition's type is, with their names here.
pub const BIT_NAMES: [(u32, &str); 3] = [(0, "required"), (1, "no-block-io"), (2, "legacy-boot")];

/// The bits that UEFI leaves to the partition's type; they go by their numbers.
pub const TYPE_BITS: RangeInclusive<u32> = 48..=63;

/// The bits that are set, in order.
pub fn bits(attributes: u64) -> Vec<u32> {
    (0..u64::BITS).filter(|bit| attributes >> bit & 1 == 1).collect()
}

/// The name of a bit that has one.
pub fn bit_name(bit: u32) -> Option<&'static str> {
    BIT_NAMES.iter().find(|(named, _)| *named == bit).map(|(_, name)| *name)
}

/// A bit's name; one of `TYPE_BITS` by its number. Any other begins with `bit-`, so that it is not taken for a number of all
/// 64 bits.
pub fn bit_text(bit: u32) -> String {
    let numbered = || if TYPE_BITS.contains(&bit) { bit.to_string() } else { format!("bit-{bit}") };
    bit_name(bit).map_or_else(numbered, str::to_string)
}

/// The bit with that name, or one of `TYPE_BITS` by its number.
pub fn bit_named(text: &str) -> Option<u32> {
    let named = BIT_NAMES.iter().find(|(_, name)| *name == text).map(|(bit, _)| *bit);
    let numbered = || {
        let digits = text.bytes().all(|byte| byte.is_ascii_digit());
        text.parse().ok().filter(|bit| digits && TYPE_BITS.contains(bit))
    };
    named.or_else(numbered)
}

/// The bits in words, three and more in a row without names by their ends: `bits 1 (no-block-io), 5 and 8 to 47`.
pub fn bits_text(bits: &[u32]) -> String {
    let in_a_row = |a: &u32, b: &u32| a + 1 == *b && bit_name(*a).or(bit_name(*b)).is_none();
    let parts: Vec<String> = bits.chunk_by(in_a_row).flat_map(row_text).collect();
    let noun = if bits.len() == 1 { "bit" } else { "bits" };
    match &parts[..] {
        [] => "no bit".to_string(),
        [one] => format!("{noun} {one}"),
        [others @ .., last] => format!("{noun} {} and {last}", others.join(", ")),
    }
}

fn row_text(row: &[u32]) -> Vec<String> {
    let numbered = |bit: &u32| match bit_name(*bit) {
        Some(name) => format!("{bit} ({name})"),
        None => bit.to_string(),
    };
    match row {
        [first, _, .., last] => vec![format!("{first} to {last}")],
        _ => row.iter().map(numbered).collect(),
    }
}

#[cfg(test)]
mod tests {
    use super::*;
    use AttributeRule::{Earlier, Present};

    #[test]
    fn rules_have_names_and_numbers() {
        for rule in AttributeRule::ALL {
            assert_eq!(rule.to_string().parse(), Ok(rule));
        }
        assert_eq!((Present.number(), Earlier.number()), (0, 1));
        assert_eq!((Present.name(), Earlier.name()), ("present", "earlier"));
        assert_eq!(AttributeRule::default(), Present);
        for text in ["", "Present", "present ", "0"] {
            assert_eq!(text.parse::<AttributeRule>(), Err(NoSuchRule), "{text}");
        }
    }

    /// The masks of the two rules, bit by bit.
    #[test]
    fn bits_that_offend() {
        for bit in 0..64 {
            for (rule, mask) in [(Present, 0x0000_FFFF_FFFF_FFF8_u64), (Earlier, 0x0000_FFFF_FFFF_FFFE)] {
                let expected: &[u32] = if mask >> bit & 1 == 1 { &[bit] } else { &[] };
                assert_eq!(rule.offending(1 << bit), expected, "{rule}: {bit}");
            }
        }
        assert_eq!((Present.offending(0x2F), Earlier.offending(0x2F)), (vec![3, 5], vec![1, 2, 3, 5]));
        assert_eq!(Present.offending(u64::MAX), (3..48).collect::<Vec<_>>());
        assert_eq!((Present.offending(0), Earlier.offending(0)), (vec![], vec![]));
    }

    #[test]
    fn bits_by_name() {
        let told: Vec<String> = bits(0x8001_0000_0000_000F).into_iter().map(bit_text).collect();
        assert_eq!(told, ["required", "no-block-io", "legacy-boot", "bit-3", "48", "63"]);
        assert_eq!(bits(0), []);
        for (bit, name) in [(0, "required"), (1, "no-block-io"), (2, "legacy-boot"), (48, "48"), (63, "63")] {
            assert_eq!((bit_named(name), bit_text(bit)), (Some(bit), name.to_string()));
        }
        for text in ["", "0", "2", "bit-3", "47", "64", "+48", "0x30", "48 ", "Required", "99999999999"] {
            assert_eq!(bit_named(text), None, "{text}");
        }
    }

    #[test]
    fn bits_in_words() {
        assert_eq!(bits_text(&[]), "no bit");
        assert_eq!(bits_text(&[5]), "bit 5");
        assert_eq!(bits_text(&[2]), "bit 2 (legacy-boot)");
        assert_eq!(bits_text(&[1, 2]), "bits 1 (no-block-io) and 2 (legacy-boot)");
        assert_eq!(bits_text(&[2, 3, 4]), "bits 2 (legacy-boot), 3 and 4");
        assert_eq!(bits_text(&[1, 5, 8, 9, 10]), "bits 1 (no-block-io), 5 and 8 to 10");
        assert_eq!(bits_text(&(3..48).collect::<Vec<_>>()), "bits 3 to 47");
    }
}
