//! Starts and sizes, as a layout string has them: decimal bytes, with KiB, MiB or GiB if wanted.

const SUFFIXES: [(&str, u32); 3] = [("GiB", 30), ("MiB", 20), ("KiB", 10)];

/// As many as any number has, and as its suffix.
const SHOWN: usize = 23;

/// A start or a size, as it was typed and in bytes.
#[derive(Clone, Copy, Debug, PartialEq, Eq)]
pub struct Amount<'a> {
    pub typed: &'a str,
    pub bytes: u64,
}

/// Why a text is none.
#[derive(Debug, PartialEq, Eq)]
pub enum Fault {
    NoDigit,
    /// Behind the digits.
    Suffix(String),
    TooLarge,
}

impl Amount<'_> {
    /// As it was typed, unless that is long by leading zeros.
    pub fn shown(&self) -> String {
        match self.typed.len() {
            0..=SHOWN => self.typed.to_string(),
            _ => self.bytes.to_string(),
        }
    }

    /// Leading zeros do not count, and none of any number of digits wraps.
    pub fn parse(typed: &str) -> Result<Amount<'_>, Fault> {
        let end = typed.find(|c: char| !c.is_ascii_digit()).unwrap_or(typed.len());
        let (digits, suffix) = typed.split_at(end);
        if digits.is_empty() {
            return Err(Fault::NoDigit);
        }
        let shift = match SUFFIXES.into_iter().find(|(name, _)| *name == suffix) {
            Some((_, shift)) => shift,
            None if suffix.is_empty() => 0,
            None => return Err(Fault::Suffix(suffix.to_string())),
        };
        let value = digits.trim_start_matches('0');
        let value = if value.is_empty() { Some(0) } else { value.parse::<u64>().ok() };
        let bytes = value.and_then(|value| value.checked_mul(1 << shift)).ok_or(Fault::TooLarge)?;
        Ok(Amount { typed, bytes })
    }
}

/// With the largest suffix that says it exactly.
pub fn text(bytes: u64) -> String {
    let exact = SUFFIXES.into_iter().find(|(_, shift)| bytes != 0 && bytes.is_multiple_of(1 << shift));
    exact.map_or_else(|| bytes.to_string(), |(suffix, shift)| format!("{}{suffix}", bytes >> shift))
}

#[cfg(test)]
mod tests {
    use super::*;

    #[test]
    fn amounts() {
        let bytes = |typed: &str| Amount::parse(typed).map(|amount| amount.bytes);
        for (typed, expected) in [
            ("0", 0),
            ("000", 0),
            ("0KiB", 0),
            ("1", 1),
            ("0010", 10),
            ("64KiB", 65_536),
            ("60MiB", 60 << 20),
            ("007GiB", 7 << 30),
            ("18446744073709551615", u64::MAX),
            ("18014398509481983KiB", u64::MAX - 1023),
        ] {
            assert_eq!(bytes(typed), Ok(expected), "{typed}");
        }
        assert_eq!(bytes(&format!("{}9MiB", "0".repeat(5000))), Ok(9 << 20));
        for typed in ["18446744073709551616", "18014398509481984KiB", "17179869184GiB", &"9".repeat(99)] {
            assert_eq!(bytes(typed), Err(Fault::TooLarge), "{typed}");
        }
        for typed in ["", "KiB", "-1", "+1", "x", " 1"] {
            assert_eq!(bytes(typed), Err(Fault::NoDigit), "{typed}");
        }
        for suffix in ["Mib", "kiB", "K", "M", "MB", "TiB", "KiBx", " KiB", "KiBKiB", ".5MiB", "x10", "²"] {
            assert_eq!(bytes(&format!("60{suffix}")), Err(Fault::Suffix(suffix.into())), "{suffix}");
        }
    }

    /// What is told reads as the same bytes, and no larger suffix would say it.
    #[test]
    fn told_amounts_read_back() {
        let expected = [
            (0, "0"),
            (512, "512"),
            (1024, "1KiB"),
            (1536, "1536"),
            (17_408, "17KiB"),
            (1 << 20, "1MiB"),
            (1 << 21 | 1 << 10, "2049KiB"),
            (5 << 40, "5120GiB"),
            (u64::MAX, "18446744073709551615"),
        ];
        for (bytes, told) in expected {
            assert_eq!(text(bytes), told);
            assert_eq!(Amount::parse(told), Ok(Amount { typed: told, bytes }));
        }
    }
}
