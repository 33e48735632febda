//! Numbers and sizes, as they are typed and as they are shown.

use usigrambal::BlockSize;

const UNITS: [(&str, u32); 5] = [("B", 0), ("K", 10), ("M", 20), ("G", 30), ("T", 40)];

/// A number, decimal or 0x and hex digits.
pub fn number(text: &str) -> Result<u64, String> {
    match digits(text) {
        Some((value, "")) => fits(text, value),
        _ => Err(format!("\"{text}\" is no number (decimal, or 0x and hex digits)")),
    }
}

/// A size as it was typed: a bare number is blocks; with B, K, M, G or T it is bytes.
#[derive(Debug)]
pub struct Size<'a> {
    text: &'a str,
    /// None where it is beyond 128 bits.
    value: Option<u128>,
    in_bytes: bool,
}

impl Size<'_> {
    pub fn parse(text: &str) -> Result<Size<'_>, String> {
        let wrong = || {
            format!(
                "\"{text}\" is no size (a number of blocks, or of bytes with B, K, M, G or T: 2048, 10M, 1GiB)"
            )
        };
        let (value, unit) = digits(text).ok_or_else(wrong)?;
        if unit.is_empty() {
            return Ok(Size { text, value, in_bytes: false });
        }
        let letter = unit.strip_suffix("iB").unwrap_or(unit);
        let (_, shift) = UNITS.into_iter().find(|(name, _)| *name == letter).ok_or_else(wrong)?;
        if unit == "BiB" {
            return Err(wrong());
        }
        let value = value.and_then(|value| value.checked_mul(1 << shift));
        Ok(Size { text, value, in_bytes: true })
    }

    /// Bytes must be whole blocks.
    pub fn blocks(&self, block: BlockSize) -> Result<u64, String> {
        let Size { text, value, in_bytes } = *self;
        if !in_bytes {
            return fits(text, value);
        }
        let len = u128::from(block.bytes());
        if value.is_some_and(|bytes| bytes % len != 0) {
            return Err(format!("{text} is no whole number of blocks of {block} bytes"));
        }
        fits(text, value.map(|bytes| bytes / len))
    }
}

/// The value of the digits in front (none where it is beyond 128 bits), and what follows them.
fn digits(text: &str) -> Option<(Option<u128>, &str)> {
    let (rest, radix) = text.strip_prefix("0x").map_or((text, 10), |rest| (rest, 16));
    let end = rest.find(|c: char| !c.is_digit(radix)).unwrap_or(rest.len());
    let (digits, unit) = rest.split_at(end);
    (!digits.is_empty()).then(|| (u128::from_str_radix(digits, radix).ok(), unit))
}

fn fits(text: &str, value: Option<u128>) -> Result<u64, String> {
    let value = value.and_then(|value| u64::try_from(value).ok());
    value.ok_or_else(|| format!("{text} is too large: at most {} can be asked for", u64::MAX))
}

/// Bytes in the largest unit that they fill, with a tenth where they are not whole, rounded down.
pub fn human(bytes: u64) -> String {
    let (name, shift) = UNITS.into_iter().rev().find(|(_, shift)| bytes >> shift > 0).unwrap_or(UNITS[0]);
    if shift == 0 {
        return format!("{bytes} B");
    }
    let (whole, rest) = (bytes >> shift, bytes & ((1 << shift) - 1));
    if rest == 0 {
        return format!("{whole} {name}iB");
    }
    format!("{whole}.{} {name}iB", (u128::from(rest) * 10) >> shift)
}

/// A number of blocks with its size: `2048 blocks (1 MiB)`.
pub fn of_blocks(blocks: u64, block: BlockSize) -> String {
    format!("{} ({})", plural(blocks, "block"), human(blocks.saturating_mul(block.bytes())))
}

/// A number of things: `1 area`, `2 areas`.
pub fn plural(count: u64, noun: &str) -> String {
    format!("{count} {noun}{}", if count == 1 { "" } else { "s" })
}

#[cfg(test)]
mod tests {
    use super::*;

    #[test]
    fn numbers() {
        assert_eq!(number("0"), Ok(0));
        assert_eq!(number("010"), Ok(10));
        assert_eq!(number("0xfF"), Ok(255));
        assert_eq!(number("18446744073709551615"), Ok(u64::MAX));
        for wrong in ["", "0x", "-1", "+1", "1 ", "1K", "0XFF", "x", "1_000", "18446744073709551616"] {
            assert!(number(wrong).is_err(), "{wrong}");
        }
        assert!(number(&"9".repeat(60)).is_err());
    }

    fn blocks(text: &str, block: BlockSize) -> Result<u64, String> {
        Size::parse(text).and_then(|size| size.blocks(block))
    }

    #[test]
    fn sizes() {
        let expected = [
            ("0", 0, 0),
            ("2048", 2048, 2048),
            ("0x800", 2048, 2048),
            ("4096B", 8, 1),
            ("4K", 8, 1),
            ("0x10K", 32, 4),
            ("10M", 20_480, 2560),
            ("10MiB", 20_480, 2560),
            ("1G", 1 << 21, 1 << 18),
            ("2T", 1 << 32, 1 << 29),
            ("16TiB", 1 << 35, 1 << 32),
            ("18446744073709551615", u64::MAX, u64::MAX),
            ("9223372036854775804K", u64::MAX - 7, (u64::MAX - 7) / 8),
        ];
        for (text, of_512, of_4096) in expected {
            assert_eq!(blocks(text, BlockSize::Bytes512), Ok(of_512), "{text}");
            assert_eq!(blocks(text, BlockSize::Bytes4096), Ok(of_4096), "{text}");
        }
        for wrong in ["", "K", "1k", "1KB", "1BiB", "1.5G", "-1", "1 M", "0x", "1MM", "10iB"] {
            assert!(Size::parse(wrong).unwrap_err().contains("is no size"), "{wrong}");
        }
        assert_eq!((blocks("512B", BlockSize::Bytes512), blocks("1K", BlockSize::Bytes512)), (Ok(1), Ok(2)));
        for (ragged, block) in [("1000B", BlockSize::Bytes512), ("1K", BlockSize::Bytes4096)] {
            let said = format!("{ragged} is no whole number of blocks of {block} bytes");
            assert_eq!(blocks(ragged, block), Err(said));
        }
        for block in BlockSize::ALL {
            for large in ["18446744073709551616", "73786976294838206464K", "18446744073709551615T"] {
                assert!(blocks(large, block).unwrap_err().contains("too large"), "{large}");
            }
            assert!(blocks(&format!("{}T", "9".repeat(60)), block).unwrap_err().contains("too large"));
        }
        assert!(blocks("9223372036854775808K", BlockSize::Bytes512).unwrap_err().contains("too large"));
        assert_eq!(blocks("9223372036854775808K", BlockSize::Bytes4096), Ok(1 << 61));
    }

    #[test]
    fn sizes_for_people() {
        assert_eq!(human(0), "0 B");
        assert_eq!(human(1023), "1023 B");
        assert_eq!(human(1024), "1 KiB");
        assert_eq!(human(1536), "1.5 KiB");
        assert_eq!(human((1 << 20) - 1), "1023.9 KiB");
        assert_eq!(human(2 << 40), "2 TiB");
        assert_eq!(human(u64::MAX), "16777215.9 TiB");
        assert_eq!((plural(0, "area"), plural(1, "area")), ("0 areas".into(), "1 area".into()));
        assert_eq!(of_blocks(1, BlockSize::Bytes512), "1 block (512 B)");
        assert_eq!(of_blocks(2048, BlockSize::Bytes512), "2048 blocks (1 MiB)");
        assert_eq!(of_blocks(2048, BlockSize::Bytes4096), "2048 blocks (8 MiB)");
    }
}
