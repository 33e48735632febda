use crate::rules::FmdRules;

/// L8: the number that the word is.
pub fn number(rules: &FmdRules, word: &[u8]) -> Option<u64> {
    let (digits, shift) = without_suffix(rules, word);
    let value = match hex_digits(rules, digits) {
        Some(_) if shift.is_some() && !rules.suffix_on_hex => return None,
        Some(hex) => hex_value(rules, hex)?,
        None if digits == b"0" && shift.is_some() && !rules.suffix_on_zero => return None,
        None => decimal_value(rules, digits)?,
    };
    let value = masked(rules, value.saturating_mul(1 << shift.unwrap_or(0)));
    u64::try_from(value).ok().filter(|_| value <= rules.number_max)
}

pub fn is_digit(byte: u8) -> bool {
    byte.is_ascii_digit()
}

/// The word without its suffix, and how far that shifts.
fn without_suffix<'a>(rules: &FmdRules, word: &'a [u8]) -> (&'a [u8], Option<u32>) {
    let (mut digits, mut shift) = (word, None);
    for _ in 0..rules.suffixes_max {
        let Some((last, rest)) = digits.split_last() else { break };
        let Some((_, by)) = rules.suffixes.iter().find(|(suffix, _)| suffix == last) else { break };
        (digits, shift) = (rest, Some(shift.unwrap_or(0) + by));
    }
    (digits, shift)
}

/// What follows `0x`.
fn hex_digits<'a>(rules: &FmdRules, digits: &'a [u8]) -> Option<&'a [u8]> {
    match digits {
        [b'0', mark, hex @ ..] if rules.hex_marks.contains(mark) => Some(hex),
        _ => None,
    }
}

fn hex_value(rules: &FmdRules, hex: &[u8]) -> Option<u128> {
    let digit = |byte: &u8| match byte {
        b'0'..=b'9' => Some(byte - b'0'),
        b'A'..=b'F' if rules.hex_upper => Some(byte - b'A' + 10),
        b'a'..=b'f' if rules.hex_lower => Some(byte - b'a' + 10),
        _ => None,
    };
    let digits: Option<Vec<u8>> = hex.iter().map(digit).collect();
    digits.filter(|digits| digits.len() >= rules.hex_digits_min).map(|digits| value(rules, 16, &digits))
}

/// L8: "0, or decimal without leading 0".
fn decimal_value(rules: &FmdRules, digits: &[u8]) -> Option<u128> {
    let led = digits.len() > 1 && digits[0] == b'0';
    if digits.is_empty() || !digits.iter().all(|byte| is_digit(*byte)) {
        return None;
    }
    let values: Vec<u8> = digits.iter().map(|byte| byte - b'0').collect();
    (!led || !rules.leading_zero_refused).then(|| value(rules, 10, &values))
}

/// Any number of digits; the value saturates.
fn value(rules: &FmdRules, base: u128, digits: &[u8]) -> u128 {
    let enter = |value: u128, digit: &u8| {
        masked(rules, value.saturating_mul(base).saturating_add(u128::from(*digit)))
    };
    digits.iter().fold(0, enter)
}

fn masked(rules: &FmdRules, value: u128) -> u128 {
    value & rules.number_mask
}

#[cfg(test)]
mod tests {
    use super::*;
    use crate::RULES;

    fn of(word: &str) -> Option<u64> {
        number(&RULES.fmd, word.as_bytes())
    }

    /// S8, and the readings of L8 in docs/DECISIONS.md.
    #[test]
    fn numbers_of_the_rules() {
        let good = [
            ("0", 0),
            ("0x10", 16),
            ("10", 10),
            ("0K", 0),
            ("0x0", 0),
            ("0x10K", 16_384),
            ("0xaBc", 0xABC),
            ("3M", 3 << 20),
            ("3G", 3 << 30),
            ("4194303K", 4_294_966_272),
            ("4294967295", 4_294_967_295),
            ("0xffffffff", 4_294_967_295),
            ("0x00000000000000000000000000000000000000001", 1),
        ];
        for (word, value) in good {
            assert_eq!(of(word), Some(value), "{word}");
        }
        let bad = [
            "010",
            "00",
            "00x1",
            "0x",
            "0xK",
            "0X1",
            "1k",
            "1KB",
            "1KK",
            "4G",
            "4194304K",
            "4294967296",
            "18446744073709551617",
            "18014398509481984K",
            "340282366920938463463374607431768211457",
            "0x100000000",
            "0x1g",
            "+1",
            "-5",
            "K",
            "",
            "1_0",
        ];
        for word in bad {
            assert_eq!(of(word), None, "{word}");
        }
    }
}
