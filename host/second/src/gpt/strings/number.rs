use crate::rules::StringNumbers;

/// b3, b5: the number that the word is.
pub fn number(rules: &StringNumbers, word: &[u8]) -> Option<u64> {
    let (digits, factor) = without_suffix(rules, word);
    let (base, digits) =
        rules.bases.iter().find_map(|(mark, base)| Some((base, digits.strip_prefix(*mark)?)))?;
    let zeros = digits.iter().take_while(|byte| **byte == b'0').count();
    let leading = zeros.min(digits.len().saturating_sub(1));
    if digits.len() < rules.digits_min || leading > rules.leading_zeros_max {
        return None;
    }
    let enter = |value: u128, byte: &u8| {
        let digit = char::from(*byte).to_digit(*base as u32)?;
        Some(value.saturating_mul(*base).saturating_add(u128::from(digit)) & rules.mask)
    };
    let value = digits.iter().try_fold(0, enter)?;
    let product = value.saturating_mul(factor) & rules.mask;
    let judged = if rules.multiplied_judged { product } else { value };
    (judged <= rules.max).then_some(product as u64)
}

/// The word without its suffix, and the factor that this stands for.
fn without_suffix<'a>(rules: &StringNumbers, word: &'a [u8]) -> (&'a [u8], u128) {
    let (mut digits, mut factor) = (word, 1);
    for _ in 0..rules.suffixes_max {
        let ends = |suffix: &[u8]| {
            let at = digits.len().checked_sub(suffix.len())?;
            let (before, end) = digits.split_at(at);
            let same = end == suffix || rules.suffix_in_any_case && end.eq_ignore_ascii_case(suffix);
            same.then_some(before)
        };
        let found = rules.suffixes.iter().find_map(|(suffix, by)| Some((ends(suffix)?, by)));
        let Some((before, by)) = found else { break };
        (digits, factor) = (before, factor * by);
    }
    (digits, factor)
}

#[cfg(test)]
mod tests {
    use super::*;
    use crate::RULES;

    fn of(word: &str) -> Option<u64> {
        number(&RULES.gpt.strings.numbers, word.as_bytes())
    }

    #[test]
    fn numbers_of_the_rules() {
        let zeros = "0".repeat(8000);
        let good = [
            ("0", 0),
            ("00", 0),
            ("0KiB", 0),
            ("1", 1),
            ("010", 10),
            ("512", 512),
            ("3KiB", 3 << 10),
            ("060MiB", 60 << 20),
            ("2GiB", 2 << 30),
            ("18446744073709551615", u64::MAX),
            ("18014398509481983KiB", u64::MAX - 1023),
            ("17179869183GiB", u64::MAX - (1 << 30) + 1),
            (&format!("{zeros}7KiB"), 7 << 10),
        ];
        for (word, value) in good {
            assert_eq!(of(word), Some(value), "{word}");
        }
        let bad = [
            "",
            "KiB",
            "60Mib",
            "60K",
            "60M",
            "1kiB",
            "1KIB",
            "1TiB",
            "1B",
            "1KiBKiB",
            "1 KiB",
            "+1",
            "-1",
            "0x10",
            "1.5MiB",
            "1_0",
            "18446744073709551616",
            "18014398509481984KiB",
            "17592186044416MiB",
            "17179869184GiB",
            "36028797018963968KiB",
            "340282366920938463463374607431768211456",
            &"9".repeat(400),
        ];
        for word in bad {
            assert_eq!(of(word), None, "{word}");
        }
    }
}
