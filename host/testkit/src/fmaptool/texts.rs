//! What of a text makes the rules and fmaptool differ.

pub fn is_sign(byte: u8) -> bool {
    b"@{}()".contains(&byte)
}

/// The text without its comments.
pub fn bare(text: &[u8]) -> Vec<u8> {
    let lines = text.split(|byte| *byte == b'\n');
    let before = |line: &[u8]| line.iter().copied().take_while(|byte| *byte != b'#').collect::<Vec<u8>>();
    lines.map(before).collect::<Vec<_>>().join(&b'\n')
}

/// Signs and words, as fmaptool takes them.
pub fn tokens(text: &[u8]) -> Vec<Vec<u8>> {
    let mut tokens: Vec<Vec<u8>> = vec![Vec::new()];
    for byte in bare(text) {
        match byte {
            b' ' | 0x09..=0x0D => tokens.push(Vec::new()),
            sign if is_sign(sign) => tokens.extend([vec![sign], Vec::new()]),
            byte => tokens.last_mut().expect("a token").push(byte),
        }
    }
    tokens.retain(|token| !token.is_empty());
    tokens
}

/// The value of a number, of any size.
pub fn value(word: &[u8]) -> Option<u128> {
    let word = std::str::from_utf8(word).ok()?;
    let shift = ["K", "M", "G"].iter().position(|suffix| word.ends_with(suffix)).map_or(0, |k| 10 * (k + 1));
    let digits = word.trim_end_matches(['K', 'M', 'G']);
    if word.len() - digits.len() > 1 || digits.starts_with('+') {
        return None;
    }
    let huge = |digits: &str, radix| {
        let all = !digits.is_empty() && digits.chars().all(|digit| digit.is_digit(radix));
        all.then(|| u128::from_str_radix(digits, radix).unwrap_or(u128::MAX))
    };
    let value = match digits.strip_prefix("0x") {
        Some(hex) => huge(hex, 16)?,
        None => huge(digits, 10).filter(|_| digits == "0" || !digits.starts_with('0'))?,
    };
    Some(value.saturating_mul(1 << shift))
}

/// A word that begins with a digit and is no number; fmaptool takes 0X for 0x.
pub fn is_digit_name(word: &[u8]) -> bool {
    let lower: Vec<u8> = match word {
        [b'0', b'X', rest @ ..] => [b"0x", rest].concat(),
        _ => word.to_vec(),
    };
    word[0].is_ascii_digit() && value(&lower).is_none()
}

pub fn depth(tokens: &[Vec<u8>]) -> usize {
    let (mut now, mut most) = (0usize, 0);
    for token in tokens {
        match token[..] {
            [b'{'] => now += 1,
            [b'}'] => now = now.saturating_sub(1),
            _ => {}
        }
        most = most.max(now);
    }
    most
}

pub fn repeats_a_flag(tokens: &[Vec<u8>]) -> bool {
    let groups = tokens.split(|token| token == b"(").skip(1);
    let repeats = |group: &[Vec<u8>]| {
        let flags: Vec<&Vec<u8>> = group.iter().take_while(|token| *token != b")").collect();
        (1..flags.len()).any(|k| flags[..k].contains(&flags[k]))
    };
    groups.into_iter().any(repeats)
}

/// Whether a section without a size stands before a sibling without an offset, in a text that is in the grammar.
pub fn leaves_undecided(tokens: &[Vec<u8>]) -> bool {
    let sign = |at: usize, sign: u8| tokens.get(at).is_some_and(|token| *token == [sign]);
    // By open list: whether the last section has no size.
    let mut lists: Vec<bool> = Vec::new();
    let mut at = tokens.iter().position(|token| token == b"{").unwrap_or(0);
    while at < tokens.len() {
        match tokens[at][..] {
            [b'{'] => lists.push(false),
            [b'}'] => drop(lists.pop()),
            _ => {
                let mut next = at + 1;
                if sign(next, b'(') {
                    next += tokens[next..].iter().take_while(|token| *token != b")").count() + 1;
                }
                let offset = sign(next, b'@');
                next += if offset { 2 } else { 0 };
                let size = tokens.get(next).is_some_and(|token| token[0].is_ascii_digit());
                let Some(unsized_before) = lists.last_mut() else { return false };
                if *unsized_before && !offset {
                    return true;
                }
                *unsized_before = !size;
                at = next + usize::from(size);
                continue;
            }
        }
        at += 1;
    }
    false
}

#[cfg(test)]
mod tests {
    use super::*;

    fn undecided(text: &str) -> bool {
        leaves_undecided(&tokens(text.as_bytes()))
    }

    #[test]
    fn undecided_sizes_are_seen_in_the_text() {
        for text in [
            "I 98 { A B }",
            "I@0 98 { A { B C } }",
            "I 98 { A(CBFS) # c\n { B } C 9 }",
            "I 98 { A@1 B(CBFS) }",
        ] {
            assert!(undecided(text), "{text}");
        }
        for text in ["I 98 { A }", "I 98 { A 9 B }", "I 98 { A B(CBFS) @ 9 }", "I 98 { A 9 { B } C }"] {
            assert!(!undecided(text), "{text}");
        }
    }

    #[test]
    fn numbers_have_their_value() {
        let values = ["0", "10", "0x10", "1K", "0x1M", "4G", "99999999999999999999999999999999999999999"];
        let expected = [0, 10, 16, 1024, 1 << 20, 1 << 32, u128::MAX];
        assert_eq!(values.map(|word| value(word.as_bytes())), expected.map(Some));
        assert!(["010", "0x", "1KK", "1k", "x", "K", "0X1"]
            .iter()
            .all(|word| value(word.as_bytes()).is_none()));
        assert!(is_digit_name(b"9A") && !is_digit_name(b"0X1") && !is_digit_name(b"A9"));
    }

    #[test]
    fn kinds_of_texts() {
        assert!(repeats_a_flag(&tokens(b"A(CBFS CBFS)")) && !repeats_a_flag(&tokens(b"A(CBFS) B(CBFS)")));
        assert_eq!(depth(&tokens(b"{ { } { { } } }")), 3);
        assert_eq!(bare(b"A#b\nC"), b"A\nC");
    }
}
