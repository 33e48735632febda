//! The words and signs of a layout text, with their lines.

const SIGNS: &[u8] = b"@{}()";
const COMMENT: u8 = b'#';

#[derive(Clone, Copy, Debug, PartialEq, Eq)]
pub struct Token<'a> {
    pub kind: Kind<'a>,
    pub line: usize,
    /// Where it begins.
    pub start: usize,
}

#[derive(Clone, Copy, Debug, PartialEq, Eq)]
pub enum Kind<'a> {
    Word(&'a [u8]),
    Sign(u8),
    /// A byte that may stand in comments alone.
    Other(u8),
    End,
}

impl Kind<'_> {
    /// As it is told.
    pub fn words(&self) -> String {
        match self {
            Kind::Word(word) => word.escape_ascii().to_string(),
            Kind::Sign(sign) => char::from(*sign).to_string(),
            Kind::Other(byte) => format!("the byte {byte:#04x}"),
            Kind::End => "the text's end".into(),
        }
    }
}

/// All tokens, and the end.
pub fn tokens(text: &[u8]) -> Vec<Token<'_>> {
    let mut tokens = Vec::new();
    let (mut at, mut line) = (0, 1);
    while at < text.len() {
        let start = at;
        let kind = match text[at] {
            b'\n' => {
                line += 1;
                None
            }
            b' ' | b'\t' | b'\r' => None,
            COMMENT => {
                at += text[at..].iter().take_while(|byte| **byte != b'\n').count();
                continue;
            }
            sign if SIGNS.contains(&sign) => Some(Kind::Sign(sign)),
            byte if in_word(&byte) => {
                let len = text[at..].iter().take_while(|byte| in_word(byte)).count();
                at += len - 1;
                Some(Kind::Word(&text[start..start + len]))
            }
            byte => Some(Kind::Other(byte)),
        };
        at += 1;
        tokens.extend(kind.map(|kind| Token { kind, line, start }));
    }
    tokens.push(Token { kind: Kind::End, line, start: text.len() });
    tokens
}

fn in_word(byte: &u8) -> bool {
    (0x21..=0x7E).contains(byte) && *byte != COMMENT && !SIGNS.contains(byte)
}

/// The value of a number, if it is one and fits in 32 bits.
pub fn number(word: &[u8]) -> Option<u64> {
    let text = std::str::from_utf8(word).ok()?;
    let unit = [("K", 10), ("M", 20), ("G", 30)].into_iter().find(|(unit, _)| text.ends_with(unit));
    let (text, shift) = unit.map_or((text, 0), |(_, shift)| (&text[..text.len() - 1], shift));
    let (digits, radix) = text.strip_prefix("0x").map_or((text, 10), |digits| (digits, 16));
    let leading = radix == 10 && digits.len() > 1 && digits.starts_with('0');
    if digits.is_empty() || leading || !digits.chars().all(|c| c.is_digit(radix)) {
        return None;
    }
    let value = u128::from_str_radix(&format!("0{}", digits.trim_start_matches('0')), radix).ok()?;
    u32::try_from(value.checked_mul(1 << shift)?).ok().map(u64::from)
}

#[cfg(test)]
mod tests {
    use super::*;

    #[test]
    fn words_and_signs() {
        let found: Vec<(String, usize)> = tokens(b"A@0x1 # c {\n{B\t(C)\x80}")
            .into_iter()
            .map(|token| (token.kind.words(), token.line))
            .collect();
        let expected = [
            ("A", 1),
            ("@", 1),
            ("0x1", 1),
            ("{", 2),
            ("B", 2),
            ("(", 2),
            ("C", 2),
            (")", 2),
            ("the byte 0x80", 2),
            ("}", 2),
            ("the text's end", 2),
        ];
        assert_eq!(found, expected.map(|(words, line)| (words.to_string(), line)));
    }

    #[test]
    fn numbers() {
        for (word, value) in [
            ("0", 0),
            ("7", 7),
            ("0x1f", 31),
            ("0x0010", 16),
            ("0K", 0),
            ("2K", 2048),
            ("0x2K", 2048),
            ("16M", 1 << 24),
            ("3G", 3 << 30),
            ("4294967295", u32::MAX.into()),
            ("0xffffffff", u32::MAX.into()),
        ] {
            assert_eq!(number(word.as_bytes()), Some(value), "{word}");
        }
        for word in [
            "",
            "00",
            "01",
            "K",
            "0x",
            "0xK",
            "0X1",
            "1k",
            "1KK",
            "4G",
            "4294967296",
            "1.0",
            "x",
            "0xg",
            "-1",
        ] {
            assert_eq!(number(word.as_bytes()), None, "{word}");
        }
    }
}
