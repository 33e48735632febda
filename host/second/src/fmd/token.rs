use crate::rules::{FmdRules, OtherByte};

/// A piece of the text, with the place of its first byte.
#[derive(Clone, Copy, Debug, PartialEq, Eq)]
pub struct Token<'a> {
    pub at: usize,
    pub kind: Kind<'a>,
}

#[derive(Clone, Copy, Debug, PartialEq, Eq)]
pub enum Kind<'a> {
    Word(&'a [u8]),
    Sign(u8),
    /// A byte that can stand nowhere but in a comment.
    Other,
    End,
}

impl Token<'_> {
    pub fn is_sign(&self, sign: u8) -> bool {
        self.kind == Kind::Sign(sign)
    }
}

/// The text's tokens up to its end or to the first byte that is none; never empty.
pub fn tokens<'a>(rules: &FmdRules, text: &'a [u8]) -> Vec<Token<'a>> {
    let mut found = Vec::new();
    let mut at = 0;
    loop {
        at = skipped(rules, text, at);
        let token = Token { at, kind: kind(rules, &text[at..]) };
        found.push(token);
        match token.kind {
            Kind::Word(word) => at += word.len(),
            Kind::Sign(_) => at += 1,
            Kind::Other | Kind::End => return found,
        }
    }
}

/// L4: past the blanks and comments.
fn skipped(rules: &FmdRules, text: &[u8], mut at: usize) -> usize {
    while let Some(&byte) = text.get(at) {
        if is_blank(rules, byte) {
            at += 1;
        } else if rules.comment == Some(byte) {
            at = comment_end(rules, text, at);
            if text.get(at).is_some_and(|byte| !rules.comment_ends.contains(byte)) {
                return at;
            }
        } else {
            return at;
        }
    }
    at
}

/// L4: "# runs to the line's end".
fn comment_end(rules: &FmdRules, text: &[u8], at: usize) -> usize {
    let ends = |byte: &u8| {
        let judged = rules.comment_bytes_judged && !is_blank(rules, *byte) && !is_visible(rules, *byte);
        rules.comment_ends.contains(byte) || judged
    };
    text[at..].iter().position(ends).map_or(text.len(), |len| at + len)
}

fn is_blank(rules: &FmdRules, byte: u8) -> bool {
    let other = !is_visible(rules, byte) && rules.other_byte == OtherByte::Blank;
    rules.blanks.contains(&byte) || other
}

fn is_visible(rules: &FmdRules, byte: u8) -> bool {
    (rules.word_byte_min..=rules.word_byte_max).contains(&byte)
}

/// What the text, which has no blank or comment in front, begins with.
fn kind<'a>(rules: &FmdRules, text: &'a [u8]) -> Kind<'a> {
    match text.first() {
        None => Kind::End,
        Some(&byte) if rules.signs.contains(&byte) => Kind::Sign(byte),
        Some(&byte) if !is_visible(rules, byte) || rules.blanks.contains(&byte) => Kind::Other,
        Some(_) => Kind::Word(word(rules, text)),
    }
}

/// L5: where a word ends.
fn word<'a>(rules: &FmdRules, text: &'a [u8]) -> &'a [u8] {
    let ends = |byte: &u8| {
        let comment = rules.comment_ends_word && rules.comment == Some(*byte);
        rules.blanks.contains(byte) || rules.signs.contains(byte) || comment || !is_visible(rules, *byte)
    };
    let len = text.iter().position(ends).unwrap_or(text.len());
    &text[..len]
}

#[cfg(test)]
mod tests {
    use super::*;
    use crate::RULES;

    fn kinds(text: &[u8]) -> Vec<(usize, Kind<'_>)> {
        tokens(&RULES.fmd, text).into_iter().map(|token| (token.at, token.kind)).collect()
    }

    #[test]
    fn words_signs_and_the_end() {
        let found = kinds(b" A@0x1{\tB#c}\r{\n(C)");
        let expected = [
            (1, Kind::Word(b"A")),
            (2, Kind::Sign(b'@')),
            (3, Kind::Word(b"0x1")),
            (6, Kind::Sign(b'{')),
            (8, Kind::Word(b"B")),
            (15, Kind::Sign(b'(')),
            (16, Kind::Word(b"C")),
            (17, Kind::Sign(b')')),
            (18, Kind::End),
        ];
        assert_eq!(found, expected);
    }

    #[test]
    fn other_bytes_end_a_word_and_are_free_in_comments() {
        assert_eq!(kinds(b"A\x7FB"), [(0, Kind::Word(b"A")), (1, Kind::Other)]);
        assert_eq!(kinds(b"\x0B"), [(0, Kind::Other)]);
        assert_eq!(kinds(b"#\0\x80\x7F\xFF\nA"), [(6, Kind::Word(b"A")), (7, Kind::End)]);
        assert_eq!(kinds(b"# no end"), [(8, Kind::End)]);
    }
}
