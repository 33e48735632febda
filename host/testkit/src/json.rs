//! Reads one JSON document (RFC 8259) strictly; numbers are whole and not negative.

use std::iter::Peekable;
use std::str::Chars;

#[derive(Clone, Debug, PartialEq)]
pub enum Json {
    Null,
    Bool(bool),
    Number(u64),
    Text(String),
    List(Vec<Json>),
    Object(Vec<(String, Json)>),
}

impl Json {
    /// The field of an object; panics where there is none.
    pub fn at(&self, key: &str) -> &Json {
        let Json::Object(fields) = self else { panic!("no object: {self:?}") };
        let field = fields.iter().find(|(name, _)| name == key);
        &field.unwrap_or_else(|| panic!("no field {key}: {self:?}")).1
    }

    pub fn number(&self, key: &str) -> u64 {
        let Json::Number(number) = self.at(key) else { panic!("{key} is no number: {self:?}") };
        *number
    }

    pub fn text(&self, key: &str) -> &str {
        let Json::Text(text) = self.at(key) else { panic!("{key} is no text: {self:?}") };
        text
    }

    pub fn list(&self, key: &str) -> &[Json] {
        let Json::List(list) = self.at(key) else { panic!("{key} is no list: {self:?}") };
        list
    }
}

/// The one document that the text holds.
pub fn parse(text: &str) -> Result<Json, String> {
    let mut chars = text.chars().peekable();
    let document = value(&mut chars).ok_or_else(|| format!("no JSON: {text}"))?;
    blanks(&mut chars);
    match chars.next() {
        None => Ok(document),
        Some(_) => Err(format!("more than one document: {text}")),
    }
}

fn blanks(chars: &mut Peekable<Chars>) {
    while chars.next_if(|c| " \t\r\n".contains(*c)).is_some() {}
}

fn value(chars: &mut Peekable<Chars>) -> Option<Json> {
    blanks(chars);
    match chars.peek()? {
        '"' => text(chars).map(Json::Text),
        '[' => items(chars, ']', value).map(Json::List),
        '{' => items(chars, '}', field).map(Json::Object),
        c if c.is_ascii_digit() => number(chars),
        _ => word(chars),
    }
}

fn items<T>(
    chars: &mut Peekable<Chars>,
    close: char,
    item: impl Fn(&mut Peekable<Chars>) -> Option<T>,
) -> Option<Vec<T>> {
    chars.next()?;
    let mut found = Vec::new();
    blanks(chars);
    if chars.next_if_eq(&close).is_some() {
        return Some(found);
    }
    loop {
        found.push(item(chars)?);
        blanks(chars);
        match chars.next()? {
            ',' => {}
            c if c == close => return Some(found),
            _ => return None,
        }
    }
}

fn field(chars: &mut Peekable<Chars>) -> Option<(String, Json)> {
    blanks(chars);
    let name = text(chars)?;
    blanks(chars);
    chars.next_if_eq(&':')?;
    Some((name, value(chars)?))
}

fn number(chars: &mut Peekable<Chars>) -> Option<Json> {
    let mut digits = String::new();
    while let Some(digit) = chars.next_if(char::is_ascii_digit) {
        digits.push(digit);
    }
    if digits.len() > 1 && digits.starts_with('0') {
        return None;
    }
    digits.parse().ok().map(Json::Number)
}

fn word(chars: &mut Peekable<Chars>) -> Option<Json> {
    let mut word = String::new();
    while let Some(letter) = chars.next_if(char::is_ascii_lowercase) {
        word.push(letter);
    }
    match word.as_str() {
        "null" => Some(Json::Null),
        "true" => Some(Json::Bool(true)),
        "false" => Some(Json::Bool(false)),
        _ => None,
    }
}

fn text(chars: &mut Peekable<Chars>) -> Option<String> {
    chars.next_if_eq(&'"')?;
    let mut text = String::new();
    loop {
        match chars.next()? {
            '"' => return Some(text),
            '\\' => text.push(escaped(chars)?),
            c if c < ' ' => return None,
            c => text.push(c),
        }
    }
}

fn escaped(chars: &mut Peekable<Chars>) -> Option<char> {
    match chars.next()? {
        c @ ('"' | '\\' | '/') => Some(c),
        'n' => Some('\n'),
        't' => Some('\t'),
        'r' => Some('\r'),
        'b' => Some('\u{8}'),
        'f' => Some('\u{c}'),
        'u' => {
            let digits: String = (0..4).filter_map(|_| chars.next_if(char::is_ascii_hexdigit)).collect();
            let unit = (digits.len() == 4).then(|| u32::from_str_radix(&digits, 16).ok())??;
            char::from_u32(unit)
        }
        _ => None,
    }
}

#[cfg(test)]
mod tests {
    use super::*;

    #[test]
    fn documents() {
        let document = parse(" {\"a\": [1, true, null], \"b\\n\\u0041\": {}, \"c\": []} \n").unwrap();
        let list = vec![Json::Number(1), Json::Bool(true), Json::Null];
        let expected = [
            ("a".to_string(), Json::List(list)),
            ("b\nA".to_string(), Json::Object(Vec::new())),
            ("c".to_string(), Json::List(Vec::new())),
        ];
        assert_eq!(document, Json::Object(expected.into()));
    }

    #[test]
    fn what_is_no_document() {
        for wrong in [
            "",
            "{",
            "[1,]",
            "[1 2]",
            "{\"a\" 1}",
            "{a: 1}",
            "\"\n\"",
            "\"\\x\"",
            "01",
            "1 2",
            "nul",
            "\"\\u00",
        ] {
            assert!(parse(wrong).is_err(), "{wrong}");
        }
    }
}
