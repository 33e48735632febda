//! One JSON document (RFC 8259).

use std::fmt;
use std::path::Path;

#[derive(Clone, Debug, PartialEq)]
pub enum Json {
    Null,
    Bool(bool),
    Number(u64),
    Text(String),
    List(Vec<Json>),
    Object(Vec<(&'static str, Json)>),
}

impl From<bool> for Json {
    fn from(value: bool) -> Json {
        Json::Bool(value)
    }
}

impl From<u64> for Json {
    fn from(value: u64) -> Json {
        Json::Number(value)
    }
}

impl From<&str> for Json {
    fn from(value: &str) -> Json {
        Json::Text(value.to_string())
    }
}

impl From<String> for Json {
    fn from(value: String) -> Json {
        Json::Text(value)
    }
}

/// As text, as far as it is UTF-8.
impl From<&Path> for Json {
    fn from(value: &Path) -> Json {
        Json::Text(value.to_string_lossy().into_owned())
    }
}

impl<T: Into<Json>> From<Option<T>> for Json {
    fn from(value: Option<T>) -> Json {
        value.map_or(Json::Null, Into::into)
    }
}

impl<T: Into<Json>> FromIterator<T> for Json {
    fn from_iter<I: IntoIterator<Item = T>>(values: I) -> Json {
        Json::List(values.into_iter().map(Into::into).collect())
    }
}

impl fmt::Display for Json {
    fn fmt(&self, f: &mut fmt::Formatter<'_>) -> fmt::Result {
        match self {
            Json::Null => f.write_str("null"),
            Json::Bool(value) => write!(f, "{value}"),
            Json::Number(value) => write!(f, "{value}"),
            Json::Text(text) => quoted(f, text),
            Json::List(values) => bracketed(f, ('[', ']'), values, |f, value| write!(f, "{value}")),
            Json::Object(fields) => bracketed(f, ('{', '}'), fields, |f, (key, value)| {
                quoted(f, key)?;
                write!(f, ": {value}")
            }),
        }
    }
}

fn bracketed<T>(
    f: &mut fmt::Formatter<'_>,
    (open, close): (char, char),
    items: &[T],
    write_item: impl Fn(&mut fmt::Formatter<'_>, &T) -> fmt::Result,
) -> fmt::Result {
    write!(f, "{open}")?;
    for (place, item) in items.iter().enumerate() {
        if place > 0 {
            f.write_str(", ")?;
        }
        write_item(f, item)?;
    }
    write!(f, "{close}")
}

/// Quotation mark, backslash and control characters are escaped; all else stands as it is.
fn quoted(f: &mut fmt::Formatter<'_>, text: &str) -> fmt::Result {
    f.write_str("\"")?;
    for c in text.chars() {
        match c {
            '"' | '\\' => write!(f, "\\{c}")?,
            '\n' => f.write_str("\\n")?,
            '\t' => f.write_str("\\t")?,
            c if c.is_control() => write!(f, "\\u{:04x}", u32::from(c))?,
            c => write!(f, "{c}")?,
        }
    }
    f.write_str("\"")
}

#[cfg(test)]
mod tests {
    use super::*;

    #[test]
    fn strings_are_escaped() {
        let written = |text: &str| Json::from(text).to_string();
        assert_eq!(written("boot"), r#""boot""#);
        assert_eq!(written("a\"b\\c"), r#""a\"b\\c""#);
        assert_eq!(written("\n\t\r\0\u{1f}\u{7f}\u{9b}"), r#""\n\t\u000d\u0000\u001f\u007f\u009b""#);
        assert_eq!(written("Größe 𝄞"), "\"Größe 𝄞\"");
    }

    #[test]
    fn documents() {
        let document = Json::Object(vec![
            ("n", u64::MAX.into()),
            ("none", Json::from(None::<u64>)),
            ("list", [1u64, 2].into_iter().collect()),
            ("empty", Json::List(Vec::new())),
            ("inner", Json::Object(vec![("yes", true.into())])),
        ]);
        let expected = r#"{"n": 18446744073709551615, "none": null, "list": [1, 2], "empty": [], "inner": {"yes": true}}"#;
        assert_eq!(document.to_string(), expected);
    }
}
