//! JSON, written on one line.

use std::fmt::{self, Display, Formatter, Write};

/// A value. Numbers are whole, and the keys of an object stand in the order in which they
/// are given.
#[derive(Clone, Debug, PartialEq)]
pub enum Json {
    Null,
    Truth(bool),
    Number(u64),
    Text(String),
    List(Vec<Json>),
    Object(Vec<(String, Json)>),
}

/// An object with these keys.
pub fn object<K: ToString>(pairs: impl IntoIterator<Item = (K, Json)>) -> Json {
    let named = |(key, value): (K, Json)| (key.to_string(), value);
    Json::Object(pairs.into_iter().map(named).collect())
}

/// A list of these values.
pub fn list<V: Into<Json>>(values: impl IntoIterator<Item = V>) -> Json {
    Json::List(values.into_iter().map(V::into).collect())
}

impl From<bool> for Json {
    fn from(truth: bool) -> Json {
        Json::Truth(truth)
    }
}

impl From<u16> for Json {
    fn from(number: u16) -> Json {
        Json::Number(number.into())
    }
}

impl From<u32> for Json {
    fn from(number: u32) -> Json {
        Json::Number(number.into())
    }
}

impl From<usize> for Json {
    fn from(number: usize) -> Json {
        Json::Number(number as u64)
    }
}

impl From<&str> for Json {
    fn from(text: &str) -> Json {
        Json::Text(text.to_string())
    }
}

impl From<String> for Json {
    fn from(text: String) -> Json {
        Json::Text(text)
    }
}

/// What isn't there is null.
impl<V: Into<Json>> From<Option<V>> for Json {
    fn from(value: Option<V>) -> Json {
        value.map_or(Json::Null, V::into)
    }
}

impl Display for Json {
    fn fmt(&self, out: &mut Formatter<'_>) -> fmt::Result {
        match self {
            Json::Null => out.write_str("null"),
            Json::Truth(truth) => truth.fmt(out),
            Json::Number(number) => number.fmt(out),
            Json::Text(text) => quoted(out, text),
            Json::List(values) => {
                out.write_char('[')?;
                for (at, value) in values.iter().enumerate() {
                    out.write_str(between(at))?;
                    value.fmt(out)?;
                }
                out.write_char(']')
            }
            Json::Object(pairs) => {
                out.write_char('{')?;
                for (at, (key, value)) in pairs.iter().enumerate() {
                    out.write_str(between(at))?;
                    quoted(out, key)?;
                    write!(out, ": {value}")?;
                }
                out.write_char('}')
            }
        }
    }
}

/// What stands before the value at this place.
fn between(at: usize) -> &'static str {
    match at {
        0 => "",
        _ => ", ",
    }
}

/// A string in quotes. Control characters are escaped, those above ASCII too, so that a
/// line stays one at any terminal.
fn quoted(out: &mut Formatter<'_>, text: &str) -> fmt::Result {
    out.write_char('"')?;
    for c in text.chars() {
        match c {
            '"' => out.write_str("\\\"")?,
            '\\' => out.write_str("\\\\")?,
            '\n' => out.write_str("\\n")?,
            '\r' => out.write_str("\\r")?,
            '\t' => out.write_str("\\t")?,
            c if c.is_control() || matches!(c, '\u{2028}' | '\u{2029}') => {
                write!(out, "\\u{:04x}", u32::from(c))?;
            }
            c => out.write_char(c)?,
        }
    }
    out.write_char('"')
}

#[cfg(test)]
mod tests {
    use super::*;

    #[test]
    fn values_on_one_line() {
        assert_eq!(Json::Null.to_string(), "null");
        assert_eq!(list([true, false]).to_string(), "[true, false]");
        assert_eq!(list([u16::MAX, 0]).to_string(), "[65535, 0]");
        assert_eq!(Json::from(u32::MAX).to_string(), "4294967295");
        assert_eq!(object([("", Json::List(vec![]))]).to_string(), "{\"\": []}");
        let pairs = [("b", Json::from(1_usize)), ("a", None::<u16>.into())];
        assert_eq!(object(pairs).to_string(), "{\"b\": 1, \"a\": null}");
        assert_eq!(Json::Object(vec![]).to_string(), "{}");
    }

    #[test]
    fn strings_are_escaped() {
        let written = |text: &str| Json::from(text).to_string();
        assert_eq!(written("a \"b\" \\c/"), r#""a \"b\" \\c/""#);
        assert_eq!(written("\n\r\t\u{8}\u{c}"), r#""\n\r\t\u0008\u000c""#);
        assert_eq!(written("\0\u{1b}\u{1f} "), r#""\u0000\u001b\u001f ""#);
        assert_eq!(written("\u{7f}\u{85}\u{2028}"), r#""\u007f\u0085\u2028""#);
        assert_eq!(written("über 🛏"), "\"über 🛏\"");
    }
}
