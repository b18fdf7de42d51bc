//! A strict reader of JSON, for the tests: whatever isn't JSON is refused, and so are keys
//! that stand there twice and numbers that aren't whole.

use crate::common::Answer;
use std::ops::Index;

#[derive(Clone, Debug, PartialEq)]
pub enum Value {
    Null,
    Truth(bool),
    Number(u64),
    Text(String),
    List(Vec<Value>),
    Object(Vec<(String, Value)>),
}

impl Value {
    pub fn text(&self) -> &str {
        match self {
            Value::Text(text) => text,
            other => panic!("a string is due, not {other:?}"),
        }
    }

    pub fn number(&self) -> usize {
        match self {
            Value::Number(number) => *number as usize,
            other => panic!("a number is due, not {other:?}"),
        }
    }

    pub fn word(&self) -> u16 {
        self.number().try_into().expect("a word")
    }

    pub fn list(&self) -> &[Value] {
        match self {
            Value::List(list) => list,
            other => panic!("a list is due, not {other:?}"),
        }
    }

    pub fn pairs(&self) -> &[(String, Value)] {
        match self {
            Value::Object(pairs) => pairs,
            other => panic!("an object is due, not {other:?}"),
        }
    }

    pub fn keys(&self) -> Vec<&str> {
        self.pairs().iter().map(|(key, _)| key.as_str()).collect()
    }

    pub fn is_null(&self) -> bool {
        *self == Value::Null
    }

    /// What stands there, unless it is null.
    pub fn some(&self) -> Option<&Value> {
        Some(self).filter(|value| !value.is_null())
    }
}

impl Index<&str> for Value {
    type Output = Value;

    fn index(&self, key: &str) -> &Value {
        let mut pairs = self.pairs().iter();
        let pair = pairs.find(|(found, _)| found == key);
        &pair.unwrap_or_else(|| panic!("no key {key}: {self:?}")).1
    }
}

impl Index<usize> for Value {
    type Output = Value;

    fn index(&self, at: usize) -> &Value {
        &self.list()[at]
    }
}

/// The object that an answer is: one line on standard output, and nothing on standard
/// error.
pub fn object(answer: &Answer) -> Value {
    assert_eq!(answer.err, "");
    assert!(matches!(answer.status, 0 | 1), "{answer:?}");
    one_line(answer.text())
}

/// The object on a line.
pub fn one_line(text: &str) -> Value {
    let line = text.strip_suffix('\n').expect("a whole line");
    assert!(!line.contains(char::is_control), "{line:?}");
    let value = parsed(line).unwrap_or_else(|why| panic!("{why}: {line}"));
    assert!(matches!(value, Value::Object(_)), "{line}");
    value
}

/// The value that a text is.
pub fn parsed(text: &str) -> Result<Value, String> {
    let mut reader = Reader {
        bytes: text.as_bytes(),
        at: 0,
    };
    let value = reader.value()?;
    reader.skip_blanks();
    match reader.at == text.len() {
        true => Ok(value),
        false => reader.wrong("the end"),
    }
}

struct Reader<'a> {
    bytes: &'a [u8],
    at: usize,
}

impl Reader<'_> {
    fn wrong<T>(&self, due: &str) -> Result<T, String> {
        Err(format!("{due} is due at byte {}", self.at))
    }

    fn skip_blanks(&mut self) {
        while let Some(b' ' | b'\t' | b'\n' | b'\r') = self.bytes.get(self.at) {
            self.at += 1;
        }
    }

    /// The next byte that is no blank.
    fn peek(&mut self) -> Option<u8> {
        self.skip_blanks();
        self.bytes.get(self.at).copied()
    }

    fn takes(&mut self, token: &str) -> bool {
        self.skip_blanks();
        let takes = self.bytes[self.at..].starts_with(token.as_bytes());
        self.at += if takes { token.len() } else { 0 };
        takes
    }

    fn due(&mut self, token: &str) -> Result<(), String> {
        match self.takes(token) {
            true => Ok(()),
            false => self.wrong(token),
        }
    }

    fn value(&mut self) -> Result<Value, String> {
        match self.peek() {
            Some(b'n') => self.due("null").map(|()| Value::Null),
            Some(b't') => self.due("true").map(|()| Value::Truth(true)),
            Some(b'f') => self.due("false").map(|()| Value::Truth(false)),
            Some(b'0'..=b'9') => self.whole().map(Value::Number),
            Some(b'"') => self.string().map(Value::Text),
            Some(b'[') => self.items().map(Value::List),
            Some(b'{') => self.object().map(Value::Object),
            _ => self.wrong("a value"),
        }
    }

    fn whole(&mut self) -> Result<u64, String> {
        let rest = &self.bytes[self.at..];
        let digits = rest.iter().take_while(|byte| byte.is_ascii_digit()).count();
        let text = std::str::from_utf8(&rest[..digits]).expect("digits");
        if digits > 1 && text.starts_with('0') {
            return self.wrong("a number without a leading zero");
        }
        let number = text.parse().or_else(|_| self.wrong("a number of 64 bits"));
        self.at += digits;
        number
    }

    fn items(&mut self) -> Result<Vec<Value>, String> {
        self.due("[")?;
        let mut items = Vec::new();
        if self.takes("]") {
            return Ok(items);
        }
        loop {
            items.push(self.value()?);
            if self.takes("]") {
                return Ok(items);
            }
            self.due(",")?;
        }
    }

    fn object(&mut self) -> Result<Vec<(String, Value)>, String> {
        self.due("{")?;
        let mut pairs: Vec<(String, Value)> = Vec::new();
        if self.takes("}") {
            return Ok(pairs);
        }
        loop {
            let Some(b'"') = self.peek() else {
                return self.wrong("a key");
            };
            let key = self.string()?;
            if pairs.iter().any(|(found, _)| *found == key) {
                return self.wrong("another key");
            }
            self.due(":")?;
            pairs.push((key, self.value()?));
            if self.takes("}") {
                return Ok(pairs);
            }
            self.due(",")?;
        }
    }

    fn string(&mut self) -> Result<String, String> {
        self.due("\"")?;
        let mut text = Vec::new();
        loop {
            let Some(&byte) = self.bytes.get(self.at) else {
                return self.wrong("a quote");
            };
            self.at += 1;
            match byte {
                b'"' => return String::from_utf8(text).or_else(|_| self.wrong("UTF-8")),
                b'\\' => {
                    let c = self.escaped()?;
                    text.extend(c.encode_utf8(&mut [0; 4]).bytes());
                }
                0..=0x1f => return self.wrong("no control character"),
                byte => text.push(byte),
            }
        }
    }

    /// The character that an escape stands for.
    fn escaped(&mut self) -> Result<char, String> {
        let byte = self.bytes.get(self.at).copied();
        self.at += 1;
        Ok(match byte {
            Some(plain @ (b'"' | b'\\' | b'/')) => plain.into(),
            Some(b'b') => '\u{8}',
            Some(b'f') => '\u{c}',
            Some(b'n') => '\n',
            Some(b'r') => '\r',
            Some(b't') => '\t',
            Some(b'u') => {
                let mut units = vec![self.unit()?];
                if matches!(units[0], 0xd800..=0xdbff) && self.bytes[self.at..].starts_with(b"\\u")
                {
                    self.at += 2;
                    units.push(self.unit()?);
                }
                match char::decode_utf16(units).collect::<Result<Vec<_>, _>>() {
                    Ok(chars) if chars.len() == 1 => chars[0],
                    _ => return self.wrong("a character"),
                }
            }
            _ => return self.wrong("an escape"),
        })
    }

    /// The four digits of an escape.
    fn unit(&mut self) -> Result<u16, String> {
        let digits = self.bytes.get(self.at..self.at + 4);
        let digits = digits.filter(|digits| digits.iter().all(u8::is_ascii_hexdigit));
        let text = digits.and_then(|digits| std::str::from_utf8(digits).ok());
        let unit = text.and_then(|text| u16::from_str_radix(text, 16).ok());
        self.at += 4;
        unit.map_or_else(|| self.wrong("four digits"), Ok)
    }
}

#[test]
fn what_is_json() {
    let value = parsed(" {\"a\\n\": [1, 0, 18446744073709551615], \"b\":{},\"\":[]} ").unwrap();
    assert_eq!(value.keys(), ["a\n", "b", ""]);
    assert_eq!(value["a\n"][2], Value::Number(u64::MAX));
    let value = parsed(r#""\"\\\/\b\f\n\r\t\u00e9\ud83d\udecf é""#).unwrap();
    assert_eq!(value.text(), "\"\\/\u{8}\u{c}\n\r\té🛏 é");
    let value = parsed("[null,\ttrue,\r\nfalse]").unwrap();
    let due = [Value::Null, Value::Truth(true), Value::Truth(false)];
    assert_eq!(value.list(), due);
}

#[rustfmt::skip]
const NO_JSON: [&str; 67] = [
    "", " ", "{", "}", "[", "]", "{]", "[}", "[1,]", "[,1]", "[1 2]", "[1,,2]", "[1]]",
    "{\"a\":1,}", "{,}", "{\"a\"}", "{\"a\":}", "{\"a\" 1}", "{\"a\",1}", "{a:1}", "{1:1}",
    "{'a':1}", "{\"a\":1 \"b\":2}", "{\"a\":1,\"a\":2}", "{\"a\":1,\"\\u0061\":1}",
    "{\"a\":{\"b\":1,\"b\":1}}", "nul", "nulll", "Null", "True", "truefalse", "undefined",
    "NaN", "-", "+1", ".5", "1.", "1.5", "1e2", "-1", "01", "00", "0x1", "1,000",
    "18446744073709551616", "\"", "\"a", "a", "\"\\\"", "\"\\x41\"", "\"\\u12\"", "\"\\u12g4\"",
    "\"\\u+123\"", "\"\\ud800\"", "\"\\udc00\"", "\"\\ud800\\u0041\"", "\"\n\"", "\"\t\"",
    "\"\u{0}\"", "\"\u{1f}\"", "\"a\" \"b\"", "1 2", "// a\n1", "[1]#", "\u{feff}1", "\u{a0}1",
    "[1\u{b}]",
];

#[test]
fn what_is_no_json() {
    for text in NO_JSON {
        assert!(parsed(text).is_err(), "{text:?} was read");
    }
}
