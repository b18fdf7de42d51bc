//! A line read word by word.

use crate::line::{shown, At, Flaw, Line, Token};

/// The words of the form, which are no names.
const RESERVED: [&str; 21] = [
    "clinic", "kind", "role", "user", "channel", "session", "carries", "send", "receive",
    "juniors", "owner", "by", "as", "on", "off", "new", "fork", "branch", "repeat", "compare",
    "with",
];

/// The most characters of a name. An answer may name a thing at each of 65,535 choices.
pub const LONGEST_NAME: usize = 100;

/// Whether the form has this word itself.
pub fn is_reserved(word: &str) -> bool {
    RESERVED.contains(&word)
}

/// A line, read up to some word.
pub struct Cursor<'a> {
    line: &'a Line,
    next: usize,
}

impl<'a> Cursor<'a> {
    pub fn new(line: &'a Line) -> Cursor<'a> {
        Cursor { line, next: 0 }
    }

    /// The next word, which is left where it is.
    pub fn peek(&self) -> Option<&'a str> {
        self.token().map(|token| token.text.as_str())
    }

    pub fn token(&self) -> Option<&'a Token> {
        self.line.tokens.get(self.next)
    }

    pub fn skip(&mut self) {
        self.next += 1;
    }

    /// Goes past the next word, if it is this one.
    pub fn takes(&mut self, word: &str) -> bool {
        let is_next = self.peek() == Some(word);
        self.next += usize::from(is_next);
        is_next
    }

    /// Goes past this word.
    pub fn word(&mut self, word: &str) -> Result<(), Flaw> {
        match self.takes(word) {
            true => Ok(()),
            false => self.expected(&format!("'{word}'")),
        }
    }

    /// Goes past a name.
    pub fn name(&mut self, what: &str) -> Result<&'a Token, Flaw> {
        match self.token() {
            Some(token) if is_reserved(&token.text) => {
                let word = &token.text;
                let what = format!("expected {what}: '{word}' is a reserved word");
                Err(Flaw { at: token.at, what })
            }
            Some(token) if token.is_name() && token.at.width > LONGEST_NAME => {
                let width = token.at.width;
                let what =
                    format!("a name of {width} characters: a name has at most {LONGEST_NAME}");
                Err(Flaw { at: token.at, what })
            }
            Some(token) if token.is_name() => {
                self.skip();
                Ok(token)
            }
            _ => self.expected(what),
        }
    }

    /// Goes past a word that white space, a comma or a semicolon ends, whatever signs are in
    /// it.
    pub fn spaced(&mut self, what: &str) -> Result<Token, Flaw> {
        let is_sign = |token: &Token| matches!(&token.text[..], "," | ";");
        let Some(first) = self.token().filter(|token| !is_sign(token)) else {
            return self.expected(what);
        };
        let (mut text, mut end) = (String::new(), first.at.column);
        while let Some(token) = self.token() {
            if is_sign(token) || token.at.column != end {
                break;
            }
            text += &token.text;
            end += token.at.width;
            self.skip();
        }
        let width = end - first.at.column;
        let at = At { width, ..first.at };
        Ok(Token { text, at })
    }

    /// Nothing more is due.
    pub fn end(&self) -> Result<(), Flaw> {
        self.end_or("")
    }

    /// Nothing more is due, but the line could have gone on with this word: `"':' or "`.
    pub fn end_or(&self, word: &str) -> Result<(), Flaw> {
        match self.token() {
            None => Ok(()),
            Some(_) => self.expected(&format!("{word}the end of the line")),
        }
    }

    /// The flaw that something else stands here.
    pub fn expected<T>(&self, what: &str) -> Result<T, Flaw> {
        Err(match self.token() {
            Some(token) => Flaw {
                at: token.at,
                what: format!("expected {what}, not '{}'", shown(&token.text)),
            },
            None => Flaw {
                at: self.line.end(),
                what: format!("expected {what}, but the line ends"),
            },
        })
    }
}
