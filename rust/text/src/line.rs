//! The lines of a text, and the words in them.

use crate::printable::{is_plain, units};

/// A stretch of a line.
#[derive(Clone, Copy, Debug, Default, PartialEq, Eq)]
pub struct At {
    /// The line, from 1.
    pub line: usize,
    /// Its first character, from 1.
    pub column: usize,
    /// How many characters it has.
    pub width: usize,
}

/// Something in the text that can't be understood.
#[derive(Clone, Debug, PartialEq, Eq)]
pub struct Flaw {
    pub at: At,
    pub what: String,
}

/// How many flaws are looked for: behind so many the rest of a text isn't read.
pub const MOST_FLAWS: usize = 1_000;

/// The outcome of reading something: what it says, or its flaws, of which it has at most
/// [`MOST_FLAWS`].
pub fn unless_flawed<T>(read: T, mut flaws: Vec<Flaw>) -> Result<T, Vec<Flaw>> {
    flaws.truncate(MOST_FLAWS);
    match flaws.is_empty() {
        true => Ok(read),
        false => Err(flaws),
    }
}

/// A word, or a sign.
#[derive(Clone, Debug)]
pub struct Token {
    pub text: String,
    pub at: At,
}

impl Token {
    /// Whether it can be a name, by its letters.
    pub fn is_name(&self) -> bool {
        self.text.starts_with(char::is_alphabetic)
    }
}

/// A line that isn't blank up to its comment.
#[derive(Clone, Debug)]
pub struct Line {
    /// How many characters stand before its first word.
    pub indent: usize,
    /// Whether a tab is one of them.
    pub tabbed: bool,
    pub tokens: Vec<Token>,
}

impl Line {
    /// All of it, from the first word to the last.
    pub fn at(&self) -> At {
        let [first, .., last] = &self.tokens[..] else {
            return self.tokens.first().map_or(At::default(), |token| token.at);
        };
        At {
            width: last.at.column + last.at.width - first.at.column,
            ..first.at
        }
    }

    /// The place after its last word.
    pub fn end(&self) -> At {
        let at = self.at();
        At {
            column: at.column + at.width,
            width: 1,
            ..at
        }
    }
}

/// The lines that say something; `#` starts a comment. A tab before a line's first
/// word is a flaw.
pub fn lines(text: &str) -> (Vec<Line>, Vec<Flaw>) {
    let (mut lines, mut flaws) = (Vec::new(), Vec::new());
    for (number, text) in (1..).zip(text.split('\n')) {
        let tokens = tokens(number, text);
        let Some(first) = tokens.first() else {
            continue;
        };
        let indent = first.at.column - 1;
        let tab = text.chars().take(indent).position(|c| c == '\t');
        if let (Some(tab), true) = (tab, flaws.len() < MOST_FLAWS) {
            flaws.push(Flaw {
                at: At {
                    line: number,
                    column: tab + 1,
                    width: 1,
                },
                what: "a tab; lines are indented by spaces".to_string(),
            });
        }
        lines.push(Line {
            indent,
            tabbed: tab.is_some(),
            tokens,
        });
    }
    (lines, flaws)
}

/// The words and signs of a line, up to its comment.
pub fn tokens(line: usize, text: &str) -> Vec<Token> {
    let mut tokens: Vec<Token> = Vec::new();
    let mut rest = text.trim_start_matches(' ');
    let mut column = text.len() - rest.len() + 1;
    while let Some(first) = rest.chars().next() {
        if first == '#' {
            break;
        }
        let length = match first {
            '-' if is_arrow(rest) => 2,
            _ if is_of_word(first) => word_length(rest),
            _ => first.len_utf8(),
        };
        let (word, behind) = rest.split_at(length);
        let width = word.chars().count();
        if !first.is_whitespace() {
            tokens.push(Token {
                text: word.to_string(),
                at: At {
                    line,
                    column,
                    width,
                },
            });
        }
        column += width;
        rest = behind;
    }
    tokens
}

/// How many bytes the word has that a text begins with. An arrow ends it.
fn word_length(text: &str) -> usize {
    let ends = |&(at, c): &(usize, char)| !is_of_word(c) || (c == '-' && is_arrow(&text[at..]));
    let end = text.char_indices().find(ends);
    end.map_or(text.len(), |(at, _)| at)
}

fn is_arrow(text: &str) -> bool {
    text.starts_with("->")
}

fn is_of_word(c: char) -> bool {
    c.is_alphanumeric() || c == '_' || c == '-'
}

/// The most characters of a word that a message shows.
const SHOWN: usize = 40;

/// A word of a text in a message, as it can be printed and not too long.
pub fn shown(word: impl AsRef<[u8]>) -> String {
    let word = word.as_ref();
    let start = &word[..word.len().min(SHOWN)];
    match std::str::from_utf8(start) {
        Ok(plain) if is_plain(plain) => plain.to_string(),
        _ => units(word, 0).take(SHOWN).collect(),
    }
}
