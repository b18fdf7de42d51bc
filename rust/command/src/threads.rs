//! Choices as they stand in a list: threads by number or by name.

use text::{shown, unless_flawed, At, Flaw, Token, MOST_FLAWS};

/// A thread by its session's index, and its number in it: 1 is the one that the session
/// starts with, and each that is forked or repeated off has the next.
#[derive(Clone, Copy, Debug, PartialEq)]
pub struct Thread {
    pub session: usize,
    pub number: usize,
}

impl Thread {
    /// `ask`, or `ask.2`.
    pub fn name(self, sessions: &[String]) -> String {
        let session = sessions.get(self.session).map_or("?", String::as_str);
        match self.number {
            1 => session.to_string(),
            number => format!("{session}.{number}"),
        }
    }
}

/// A thread as a choice has it.
#[derive(Clone, Copy, Debug, PartialEq)]
pub enum Who {
    /// By its number in the list of threads; 0 is nobody.
    Numbered(u16),
    Named(Thread),
}

/// A choice as it stands in the text.
#[derive(Clone, Copy, Debug)]
pub struct Choice {
    pub at: At,
    pub thread: Who,
    pub partner: Who,
}

/// The words of all lines.
pub fn tokens(text: &str) -> Vec<Token> {
    (1..)
        .zip(text.split('\n'))
        .flat_map(|(number, line)| text::tokens(number, line))
        .collect()
}

/// The stretch that words of one line have, or the first of several lines.
pub fn over(tokens: &[Token]) -> At {
    let first = tokens.first().map_or(At::default(), |token| token.at);
    let last = tokens.iter().rfind(|token| token.at.line == first.line);
    let last = last.map_or(first, |token| token.at);
    At {
        width: last.column + last.width - first.column,
        ..first
    }
}

/// The choices of a list with names. Where the sessions aren't known, any name is taken for
/// that of one.
pub fn named(tokens: &[Token], sessions: Option<&[String]>) -> Result<Vec<Choice>, Vec<Flaw>> {
    let mut reader = Reader {
        tokens,
        next: 0,
        sessions,
    };
    let (mut choices, mut flaws) = (Vec::new(), Vec::new());
    while reader.next < tokens.len() && flaws.len() <= MOST_FLAWS {
        let start = reader.next;
        match reader.choice() {
            Ok(choice) => choices.push(choice),
            Err(flaw) => {
                flaws.push(flaw);
                reader.skip_line(start);
            }
        }
    }
    unless_flawed(choices, flaws)
}

/// One choice, with or without an arrow, of all these words.
pub fn asked(tokens: &[Token], sessions: &[String]) -> Result<Choice, Flaw> {
    let mut reader = Reader {
        tokens,
        next: 0,
        sessions: Some(sessions),
    };
    let thread = reader.who(THREAD)?;
    let partner = match reader.takes("->") || reader.next < tokens.len() {
        true => reader.who("a thread to meet, or 0")?,
        false => Who::Numbered(0),
    };
    match reader.next < tokens.len() {
        true => reader.expected("no more than two threads"),
        false => Ok(Choice {
            at: over(tokens),
            thread,
            partner,
        }),
    }
}

const THREAD: &str = "a thread: a session's name, with .2 for its second thread, or a number";

struct Reader<'a> {
    tokens: &'a [Token],
    next: usize,
    sessions: Option<&'a [String]>,
}

impl Reader<'_> {
    fn choice(&mut self) -> Result<Choice, Flaw> {
        let start = self.next;
        let thread = self.who(THREAD)?;
        let partner = if self.takes("->") {
            self.who("a thread to meet")?
        } else if let Who::Numbered(_) = thread {
            self.partner()?
        } else {
            Who::Numbered(0)
        };
        let at = over(&self.tokens[start..self.next]);
        Ok(Choice {
            at,
            thread,
            partner,
        })
    }

    fn takes(&mut self, word: &str) -> bool {
        let takes = self.tokens.get(self.next).is_some_and(|t| t.text == word);
        self.next += usize::from(takes);
        takes
    }

    /// The number after a number.
    fn partner(&mut self) -> Result<Who, Flaw> {
        let due = "'->' and a thread, or the partner's number (0 if it steps alone)";
        let start = self.next;
        match self.who(due)? {
            Who::Named(_) => {
                self.next = start;
                self.expected(due)
            }
            who => Ok(who),
        }
    }

    fn who(&mut self, due: &str) -> Result<Who, Flaw> {
        let Some(token) = self.tokens.get(self.next) else {
            return self.expected(due);
        };
        if let Ok(number) = token.text.parse() {
            self.next += 1;
            return Ok(Who::Numbered(number));
        }
        if token.text.bytes().all(|byte| byte.is_ascii_digit()) {
            let what = format!("'{}' isn't a number from 0 to 65535", shown(&token.text));
            return Err(Flaw { at: token.at, what });
        }
        if !token.is_name() {
            return self.expected(due);
        }
        let session = self.session(token)?;
        self.next += 1;
        let mut number = 1;
        if self.takes(".") {
            let token = self.tokens.get(self.next);
            number = match token.and_then(|token| token.text.parse().ok()) {
                Some(number @ 1..) => number,
                _ => return self.expected("a thread's number in its session, from 1"),
            };
            self.next += 1;
        }
        Ok(Who::Named(Thread { session, number }))
    }

    /// The index of the session of this name.
    fn session(&self, token: &Token) -> Result<usize, Flaw> {
        let Some(sessions) = self.sessions else {
            return Ok(0);
        };
        let found = sessions.iter().position(|name| *name == token.text);
        found.ok_or_else(|| {
            let sessions = match sessions {
                [] => "there are no sessions".to_string(),
                sessions => format!("sessions: {}", sessions.join(", ")),
            };
            let what = format!("there is no session '{}' ({sessions})", shown(&token.text));
            Flaw { at: token.at, what }
        })
    }

    fn expected<T>(&self, what: &str) -> Result<T, Flaw> {
        Err(match (self.tokens.get(self.next), self.tokens.last()) {
            (Some(token), _) => {
                let what = format!("expected {what}, not '{}'", shown(&token.text));
                Flaw { at: token.at, what }
            }
            (None, last) => {
                let at = last.map_or(At::default(), |token| At {
                    column: token.at.column + token.at.width,
                    width: 1,
                    ..token.at
                });
                let what = format!("expected {what}, but the list ends");
                Flaw { at, what }
            }
        })
    }

    /// Goes on after the line of this word.
    fn skip_line(&mut self, start: usize) {
        let at = start.max(self.next.min(self.tokens.len() - 1));
        let line = self.tokens[at].at.line;
        let rest = self.tokens[at..].iter();
        self.next = at + rest.take_while(|token| token.at.line == line).count();
    }
}
