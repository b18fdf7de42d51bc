//! The inputs of an interactive run.

use crate::threads::{asked, named, Choice};
use text::Token;

/// A line, understood.
pub enum Typed {
    Nothing,
    /// A choice by its number in the list of those that can be done.
    Listed(String),
    Choices(Vec<Choice>),
    Undo,
    WhyNot(Choice),
    List,
    State,
    Save(String),
    Help,
    Quit,
}

pub const HELP: &str = "\
a number             does that one of the choices listed
ask, ask -> serve.2  does this choice, as a list has it; also 1 0, 1 4
undo, u              takes the last choice back
why not T P          why T can't step alone (P left out, or 0), or send to P
list                 the choices done so far
state                the whole state, as run prints it
save PATH            writes the choices done so far to a file
help, ?              these lines
quit, q              ends; so does the end of the input
A session with the name of an input is chosen by its thread's number: 1 0";

/// Understands a line; `#` starts a comment.
pub fn read(line: &str, sessions: &[String]) -> Result<Typed, String> {
    let tokens = text::tokens(1, line);
    let words: Vec<&str> = tokens.iter().map(|token| token.text.as_str()).collect();
    match words[..] {
        [] => Ok(Typed::Nothing),
        ["undo" | "u"] => Ok(Typed::Undo),
        ["list"] => Ok(Typed::List),
        ["state"] => Ok(Typed::State),
        ["help" | "?"] => Ok(Typed::Help),
        ["quit" | "q"] => Ok(Typed::Quit),
        ["why", "not", ..] => {
            let choice = asked(&tokens[2..], sessions).map_err(|flaw| flaw.what)?;
            Ok(Typed::WhyNot(choice))
        }
        ["save", ..] => path(line),
        [number] if number.bytes().all(|byte| byte.is_ascii_digit()) => {
            Ok(Typed::Listed(number.to_string()))
        }
        _ => choices(&tokens, sessions),
    }
}

/// The rest of the line after `save`.
fn path(line: &str) -> Result<Typed, String> {
    match line.trim().strip_prefix("save").map(str::trim) {
        None | Some("") => Err("save needs the name of a file".to_string()),
        Some(path) => Ok(Typed::Save(path.to_string())),
    }
}

fn choices(tokens: &[Token], sessions: &[String]) -> Result<Typed, String> {
    named(tokens, Some(sessions))
        .map(Typed::Choices)
        .map_err(|flaws| flaws.into_iter().map(|flaw| flaw.what).next())
        .map_err(|what| what.unwrap_or_default() + "; help lists the inputs")
}
