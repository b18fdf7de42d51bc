//! Lists of choices, in which threads may have names: `ask`, `ask.2`, and `ask -> serve`
//! for a meeting.

use crate::choices;
use crate::follow::{Follower, Seating};
use crate::input::{decoded, flawed, Input};
use crate::seats::Table;
use crate::threads::{named, over, tokens, Choice, Thread, Who};
use crate::WrongUse;
use pilzdamo::Desk;
use std::ops::Range;
use text::At;

/// The most choices of a run.
pub const MOST: usize = 65_535;

/// Said of names that bytes don't have.
const NAMES: &str =
    "bytes have no names, and their sessions are s1, s2 and so on; --names NAMES gives them names";

/// A list, in the engine's words.
pub struct List {
    pub name: String,
    text: Vec<u8>,
    /// Two for each choice. Behind a named choice that is refused there are none.
    pub words: Vec<u16>,
    places: Vec<At>,
    pub followed: Followed,
}

/// Where a list leads.
#[derive(Debug, Default, PartialEq)]
pub struct Followed {
    words: Vec<u16>,
    /// The threads at its end, or where it halts.
    pub threads: Vec<Thread>,
    /// For each choice its thread, and its partner if it has one.
    met: Vec<[Option<Thread>; 2]>,
    /// A named thread that isn't there at the choice at which it halts.
    pub missing: Option<Thread>,
    /// The indices of the choices that got no seat.
    waited: Vec<usize>,
}

impl List {
    /// A text read as a list for a file, whose roles may have seats.
    pub fn of(
        name: String,
        bytes: &[u8],
        input: &Input,
        table: Option<&Table>,
    ) -> Result<List, WrongUse> {
        match choices::numbers(bytes) {
            Ok(words) => Ok(List::of_numbers(name, bytes, words, input, table)),
            Err(_) => List::of_names(name, bytes, input, table),
        }
    }

    fn of_numbers(
        name: String,
        bytes: &[u8],
        words: Vec<u16>,
        input: &Input,
        table: Option<&Table>,
    ) -> List {
        let tokens = tokens(&String::from_utf8_lossy(bytes));
        List {
            name,
            text: bytes.to_vec(),
            places: tokens.chunks(2).map(over).collect(),
            followed: followed(input, &words, table),
            words,
        }
    }

    fn of_names(
        name: String,
        bytes: &[u8],
        input: &Input,
        table: Option<&Table>,
    ) -> Result<List, WrongUse> {
        let text = decoded(&name, bytes)?;
        let (tokens, sessions) = (tokens(text), input.sessions());
        // A refused file is reported first, whatever names the list has.
        let known = Desk::start(input).is_ok().then_some(&sessions[..]);
        let choices = named(&tokens, known).map_err(|flaws| {
            let WrongUse(why) = flawed(&name, text, &flaws);
            let only_names = named(&tokens, None).is_ok();
            match only_names && input.text.is_none() && !sessions.is_empty() {
                true => WrongUse(format!("{why}\n  {NAMES}")),
                false => WrongUse(why),
            }
        })?;
        let mut followed = follow(input, &choices, table);
        Ok(List {
            name,
            text: bytes.to_vec(),
            words: std::mem::take(&mut followed.words),
            places: choices.iter().map(|choice| choice.at).collect(),
            followed,
        })
    }

    /// A message about the choice of this number.
    pub fn told(&self, choice: u16, what: &str) -> Option<String> {
        let at = self.place(choice)?;
        Some(text::told(&self.name, &self.text, at, what))
    }

    /// Where the choice of this number stands.
    pub fn place(&self, choice: u16) -> Option<At> {
        let at = usize::from(choice).checked_sub(1)?;
        self.places.get(at).copied()
    }

    /// The name of a thread where the list leads, if the file has names.
    pub fn thread(&self, input: &Input, number: u16) -> Option<String> {
        let text = input.text.as_ref()?;
        let thread = self
            .followed
            .threads
            .get(usize::from(number).checked_sub(1)?)?;
        Some(thread.name(&text.sessions()))
    }

    /// The thread and partner of the choice of this number.
    pub fn choice(&self, number: u16) -> Option<[u16; 2]> {
        let at = usize::from(number).checked_sub(1)?;
        self.words.as_chunks().0.get(at).copied()
    }
}

/// Where a list of numbers leads, of a text alone.
pub fn followed(input: &Input, words: &[u16], table: Option<&Table>) -> Followed {
    match input.text {
        Some(_) => follow(input, &numbered(words), table),
        None => Followed::default(),
    }
}

/// The indices of those of these choices that get no seat.
pub fn waited(input: &Input, words: &[u16], table: Option<&Table>) -> Vec<usize> {
    match table {
        None => Vec::new(),
        Some(_) => follow(input, &numbered(words), table).waited,
    }
}

fn numbered(words: &[u16]) -> Vec<Choice> {
    let choice = |&[thread, partner]: &[u16; 2]| Choice {
        at: At::default(),
        thread: Who::Numbered(thread),
        partner: Who::Numbered(partner),
    };
    words.as_chunks().0.iter().map(choice).collect()
}

/// Follows a list, and gives each named thread its number in the list of threads at that
/// choice.
fn follow(input: &Input, choices: &[Choice], table: Option<&Table>) -> Followed {
    let quick = walk(input, choices, Seating::by(table));
    quick.unwrap_or_else(|| {
        let slow = table.and_then(|table| walk(input, choices, Seating::Asked(table)));
        slow.unwrap_or_default()
    })
}

/// Follows a list with seats that are known so; none where the engine answers otherwise.
fn walk(input: &Input, choices: &[Choice], seating: Seating) -> Option<Followed> {
    let mut followed = Followed::default();
    let start = Follower::start(input, seating);
    let (Ok(mut run), true) = (start, choices.len() <= MOST) else {
        // The engine refuses the file, or the length of the list.
        followed.words = vec![0; 2 * choices.len()];
        return Some(followed);
    };
    for choice in choices {
        let found = [choice.thread, choice.partner].map(|who| run.roll.number(who));
        let [Ok(thread), Ok(partner)] = found else {
            followed.missing = found.into_iter().find_map(Result::err);
            run.words.extend([0, 0]);
            break;
        };
        let met = [thread, partner].map(|number| {
            let index = usize::from(number).checked_sub(1)?;
            run.roll.threads.get(index).copied()
        });
        followed.met.push(met);
        if !run.choose(thread, partner) {
            break;
        }
    }
    let agrees = run.agrees();
    (followed.words, followed.threads) = (run.words, run.roll.threads);
    followed.waited = run.waited;
    agrees.then_some(followed)
}

/// Some of the choices of a list in a line, as they are read: of a text in its names.
pub fn line(input: &Input, followed: &Followed, words: &[u16], choices: Range<usize>) -> String {
    match input.text {
        Some(_) => followed.line(&input.sessions(), choices),
        None => choices::line(&words[2 * choices.start..2 * choices.end]),
    }
}

impl Followed {
    /// Some of its choices in a line, as they are read.
    fn line(&self, sessions: &[String], choices: Range<usize>) -> String {
        let met = self.met.get(choices).unwrap_or_default().iter();
        let texts: Vec<String> = met
            .map(|threads| {
                let names = threads.iter().flatten().map(|thread| thread.name(sessions));
                names.collect::<Vec<_>>().join(" -> ")
            })
            .collect();
        texts.join("  ")
    }
}

#[cfg(test)]
mod tests;
