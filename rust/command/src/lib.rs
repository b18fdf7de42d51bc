//! What the command does. The engine judges, places and runs; this crate reads
//! arguments and files and prints answers.

#![deny(unsafe_code)]

mod asked;
mod called;
mod checking;
mod choices;
mod clinic;
mod course;
mod days;
mod explain;
mod faults;
mod follow;
mod following;
mod hours;
mod input;
mod interactive;
mod jobs;
mod joining;
mod json;
mod length;
mod lines;
mod listed;
mod lists;
mod merging;
mod named;
mod names;
mod notices;
mod objects;
mod output;
mod packing;
mod page;
mod placing;
mod reading;
mod reasons;
mod records;
mod refusals;
mod report;
mod roll;
mod rounds;
mod runs;
mod scheduling;
mod seats;
mod sessions;
mod sheets;
pub mod show;
mod shown;
#[allow(unsafe_code)]
mod signals;
mod source;
mod spaced;
mod standing;
mod state;
mod svg;
mod threads;
mod tree;
mod turning;
mod typed;
mod words;
mod writing;

use std::ffi::OsString;

/// What a job came to, the worst last.
#[derive(Clone, Copy, PartialEq, Eq, PartialOrd, Ord)]
enum Outcome {
    Answer,
    Refusal,
    /// There was wrong use, which has been reported.
    Unanswered,
}

/// Why there is neither an answer nor a refusal of the engine's: words that can't be
/// understood, or a file that can't be read or written. Without words it is what the command
/// itself refuses, which has been reported.
struct WrongUse(String);

impl WrongUse {
    /// Reports what the command itself refuses.
    fn refused(message: &str) -> WrongUse {
        output::say(message);
        WrongUse(String::new())
    }

    /// Reports it, unless it has been, and says what it came to.
    fn tell(&self) -> Outcome {
        if self.0.is_empty() {
            return Outcome::Refusal;
        }
        output::say(&format!("pilzdamo: {}", self.0));
        Outcome::Unanswered
    }
}

/// Does what the arguments ask for. The exit status: 0 for an answer, 1 for a
/// refusal, 2 for wrong use.
pub fn go(words: impl Iterator<Item = OsString>) -> u8 {
    let outcome = words::job(words).and_then(jobs::carry_out);
    match outcome.unwrap_or_else(|wrong| wrong.tell()) {
        Outcome::Answer => 0,
        Outcome::Refusal => 1,
        Outcome::Unanswered => 2,
    }
}
