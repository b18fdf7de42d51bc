//! The arguments of the command line.

mod given;
mod jobs;
pub mod near;
mod options;
mod table;

use crate::output::Out;
use crate::source::{NamedFile, Source};
use crate::turning::Turn;
use crate::WrongUse;
use given::Given;
use std::ffi::{OsStr, OsString};
pub use table::Word;

/// What is asked for.
pub enum Job {
    Check {
        /// One with names, or several without.
        files: Vec<NamedFile>,
        at: Option<At>,
        json: bool,
    },
    Place {
        file: NamedFile,
        at: Option<At>,
        out: Out,
        /// Whether to answer a text with bytes.
        bytes: bool,
        json: bool,
    },
    Measure {
        file: NamedFile,
        at: Option<At>,
        json: bool,
    },
    Merge {
        first: Source,
        second: Source,
        out: Out,
        /// Whether to answer two texts with bytes.
        bytes: bool,
    },
    Turn {
        turn: Turn,
        file: Source,
        out: Out,
    },
    Notice {
        first_day: u16,
        file: Source,
        out: Out,
    },
    InForce {
        day: u16,
        first: Source,
        second: Source,
        /// Where the file is to go, if it is asked for.
        out: Option<Out>,
    },
    Sheet {
        files: Vec<Source>,
        json: bool,
    },
    Run {
        file: NamedFile,
        choices: Source,
        /// Where the table of seats is, if there is one.
        seats: Option<Source>,
        trace: bool,
        json: bool,
    },
    Interactive {
        file: NamedFile,
        /// The list that goes before what is typed, if there is one.
        choices: Option<Source>,
        seats: Option<Source>,
    },
    Choices {
        file: NamedFile,
        choices: Source,
        seats: Option<Source>,
    },
    Ready {
        file: NamedFile,
        choices: Source,
        seats: Option<Source>,
        json: bool,
    },
    Waiting {
        file: NamedFile,
        choices: Source,
        seats: Option<Source>,
    },
    Seats {
        file: NamedFile,
        choices: Source,
        /// None if the file has seats of its own.
        seats: Option<Source>,
    },
    Round {
        file: NamedFile,
        choices: Source,
        seats: Option<Source>,
    },
    Dispatch {
        file: NamedFile,
        /// The most rounds, if that is said.
        rounds: Option<u16>,
        seats: Option<Source>,
        /// Whether a repeat is left out while the thread that it made last waits.
        sparing: bool,
    },
    Show {
        file: NamedFile,
        form: Form,
        out: Out,
    },
    Pack {
        text: Source,
        out: Out,
        beside: Beside,
    },
    Unpack {
        file: Source,
        out: Out,
        names: Option<Source>,
    },
    Strip {
        file: Source,
        out: Out,
    },
    Explain {
        number: u16,
        json: bool,
    },
    Reason {
        sentence: Vec<u8>,
    },
    /// The help of a command, or the whole page.
    Help(Option<&'static Word>),
    Version,
}

/// What `show` prints.
pub enum Form {
    Page,
    Svg,
    Json,
}

/// A minute of the week, and where the table of hours is; none if the file has hours of its
/// own.
pub struct At {
    pub minute: u16,
    pub hours: Option<Source>,
}

/// Where what a text has and bytes don't is to go, as far as it is asked for.
pub struct Beside {
    pub names: Option<Out>,
    pub seats: Option<Out>,
    pub hours: Option<Out>,
}

impl Beside {
    /// Where anything of a text goes, its bytes first, with what messages call it.
    pub fn all<'a>(&'a self, out: &'a Out) -> Vec<(&'static str, &'a Out)> {
        let Beside {
            names,
            seats,
            hours,
        } = self;
        let beside = [("NAMES", names), ("SEATS", seats), ("HOURS", hours)];
        let beside = beside
            .into_iter()
            .filter_map(|(name, out)| Some((name, out.as_ref()?)));
        [("FILE", out)].into_iter().chain(beside).collect()
    }
}

/// The job that the arguments name.
pub fn job(mut words: impl Iterator<Item = OsString>) -> Result<Job, WrongUse> {
    let Some(first) = words.next() else {
        let why = format!("no command; one of {}", table::all_words());
        return misused(&why).map_err(|wrong| shown_way(wrong, None));
    };
    match first.as_encoded_bytes() {
        b"-h" | b"--help" => return Ok(Job::Help(None)),
        b"-V" | b"--version" => return Ok(Job::Version),
        _ => (),
    }
    let word = known(&first).map_err(|wrong| shown_way(wrong, None))?;
    asked(word, words).map_err(|wrong| shown_way(wrong, Some(word)))
}

/// The job of a command with these arguments.
fn asked(word: &'static Word, words: impl Iterator<Item = OsString>) -> Result<Job, WrongUse> {
    let given = Given::sorted(word, words)?;
    if given.help {
        return Ok(Job::Help(Some(word)));
    }
    given.one_standard_input()?;
    (word.job)(given)
}

/// The command of this name.
fn known(name: &OsStr) -> Result<&'static Word, WrongUse> {
    let text = shown(name);
    table::ALL
        .iter()
        .find(|word| word.name == text)
        .map_or_else(
            || {
                let names = table::ALL.iter().map(|word| word.name);
                let hint = near::hint(&text, names.chain(["--help", "--version"]));
                misused(&format!("there is no command '{text}'{hint}"))
            },
            Ok,
        )
}

/// An argument in a message.
fn shown(word: &OsStr) -> String {
    text::printable(word.as_encoded_bytes())
}

fn misused<T>(why: &str) -> Result<T, WrongUse> {
    Err(WrongUse(why.to_string()))
}

/// Wrong use, with the help that is next to it: that of the command if it is known.
fn shown_way(WrongUse(why): WrongUse, word: Option<&Word>) -> WrongUse {
    let way = match word.filter(|word| word.name != "help") {
        Some(word) => format!("pilzdamo help {} says how to use it", word.name),
        None => "pilzdamo --help lists all commands".to_string(),
    };
    WrongUse(format!("{why}\n  {way}"))
}
