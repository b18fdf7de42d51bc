//! All commands, each with its operands, its options, its help and its job.

use super::given::Given;
use super::jobs;
use super::options::Opt::{self, *};
use super::Job;
use crate::WrongUse;

/// A command.
pub struct Word {
    pub name: &'static str,
    /// As they stand in its usage: in brackets what may be left out, with dots what may
    /// stand there several times.
    pub operands: &'static [&'static str],
    pub options: &'static [Opt],
    /// Whether an argument with a hyphen that is none of its options is an operand.
    pub hyphens: bool,
    pub help: &'static str,
    pub job: fn(Given) -> Result<Job, WrongUse>,
}

impl Word {
    /// The names of its operands, in order; the last goes on if there may be several.
    pub fn names(&self) -> impl Iterator<Item = &'static str> {
        let bare = |operand: &&'static str| operand.trim_matches(['[', ']', '.']);
        let last = self.operands.last().filter(|last| last.ends_with("..."));
        let more = last.into_iter().cycle().map(bare);
        self.operands.iter().map(bare).chain(more)
    }
}

macro_rules! word {
    ($name:literal, [$($operand:literal),*], [$($option:expr),*], $job:path) => {
        Word {
            name: $name,
            operands: &[$($operand),*],
            options: &[$($option),*],
            hyphens: false,
            help: include_str!(concat!("../help/", $name, ".txt")),
            job: $job,
        }
    };
}

#[rustfmt::skip]
pub const ALL: [Word; 23] = [
    word!("check", ["FILE..."], [At, Hours, Names, Json, NotEmpty], jobs::check),
    word!("place", ["FILE"], [Out, Force, At, Hours, Names, Bytes, Json, NotEmpty], jobs::place),
    word!("measure", ["FILE"], [At, Hours, Names, Json, NotEmpty], jobs::measure),
    word!("merge", ["A", "B"], [Out, Bytes, Force, NotEmpty], jobs::merge),
    word!("columns", ["FILE"], [Out, Force, NotEmpty], jobs::columns),
    word!("rows", ["FILE"], [Out, Force, NotEmpty], jobs::rows),
    word!("notice", ["DATE", "FILE"], [Out, Force, NotEmpty], jobs::notice),
    word!("in-force", ["DAY", "NOTICE", "NOTICE"], [Out, Force], jobs::in_force),
    word!("sheet", ["FILE..."], [Json, NotEmpty], jobs::sheet),
    word!("run", ["FILE", "CHOICES"], [Seats, Names, Trace, Interactive, Json, NotEmpty], jobs::run),
    word!("choices", ["FILE", "CHOICES"], [Seats, Names, NotEmpty], jobs::choices),
    word!("ready", ["FILE", "CHOICES"], [Seats, Names, Json, NotEmpty], jobs::ready),
    word!("waiting", ["FILE", "CHOICES"], [Seats, Names, NotEmpty], jobs::waiting),
    word!("seats", ["FILE", "CHOICES", "[SEATS]"], [Names, NotEmpty], jobs::seats),
    word!("round", ["FILE", "CHOICES"], [Seats, Names, NotEmpty], jobs::round),
    word!("dispatch", ["FILE", "[ROUNDS]"], [Seats, Names, Sparing, NotEmpty], jobs::dispatch),
    word!("show", ["FILE"], [Names, Svg, Json, Out, Force, NotEmpty], jobs::show),
    word!("pack", ["TEXT"], [Out, NamesOut, SeatsOut, HoursOut, Force], jobs::pack),
    word!("unpack", ["FILE"], [Out, Names, Force, NotEmpty], jobs::unpack),
    word!("strip", ["FILE"], [Out, Force, NotEmpty], jobs::strip),
    Word { hyphens: true, ..word!("explain", ["N"], [Json], jobs::explain) },
    Word { hyphens: true, ..word!("reason", ["SENTENCE"], [], jobs::reason) },
    word!("help", ["[COMMAND]"], [], jobs::help),
];

/// The commands in a sentence.
pub fn all_words() -> String {
    let names = ALL.each_ref().map(|word| word.name);
    let (last, others) = names.split_last().expect("there are words");
    format!("{} and {last}", others.join(", "))
}

#[cfg(test)]
mod tests {
    use super::{Force, Out, ALL};
    use std::collections::BTreeSet;

    const PAGE: &str = include_str!("../help.txt");

    #[test]
    fn every_word_stands_in_the_page_and_has_a_help() {
        for word in &ALL {
            let usage = format!("pilzdamo {} {}", word.name, word.operands.join(" "));
            let line = |line: &str| line.starts_with(&format!("  {}", usage.trim_end()));
            assert!(PAGE.lines().any(line), "{usage}");
            assert!(word.help.starts_with(&usage), "{usage}");
            for part in ["\nOptions", "\nRefusals", "\nExample:\n  pilzdamo "] {
                assert!(word.help.contains(part), "{}: {part:?}", word.name);
            }
        }
    }

    #[test]
    fn every_option_stands_in_the_help_of_its_word_and_in_the_page() {
        for word in &ALL {
            let usage = word.help.split("\n\n").next().unwrap_or_default();
            for option in word.options {
                let (long, name) = (option.long(), option.name());
                let described = format!("\n  {name}");
                assert!(usage.contains(name), "{}: usage: {name}", word.name);
                assert!(word.help.contains(&described), "{}: {name}", word.name);
                assert!(word.help.contains(long), "{}: {long}", word.name);
                assert!(PAGE.contains(long), "the page: {long}");
            }
        }
    }

    #[test]
    fn no_help_speaks_of_an_option_that_its_word_has_not() {
        for word in &ALL {
            let known: BTreeSet<&str> = word.options.iter().map(|option| option.long()).collect();
            let lines = word.help.lines().filter(|line| line.starts_with("  -"));
            let described = lines.flat_map(|line| {
                let names = line.trim_start().split("  ").next().unwrap_or_default();
                let names = names.split([' ', ',']);
                names.filter(|name| name.starts_with("--"))
            });
            for option in described {
                assert!(known.contains(option), "{}: {option}", word.name);
            }
        }
    }

    #[test]
    fn what_writes_can_be_forced() {
        for word in &ALL {
            let [out, force] = [Out, Force].map(|option| word.options.contains(&option));
            assert_eq!(out, force, "{}", word.name);
        }
    }

    #[test]
    fn pages_fit_a_terminal() {
        for page in ALL.iter().map(|word| word.help).chain([PAGE]) {
            assert!(page.ends_with('\n'));
            for line in page.lines() {
                assert!(
                    line.chars().count() <= 80 && line == line.trim_end(),
                    "{line}"
                );
            }
        }
    }
}
