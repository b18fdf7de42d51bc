//! The operands and options of a command.

use super::near;
use super::options::Opt;
use super::table::Word;
use super::{misused, shown};
use crate::output::Out;
use crate::source::{NamedFile, Source};
use crate::WrongUse;
use std::ffi::{OsStr, OsString};
use std::os::unix::ffi::OsStrExt;
use std::path::PathBuf;

/// The arguments after the command, sorted.
pub struct Given {
    pub word: &'static Word,
    pub plain: Vec<OsString>,
    /// Each with its value, if it needs one.
    options: Vec<(Opt, Option<OsString>)>,
    pub help: bool,
}

impl Given {
    /// Separates operands from options. After `--` all are operands.
    pub fn sorted(
        word: &'static Word,
        mut words: impl Iterator<Item = OsString>,
    ) -> Result<Given, WrongUse> {
        let mut given = Given {
            word,
            plain: Vec::new(),
            options: Vec::new(),
            help: false,
        };
        while let Some(next) = words.next() {
            match next.as_bytes() {
                b"--" => given.plain.extend(words.by_ref()),
                b"-h" | b"--help" => given.help = true,
                text => match Opt::begun(text, word.options) {
                    Some((option, within)) => {
                        let within = within.map(|it| OsStr::from_bytes(it).to_os_string());
                        given.keep(&next, option, within, &mut words)?;
                    }
                    None => given.operand(next)?,
                },
            }
        }
        Ok(given)
    }

    /// Keeps an option, with the next argument as its value if it needs one that isn't in it.
    fn keep(
        &mut self,
        typed: &OsStr,
        option: Opt,
        within: Option<OsString>,
        words: &mut impl Iterator<Item = OsString>,
    ) -> Result<(), WrongUse> {
        let verb = self.word.name;
        let value = match (option.wants(), within) {
            (None, None) => None,
            (None, Some(_)) => {
                let typed = shown(typed);
                return misused(&format!(
                    "{verb}: {} takes no value, as in '{typed}'",
                    option.long()
                ));
            }
            (Some(_), Some(value)) => Some(value),
            (Some(wants), None) => match words.next() {
                Some(value) => Some(value),
                None => {
                    let typed = shown(typed);
                    return misused(&format!("{verb}: {typed} needs {wants}"));
                }
            },
        };
        if value.is_some() && self.has(option) {
            return misused(&format!("{verb}: {} is given twice", option.name()));
        }
        self.options.push((option, value));
        Ok(())
    }

    fn operand(&mut self, word: OsString) -> Result<(), WrongUse> {
        let text = shown(&word);
        if text.starts_with('-') && text != "-" && !self.word.hyphens {
            let hint = match self.operand_of(word.as_bytes()) {
                Some(operand) => format!("; {operand}"),
                None => near::hint(&text, self.word.options.iter().map(|option| option.long())),
            };
            return misused(&format!("{} has no option '{text}'{hint}", self.word.name));
        }
        self.plain.push(word);
        Ok(())
    }

    /// Where the file of an option of other commands goes, if it is an operand here.
    fn operand_of(&self, word: &[u8]) -> Option<String> {
        let (option, _) = Opt::begun(word, &[Opt::Seats])?;
        let name = option.source()?;
        let mut operands = ["first", "second", "third"].iter().zip(self.word.operands);
        let bare = |operand: &str| operand.trim_matches(['[', ']', '.']) == name;
        let (which, _) = operands.find(|(_, operand)| bare(operand))?;
        Some(format!("{name} is its {which} operand"))
    }

    pub fn has(&self, option: Opt) -> bool {
        self.options.iter().any(|(given, _)| *given == option)
    }

    /// The value of an option.
    pub fn value(&self, option: Opt) -> Option<&OsString> {
        let mut given = self.options.iter().filter(|(given, _)| *given == option);
        given.next().and_then(|(_, value)| value.as_ref())
    }

    /// The file to read that an option names.
    pub fn source(&self, option: Opt) -> Option<Source> {
        self.value(option).cloned().map(|word| self.file(word))
    }

    /// Where the output goes.
    pub fn out(&self) -> Out {
        self.out_behind(Opt::Out).unwrap_or(Out {
            path: None,
            force: self.has(Opt::Force),
        })
    }

    /// Where an option sends an output.
    pub fn out_behind(&self, option: Opt) -> Option<Out> {
        let value = self.value(option)?;
        Some(Out {
            path: (value != "-").then(|| PathBuf::from(value)),
            force: self.has(Opt::Force),
        })
    }

    /// A file to read.
    pub fn file(&self, word: OsString) -> Source {
        let source = Source::named(word);
        match self.has(Opt::NotEmpty) {
            true => Source::NotEmpty(Box::new(source)),
            false => source,
        }
    }

    /// A file, with the names that are given.
    pub fn named(&self, file: OsString) -> NamedFile {
        NamedFile {
            file: self.file(file),
            names: self.source(Opt::Names),
        }
    }

    /// Fails if more than one of the files to read is standard input.
    pub fn one_standard_input(&self) -> Result<(), WrongUse> {
        let operands = self.plain.iter().zip(self.word.names());
        let operands = operands.filter(|(_, name)| is_source(name));
        let options = self.options.iter().filter_map(|(option, value)| {
            let name = option.source()?;
            Some((value.as_ref()?, name))
        });
        let (words, mut names): (Vec<&OsString>, Vec<&str>) = operands.chain(options).unzip();
        if words.iter().filter(|word| **word == "-").count() < 2 {
            return Ok(());
        }
        names.dedup();
        let which = one_of(&names);
        let verb = self.word.name;
        misused(&format!("{verb}: only {which} can be standard input"))
    }

    /// Exactly N operands, the first of those that the command takes.
    pub fn exactly<const N: usize>(&mut self) -> Result<[OsString; N], WrongUse> {
        let plain = std::mem::take(&mut self.plain);
        let verb = self.word.name;
        plain.try_into().or_else(|plain: Vec<OsString>| {
            let missing = self.word.names().nth(plain.len());
            misused(&match missing.filter(|_| plain.len() < N) {
                Some(missing) => format!("{verb}: {missing} is missing"),
                None => format!("{verb}: '{}' is too many", shown(&plain[N])),
            })
        })
    }
}

/// `one FILE`, or `one of FILE, NAMES and SEATS`.
pub fn one_of(names: &[&str]) -> String {
    match names {
        [] => "none".to_string(),
        [name] => format!("one {name}"),
        [others @ .., last] => format!("one of {} and {last}", others.join(", ")),
    }
}

/// Whether an operand of this name is a file that is read.
fn is_source(operand: &str) -> bool {
    matches!(
        operand,
        "FILE" | "A" | "B" | "NOTICE" | "TEXT" | "CHOICES" | "SEATS"
    )
}
