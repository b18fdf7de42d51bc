//! A minute of the week that is asked for, with opening hours.

use crate::hours;
use crate::input::Input;
use crate::report;
use crate::source::Source;
use crate::words::At;
use crate::WrongUse;
use pilzdamo::Verdict;
use text::week;

/// A table of hours with its source, and the minute that is asked for.
pub struct Hours {
    name: String,
    pub table: hours::Table,
    pub minute: u16,
}

/// A minute that is asked for, and the table that goes with it, if one is named. It is read
/// once, and understood for each file by itself.
pub struct Asked {
    minute: u16,
    hours: Option<(String, Vec<u8>)>,
}

impl Asked {
    pub fn read(at: &At) -> Result<Asked, WrongUse> {
        let read = |hours: &Source| Ok((hours.name(), hours.table()?));
        Ok(Asked {
            minute: at.minute,
            hours: at.hours.as_ref().map(read).transpose()?,
        })
    }

    /// The hours of a file: those of the table that is named, or else its own.
    pub fn of(&self, input: &Input) -> Result<Hours, WrongUse> {
        let (name, table) = match &self.hours {
            Some((name, bytes)) => (name, Some(hours::Table::read(name, bytes, input)?)),
            None => (&input.name, hours::Table::own(input)),
        };
        let table = table.ok_or_else(|| {
            let why = "--at goes with --hours HOURS here: no role has opening hours of its own";
            WrongUse(format!("{name}: {why}"))
        })?;
        Ok(Hours {
            name: name.clone(),
            table,
            minute: self.minute,
        })
    }
}

impl Hours {
    /// The hours that are asked for of one file, if a minute is.
    pub fn read(at: Option<&At>, input: &Input) -> Result<Option<Hours>, WrongUse> {
        at.map(|at| Asked::read(at)?.of(input)).transpose()
    }

    /// The message for what is refused of a file or of these hours.
    fn report(&self, input: &Input, verdict: Verdict) -> String {
        match verdict.number {
            22 | 23 => report::of_hours(&self.name, &self.table, input, verdict),
            _ => input.refused(verdict),
        }
    }

    /// The minute in an answer.
    pub fn when(&self, word: &str) -> String {
        format!(" {word} {}", week::clock(self.minute))
    }
}

/// The message for what check or placing refuses.
pub fn refused(input: &Input, hours: Option<&Hours>, verdict: Verdict) -> String {
    match hours {
        None => input.refused(verdict),
        Some(hours) => hours.report(input, verdict),
    }
}
