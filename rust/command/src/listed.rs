//! A file with a list of choices for it, and a table of seats if there is one: what every
//! word about runs begins with.

use crate::called::Called;
use crate::clinic::Clinic;
use crate::course::Course;
use crate::input::Input;
use crate::jobs::{answer, refusal};
use crate::lists::{self, List};
use crate::output;
use crate::refusals;
use crate::report;
use crate::runs;
use crate::seats::{self, Table};
use crate::source::{NamedFile, Source};
use crate::{Outcome, WrongUse};
use pilzdamo::Verdict;

pub struct Listed {
    pub input: Input,
    pub list: List,
    pub table: Option<Table>,
}

impl Listed {
    /// Reads all of them. Without a source the list is empty, and the seats are those that the
    /// file has of its own.
    pub fn read(
        file: &NamedFile,
        list: Option<&Source>,
        table: Option<&Source>,
    ) -> Result<Listed, WrongUse> {
        let input = file.clinic()?;
        let (name, choices) = match list {
            Some(list) => (list.name(), list.choices()?),
            None => Default::default(),
        };
        let table = match table {
            Some(table) => Some(Table::read(table, &input)?),
            None => Table::own(&input),
        };
        let list = List::of(name, &choices, &input, table.as_ref())?;
        Ok(Listed { input, list, table })
    }

    /// Runs through the list.
    pub fn run(&self, out: &mut [u8]) -> Verdict {
        seats::run(&self.input, &self.list.words, self.table.as_ref(), out)
    }

    /// The indices of the choices that get no seat.
    pub fn waited(&self) -> Vec<usize> {
        lists::waited(&self.input, &self.list.words, self.table.as_ref())
    }

    /// The list without the choices that get no seat. Without seats it leads to the same
    /// threads as the list does with them.
    pub fn without_waits(&self) -> Vec<u16> {
        let mut waited = self.waited().into_iter().peekable();
        let pairs = self.list.words.chunks(2).enumerate();
        let done = pairs.filter(|(index, _)| waited.next_if_eq(index).is_none());
        done.flat_map(|(_, choice)| choice).copied().collect()
    }

    /// What there is to say where the list leads, or after it the refusal: of a run that
    /// halted after what there is to say of that.
    pub fn answered(
        &self,
        verdict: Verdict,
        state: impl FnOnce() -> String,
    ) -> Result<Outcome, WrongUse> {
        if verdict.is_clean() {
            return answer(&state());
        }
        if refusals::is_halt(verdict) {
            output::print(state().as_bytes())?;
        }
        refusal(&self.refused(verdict))
    }

    /// The message for a refusal of the file, the list or the table.
    pub fn refused(&self, verdict: Verdict) -> String {
        let message = self.message(verdict);
        match verdict.number == 13 && Clinic::of(&self.input).is_bare() {
            true => format!("{message}\n  {}", report::UNPLACED),
            false => message,
        }
    }

    /// Points to placing where the list leads, if a thread of a file without on and off
    /// stands still there for want of a role.
    pub fn say_unplaced(&self) {
        let called = Called::of(&self.input);
        let Ok(mut course) = Course::start(&called) else {
            return;
        };
        course.through(&self.list.words, &self.waited());
        if course.is_unplaced() {
            output::say(&format!("{}: {}", self.input.name, report::UNPLACED));
        }
    }

    fn message(&self, verdict: Verdict) -> String {
        let Listed { input, list, table } = self;
        if let Some(wrong) = self.wrong_table(verdict) {
            return wrong.refused(input, verdict);
        }
        let name = match verdict.number {
            17 => list.name.clone(),
            _ if refusals::is_halt(verdict) => {
                if let Some(message) = runs::refused(self, verdict) {
                    return message;
                }
                format!("{}, {}", input.name, list.name)
            }
            _ => {
                let overfilled = |table: &Table| table.overfilled(input, verdict);
                return match table.as_ref().and_then(overfilled) {
                    Some(more) => report::of_place(&input.name, input, verdict, more),
                    None => input.refused(verdict),
                };
            }
        };
        let stands = runs::stand_in_numbers(self, verdict);
        report::of_run(&name, input, &list.words, verdict, stands)
    }

    /// The table, if it is what is refused.
    pub fn wrong_table(&self, verdict: Verdict) -> Option<&Table> {
        let table = self.table.as_ref();
        table.filter(|table| table.is_refused(&self.input, verdict))
    }
}
