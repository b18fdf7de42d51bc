//! The lines of a shown file, with the refusal at its place.

use crate::clinic::Clinic;
use crate::refusals;
use crate::report;
use pilzdamo::{Counts, Verdict};

/// A line at which a refusal can stand.
#[derive(Clone, Copy, PartialEq)]
pub enum Spot {
    Length,
    Version,
    Counts,
    Offsets,
    Word(usize),
    Session(usize),
    Node(usize),
    End,
}

impl Spot {
    /// Where the refusal of a check belongs.
    pub fn of(verdict: Verdict) -> Spot {
        let place = usize::from(verdict.place);
        match (
            verdict.number,
            refusals::counts(verdict.number, verdict.place, false),
        ) {
            (1 | 5, _) => Spot::Length,
            (2, _) => Spot::Version,
            (3, _) => Spot::Counts,
            (4, _) => Spot::Offsets,
            (_, Counts::Word) => Spot::Word(place),
            (_, Counts::Session) => Spot::Session(place),
            (_, Counts::Node) => Spot::Node(place),
            _ => Spot::End,
        }
    }
}

/// The text so far, and the refusal that is yet to be marked.
pub struct Page {
    text: String,
    due: Option<(Spot, String)>,
}

impl Page {
    pub fn new(clinic: &Clinic, verdict: Verdict) -> Page {
        let mark = || (Spot::of(verdict), report::mark(clinic, verdict));
        Page {
            text: String::new(),
            due: (!verdict.is_clean()).then(mark),
        }
    }

    /// Adds a line.
    pub fn line(&mut self, line: &str) {
        self.text.push_str(line);
        self.text.push('\n');
    }

    /// Adds the refusal, if this is its place.
    pub fn mark(&mut self, spot: Spot) {
        if let Some((_, mark)) = self.due.take_if(|(due, _)| *due == spot) {
            self.line(&mark);
        }
    }

    /// Adds a line, and the refusal after it, if this is its place.
    pub fn marked(&mut self, line: &str, spot: Spot) {
        self.line(line);
        self.mark(spot);
    }

    /// The whole text. A refusal whose place never came stands at the end.
    pub fn text(mut self) -> String {
        if let Some((_, mark)) = self.due.take() {
            self.line(&mark);
        }
        self.text
    }
}
