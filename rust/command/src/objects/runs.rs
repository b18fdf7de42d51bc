//! Runs.

use super::named::{reference, Table};
use super::nodes::Nodes;
use super::refused;
use crate::called::bound;
use crate::clinic::Clinic;
use crate::json::{list, object, Json};
use crate::listed::Listed;
use crate::names::Above;
use crate::refusals;
use crate::seats;
use pilzdamo::{Seats, State, Verdict};

/// A run that was asked for, and what came of it.
pub struct Ran<'a> {
    /// The file and the list as they were named.
    pub file: String,
    pub choices: String,
    pub listed: &'a Listed,
    pub verdict: Verdict,
}

impl Ran<'_> {
    /// Whether all choices were done, or the run halted at one, or nothing was begun.
    fn answer(&self) -> &'static str {
        match self.verdict {
            verdict if verdict.is_clean() => "done",
            verdict if refusals::is_halt(verdict) => "halted",
            _ => "refused",
        }
    }

    pub fn refusal(&self) -> Json {
        refused::in_run(self.listed, self.verdict)
    }

    /// A thread's name, where the file has names.
    fn name(&self, number: u16) -> Option<String> {
        self.listed.list.thread(&self.listed.input, number)
    }

    /// A thread by its number and name.
    pub fn thread(&self, number: u16) -> Json {
        reference(number.into(), self.name(number).as_deref())
    }

    /// The seats after the choices that were done.
    fn seats(&self, nodes: &Nodes) -> Option<Json> {
        let Listed { input, list, table } = self.listed;
        let table = table.as_ref()?;
        let told = pilzdamo::seats(input, &list.words, &table.words);
        Some(seats_of(nodes, table, &told))
    }
}

/// The state that a run came to, which is in its output unless nothing was begun.
pub fn ran(ran: &Ran, output: &[u8]) -> Json {
    let input = &ran.listed.input;
    let clinic = Clinic::of(input);
    let nodes = Nodes::of(input, &clinic);
    let begun = ran.verdict.is_clean() || refusals::is_halt(ran.verdict);
    let state = State::of(output).filter(|_| begun);
    let state = state.as_ref();
    let seats = state.and_then(|_| ran.seats(&nodes));
    object([
        ("file", ran.file.as_str().into()),
        ("choices", ran.choices.as_str().into()),
        ("answer", ran.answer().into()),
        ("choices_done", state.map(|state| state.done).into()),
        (
            "threads",
            state
                .map(|state| threads(&nodes, &clinic, ran, state))
                .into(),
        ),
        (
            "made_channels",
            state.map(|state| made(&nodes, state)).into(),
        ),
        ("seats", seats.into()),
        ("refusal", ran.refusal()),
    ])
}

fn threads(nodes: &Nodes, clinic: &Clinic, ran: &Ran, state: &State) -> Json {
    let threads = state.threads.iter().enumerate();
    list(threads.map(|(at, thread)| {
        let (number, mask) = (usize::from(thread.node), u32::from(thread.mask));
        let bound = bound(thread);
        let above = Above {
            bound: Some(bound),
            due: None,
        };
        object([
            ("number", (at + 1).into()),
            ("name", ran.name(at as u16 + 1).into()),
            ("session", session(nodes, clinic, thread.node)),
            ("user", nodes.named.one(Table::Users, thread.user)),
            ("node", thread.node.into()),
            ("line", nodes.line(number).into()),
            ("step", nodes.step(number, above).into()),
            ("roles", nodes.named.masked(Table::Roles, mask)),
            ("variables", variables(nodes, thread)),
        ])
    }))
}

/// The session whose tree has a node.
fn session(nodes: &Nodes, clinic: &Clinic, node: u16) -> Json {
    let mut sessions = clinic.sessions.iter();
    let at = sessions.rposition(|&[_, _, root]| root <= node);
    at.map(|at| nodes.named.one(Table::Sessions, at as u16 + 1))
        .into()
}

/// The variables that are bound, with their values.
fn variables(nodes: &Nodes, thread: &pilzdamo::Thread) -> Json {
    let names = nodes.variables(thread.node.into());
    let bound = thread.vars.iter().enumerate();
    let bound = bound.filter(|&(_, &value)| value != 0);
    list(bound.map(|(at, &value)| {
        object([
            ("number", (at + 1).into()),
            ("name", names.get(at).map(String::as_str).into()),
            ("value", nodes.named.value(value)),
        ])
    }))
}

fn made(nodes: &Nodes, state: &State) -> Json {
    list((1_usize..).zip(&state.made).map(|(number, channel)| {
        object([
            ("number", number.into()),
            ("kind", nodes.named.one(Table::Kinds, channel.kind)),
            ("owner", nodes.named.one(Table::Users, channel.owner)),
        ])
    }))
}

/// Who has each role and who waits for it, and how many choices got no seat.
fn seats_of(nodes: &Nodes, table: &seats::Table, told: &Seats) -> Json {
    let roles = (1..).zip(&table.words).map(|(role, &seats)| {
        let line = told.line_of(role).iter();
        let line = line.map(|&session| nodes.named.one(Table::Sessions, session));
        object([
            ("role", nodes.named.one(Table::Roles, role)),
            ("seats", Some(seats).filter(|&seats| seats != 0).into()),
            ("taken", told.in_role(role).into()),
            ("in_line", list(line)),
        ])
    });
    object([
        ("roles", list(roles)),
        ("got_none", told.waited.into()),
        ("last_got_none", (told.last == 26).into()),
    ])
}
