//! The lines of a run with seats, followed beside its threads. The engine judges: what
//! was followed counts only if the engine answers the same for the whole list.

use crate::input::Input;
use crate::seats::{self, Table};
use pilzdamo::{Desk, State, RUN_ROOM};
use std::collections::BTreeMap;

/// The sessions that wait for a seat.
#[derive(Clone)]
pub struct Lines<'a> {
    pub table: &'a Table,
    /// For each role the indices of the sessions in its line, the first in front.
    lines: BTreeMap<u16, Vec<usize>>,
    /// How many choices got no seat.
    waited: u16,
}

impl<'a> Lines<'a> {
    pub fn of(table: &'a Table) -> Lines<'a> {
        Lines {
            table,
            lines: BTreeMap::new(),
            waited: 0,
        }
    }

    /// Whether a session that puts on a role with a limit gets no seat, where these
    /// sessions have it. Its line changes by that.
    pub fn waits(&mut self, role: u16, session: usize, seated: &[usize]) -> bool {
        let gives = self.gives(role, session, seated);
        let line = self.lines.entry(role).or_default();
        if gives {
            line.retain(|&waiting| waiting != session);
            return false;
        }
        if !line.contains(&session) {
            line.push(session);
        }
        self.waited = self.waited.saturating_add(1);
        true
    }

    /// Whether a session has a seat in a role with a limit or gets one, where these sessions
    /// have it.
    pub fn gives(&self, role: u16, session: usize, seated: &[usize]) -> bool {
        let is_free = seated.len() < usize::from(self.table.seats(role));
        let head = self.line(role).first();
        seated.contains(&session) || is_free && head.is_none_or(|&head| head == session)
    }

    /// The indices of the sessions that wait for a seat in a role, the first in front.
    pub fn line(&self, role: u16) -> &[usize] {
        self.lines.get(&role).map_or(&[], |line| line)
    }

    /// Whether the same sessions wait for the same roles.
    pub fn is_as(&self, other: &Lines) -> bool {
        self.lines == other.lines
    }

    /// Whether the engine answers these choices with the same lines and threads.
    pub fn agree(&self, input: &Input, choices: &[u16], desk: &Desk) -> bool {
        let told = pilzdamo::seats(input, choices, &self.table.words);
        let mut room = [0; RUN_ROOM];
        let verdict = seats::run(input, choices, Some(self.table), &mut room);
        let state = State::of(&room);
        let same_lines = (1..=u16::MAX).zip(&self.table.words).all(|(role, _)| {
            let line = self.line(role);
            let sessions = told
                .line_of(role)
                .iter()
                .map(|&session| usize::from(session));
            sessions.eq(line.iter().map(|session| session + 1))
        });
        let same_state = state.is_some_and(|state| {
            state.threads == desk.threads() && desk.made().eq(state.made.iter().copied())
        });
        let same_waits = told.waited == self.waited && told.verdict() == verdict;
        same_waits && same_lines && same_state
    }
}

#[cfg(test)]
mod tests;
