//! A list of choices followed by the engine's own steps, so that threads have names.

use crate::clinic::Clinic;
use crate::input::Input;
use crate::lines::Lines;
use crate::roll::Roll;
use crate::seats::Table;
use pilzdamo::{Desk, Verdict};

/// A run as it stands, with the names of its threads.
pub struct Follower<'a> {
    input: &'a Input,
    pub clinic: Clinic,
    pub desk: Desk,
    seating: Seating<'a>,
    pub roll: Roll,
    /// The choices so far, two words for each.
    pub words: Vec<u16>,
    /// The indices of those that got no seat.
    pub waited: Vec<usize>,
}

/// How it is known whether an on gets a seat.
pub enum Seating<'a> {
    /// No role has a limit.
    Unlimited,
    /// By lines that are followed beside the threads.
    Followed(Lines<'a>),
    /// By the engine, which is asked with all choices so far.
    Asked(&'a Table),
}

impl<'a> Seating<'a> {
    /// By lines if there is a table of seats.
    pub fn by(table: Option<&'a Table>) -> Seating<'a> {
        table.map_or(Seating::Unlimited, |table| {
            Seating::Followed(Lines::of(table))
        })
    }
}

/// How far a run has come: the choices done, those that got no seat, and the lines.
pub struct Moment<'a> {
    words: usize,
    waited: usize,
    lines: Option<Lines<'a>>,
}

/// An on that gets no seat.
pub struct Wait {
    pub role: u16,
    /// How many seats it has.
    pub seats: u16,
    /// The indices of the sessions that have them.
    pub seated: Vec<usize>,
    /// The place of the thread's session in line, from 1, if it has asked.
    pub place: Option<usize>,
}

impl<'a> Follower<'a> {
    /// The start of a run, unless the engine refuses the file.
    pub fn start(input: &'a Input, seating: Seating<'a>) -> Result<Follower<'a>, Verdict> {
        let desk = Desk::start(input)?;
        Ok(Follower {
            input,
            clinic: Clinic::of(input),
            roll: Roll::start(desk.threads().len()),
            desk,
            seating,
            words: Vec::new(),
            waited: Vec::new(),
        })
    }

    /// Carries out a choice; says whether it isn't refused. The list ends with it either
    /// way.
    pub fn choose(&mut self, thread: u16, partner: u16) -> bool {
        let done = self.tries(thread, partner).is_ok();
        if !done {
            self.words.extend([thread, partner]);
        }
        done
    }

    /// Carries out a choice, and changes nothing if it is refused. One that gets no seat is
    /// no step.
    pub fn tries(&mut self, thread: u16, partner: u16) -> Result<(), Verdict> {
        let before = self.words.len();
        self.words.extend([thread, partner]);
        if self.waits(thread, partner) {
            self.waited.push(before / 2);
            return Ok(());
        }
        match self.desk.choose(thread, partner) {
            Ok(()) => self.roll.step(thread, self.desk.threads().len()),
            Err(refusal) => {
                self.words.truncate(before);
                return Err(refusal);
            }
        }
        Ok(())
    }

    /// Whether a choice is an on that gets no seat.
    fn waits(&mut self, thread: u16, partner: u16) -> bool {
        let Some((role, session)) = self.asks(thread, partner) else {
            return false;
        };
        let seated = self.seated(role);
        match &mut self.seating {
            Seating::Unlimited => false,
            Seating::Followed(lines) => lines.waits(role, session, &seated),
            Seating::Asked(table) => table.waits(self.input, &self.words),
        }
    }

    /// The role with a limit that a lone thread is about to put on, and its session.
    fn asks(&self, thread: u16, partner: u16) -> Option<(u16, usize)> {
        let table = match &self.seating {
            Seating::Unlimited => return None,
            Seating::Followed(lines) => lines.table,
            Seating::Asked(table) => table,
        };
        let index = usize::from(thread)
            .checked_sub(1)
            .filter(|_| partner == 0)?;
        let found = self.desk.threads().get(index)?;
        let node = usize::from(found.node).checked_sub(1)?;
        let &[tag, role, _] = self.clinic.nodes.get(node)?;
        let user = usize::from(found.user).checked_sub(1)?;
        let &[assigned] = self.clinic.users.get(user)?;
        let asks = tag == 7 && table.limits(role) && has(assigned, role);
        asks.then(|| (role, self.roll.threads[index].session))
    }

    /// The sessions that have a thread with a role active.
    fn seated(&self, role: u16) -> Vec<usize> {
        let threads = self.desk.threads().iter().zip(&self.roll.threads);
        let mut sessions: Vec<usize> = threads
            .filter(|(thread, _)| has(thread.mask, role))
            .map(|(_, name)| name.session)
            .collect();
        sessions.sort_unstable();
        sessions.dedup();
        sessions
    }

    /// The seat that a thread stands at an on for and wouldn't get now, by lines that are
    /// followed.
    pub fn wait(&self, thread: u16) -> Option<Wait> {
        let (role, session) = self.asks(thread, 0)?;
        let Seating::Followed(lines) = &self.seating else {
            return None;
        };
        let (seated, line) = (self.seated(role), lines.line(role));
        let place = line.iter().position(|&one| one == session);
        (!lines.gives(role, session, &seated)).then(|| Wait {
            role,
            seats: lines.table.seats(role),
            seated,
            place: place.map(|index| index + 1),
        })
    }

    /// How far the run has come.
    pub fn moment(&self) -> Moment<'a> {
        let lines = match &self.seating {
            Seating::Followed(lines) => Some(lines.clone()),
            _ => None,
        };
        Moment {
            words: self.words.len(),
            waited: self.waited.len(),
            lines,
        }
    }

    /// Takes the choices since a moment back if none of them got a seat and all lines are as
    /// they were then. The same choices would change nothing again. Says whether that is so.
    pub fn takes_waits_back(&mut self, since: Moment<'a>) -> bool {
        let (Seating::Followed(lines), Some(before)) = (&mut self.seating, since.lines) else {
            return false;
        };
        let choices = (self.words.len() - since.words) / 2;
        let waits = self.waited.len() - since.waited;
        let is_still = waits == choices && lines.is_as(&before);
        if is_still {
            *lines = before;
            self.words.truncate(since.words);
            self.waited.truncate(since.waited);
        }
        is_still
    }

    /// Whether what was followed is what the engine answers for all choices at once.
    pub fn agrees(&self) -> bool {
        match &self.seating {
            Seating::Followed(lines) => lines.agree(self.input, &self.words, &self.desk),
            _ => true,
        }
    }
}

/// Whether a mask has a role, which is from 1 to 16.
fn has(mask: u16, role: u16) -> bool {
    matches!(role, 1..=16) && mask >> (role - 1) & 1 == 1
}
