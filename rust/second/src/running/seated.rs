//! Seats per role: runs in which a role may have a limit, and sessions wait in line.

mod row;

use super::round::{go_round, Choices, Visited};
use super::state::{assigned_to, node_of, State, ON, RECORDS, TOTALS};
use super::{refuse_if, Halt, Run, Thread};
use crate::cause::{Cause, Refusal};
use crate::file::{three, File, Section};
use crate::roles::{has, Permitted};
use crate::Verdict;

/// The most roles of a file.
pub const ROLES: usize = Section::Roles.most() as usize;

/// The most sessions of a file, and so the most in a line.
const SESSIONS: usize = Section::Sessions.most() as usize;

/// The words of all lines: as many for each role as there can be sessions.
pub const LINE_WORDS: usize = ROLES * SESSIONS;

/// The most seats that a role can have.
const MOST_SEATS: u16 = 32;

/// Refusal 17 for a table of seats: one word a role, at most 32.
pub fn judge_table(file: &File, table: &[u16]) -> Result<(), Refusal> {
    refuse_if(table.len() < file.roles.len(), Cause::SeatsShort)?;
    refuse_if(table.len() > file.roles.len(), Cause::SeatsLong)?;
    let above = table.iter().any(|&seats| seats > MOST_SEATS);
    refuse_if(above, Cause::SeatsAbove)
}

/// What a choice that isn't refused is answered.
#[derive(Clone, Copy, Debug, PartialEq, Eq)]
pub enum Answer {
    /// It is a step.
    Done,
    /// 26: it is an on that gets no seat, and only a line changes by it, if anything.
    NoSeat,
}

/// The sessions that wait for a seat in a role, the first of them in front.
#[derive(Clone, Copy, Debug, PartialEq, Eq, Hash)]
struct Line {
    sessions: [u16; SESSIONS],
    count: usize,
}

impl Line {
    const EMPTY: Line = Line {
        sessions: [0; SESSIONS],
        count: 0,
    };

    fn of(waiting: &[u16]) -> Line {
        let mut line = Line::EMPTY;
        line.sessions[..waiting.len()].copy_from_slice(waiting);
        line.count = waiting.len();
        line
    }

    fn waiting(&self) -> &[u16] {
        &self.sessions[..self.count]
    }

    /// A session joins at the end, unless it is in the line.
    fn join(&mut self, session: u16) {
        if !self.waiting().contains(&session) {
            self.sessions[self.count] = session;
            self.count += 1;
        }
    }

    /// The head leaves.
    fn leave(&mut self) {
        self.sessions.copy_within(1..self.count, 0);
        self.count -= 1;
        self.sessions[self.count] = 0;
    }
}

/// What there is beside the threads of a run with seats.
#[derive(Clone)]
struct Seats {
    /// The seats of each role, 0 where there is no limit.
    limits: [u16; ROLES],
    /// The session of each thread: that of its start, or of the thread that made it.
    owners: [u16; RECORDS],
    lines: [Line; ROLES],
    waited: u16,
    last: u16,
}

/// A run with seats.
#[derive(Clone)]
pub struct SeatedRun<'a> {
    run: Run<'a>,
    seats: Seats,
}

impl<'a> SeatedRun<'a> {
    /// The file's start with a table that 17 leaves clean. 26 where the starting masks,
    /// taken in order, overfill a role, at the session that does.
    pub(crate) fn start(file: File<'a>, table: &[u16]) -> Result<SeatedRun<'a>, Refusal> {
        let mut limits = [0; ROLES];
        limits[..table.len()].copy_from_slice(table);
        let mut taken = [0; ROLES];
        let mut owners = [0; RECORDS];
        for (session, record) in (1..).zip(file.sessions) {
            owners[usize::from(session) - 1] = session;
            let [_, mask, _] = three(record);
            for (role, taken) in taken.iter_mut().enumerate() {
                *taken += mask >> role & 1;
                if limits[role] != 0 && *taken > limits[role] {
                    return Err(Refusal {
                        cause: Cause::StartOverfills,
                        place: session,
                    });
                }
            }
        }
        let seats = Seats {
            limits,
            owners,
            lines: [Line::EMPTY; ROLES],
            waited: 0,
            last: 0,
        };
        let run = Run::start(file);
        Ok(SeatedRun { run, seats })
    }

    /// The run as it stands.
    pub fn run(&self) -> &Run<'a> {
        &self.run
    }

    /// The session of each thread.
    pub fn owners(&self) -> &[u16] {
        &self.seats.owners[..self.run.threads().len()]
    }

    /// The sessions that have a thread with this role active, as a mask.
    pub fn seated(&self, role: u16) -> u32 {
        seated(self.run.threads(), &self.seats.owners, role)
    }

    /// The sessions that wait for a seat in this role, the first in front.
    pub fn line(&self, role: u16) -> &[u16] {
        self.seats.lines[usize::from(role) - 1].waiting()
    }

    /// Carries out a choice. Refused, it leaves all as it was.
    pub fn choose(&mut self, thread: u16, partner: u16) -> Result<Answer, Halt> {
        self.state().choose(thread, partner)
    }

    /// Carries out the choices up to the first that is refused.
    pub(crate) fn go_through(&mut self, choices: &[u16]) -> Result<(), Refusal> {
        let mut state = self.state();
        for (done, &[thread, partner]) in choices.as_chunks().0.iter().enumerate() {
            if let Err(halt) = state.choose(thread, partner) {
                return Err(Refusal {
                    cause: Cause::Choice(halt),
                    place: done as u16 + 1,
                });
            }
        }
        Ok(())
    }

    /// Carries out a round.
    pub(crate) fn go_round(&mut self) -> Choices {
        go_round(&mut self.state())
    }

    /// Writes the state, and nothing past it. Gives its length in bytes.
    pub(crate) fn write(&self, done: u16, refusal: u16, out: &mut [u8]) -> u16 {
        self.run.write(done, refusal, out)
    }

    /// What is read of it.
    pub(crate) fn read(&self, verdict: Verdict) -> crate::Seats {
        let mut line = [0; LINE_WORDS];
        for (words, line) in line
            .as_chunks_mut::<SESSIONS>()
            .0
            .iter_mut()
            .zip(&self.seats.lines)
        {
            *words = line.sessions;
        }
        crate::Seats {
            number: verdict.number,
            place: verdict.place,
            waited: self.seats.waited,
            last: self.seats.last,
            taken: std::array::from_fn(|role| self.seated(role as u16 + 1).count_ones() as u16),
            waiting: self.seats.lines.map(|line| line.count as u16),
            line,
            totals: self.totals(),
        }
    }

    fn totals(&self) -> [u16; TOTALS] {
        *self.run.totals()
    }

    fn state(&mut self) -> Seated<'_> {
        Seated {
            state: self.run.state(),
            seats: &mut self.seats,
        }
    }
}

/// The sessions that have a thread with this role active, as a mask.
fn seated(threads: &[Thread], owners: &[u16], role: u16) -> u32 {
    let mut sessions = 0;
    for (thread, owner) in threads.iter().zip(owners) {
        if has(thread.mask.into(), role) {
            sessions |= 1 << (owner - 1);
        }
    }
    sessions
}

/// A state, and the seats beside it.
struct Seated<'s> {
    state: State<'s, Permitted>,
    seats: &'s mut Seats,
}

impl Seated<'_> {
    /// Carries out a choice. Refused, it leaves all as it was.
    fn choose(&mut self, thread: u16, partner: u16) -> Result<Answer, Halt> {
        if let Some((role, session)) = self.asks(thread, partner) {
            if !self.gets(role, session) {
                self.line_of(role).join(session);
                self.seats.waited += 1;
                self.seats.last = 26;
                return Ok(Answer::NoSeat);
            }
            if self.line_of(role).count > 0 {
                self.line_of(role).leave();
            }
        }
        let before = self.state.count();
        self.state.choose(thread, partner)?;
        let (at, after) = (usize::from(thread) - 1, self.state.count());
        if after > before {
            self.seats.owners[before] = self.seats.owners[at];
        } else if after < before {
            self.seats.owners.copy_within(at + 1..before, at);
        }
        self.seats.last = 0;
        Ok(Answer::Done)
    }

    /// The role and the session of a choice that asks for a seat: an on of a role that
    /// is its user's, has a limit, and that no thread of its session has active.
    fn asks(&self, thread: u16, partner: u16) -> Option<(u16, u16)> {
        let at = usize::from(thread).wrapping_sub(1);
        if partner != 0 || at >= self.state.count() {
            return None;
        }
        let own = &self.state.threads[at];
        let [tag, role, _] = node_of(self.state.file, own);
        if tag != ON || self.seats.limits[usize::from(role) - 1] == 0 {
            return None;
        }
        let assigned = assigned_to(self.state.file, own.user);
        let session = self.seats.owners[at];
        let asks = has(assigned.into(), role) && !has(self.seated(role), session);
        asks.then_some((role, session))
    }

    /// Whether a session without a seat gets one: one is free, and there is no line or
    /// the session is its head.
    fn gets(&self, role: u16, session: u16) -> bool {
        let line = self.seats.lines[usize::from(role) - 1];
        let taken = self.seated(role).count_ones();
        let free = taken < self.seats.limits[usize::from(role) - 1].into();
        free && line.waiting().first().is_none_or(|&head| head == session)
    }

    fn seated(&self, role: u16) -> u32 {
        let threads = &self.state.threads[..self.state.count()];
        seated(threads, &self.seats.owners, role)
    }

    fn line_of(&mut self, role: u16) -> &mut Line {
        &mut self.seats.lines[usize::from(role) - 1]
    }
}

/// A visit that gets no seat is in the round's list.
impl Visited for Seated<'_> {
    fn count(&self) -> usize {
        self.state.count()
    }

    fn partner(&self, at: usize, moved: &[bool]) -> Option<u16> {
        self.state.partner(at, moved)
    }

    fn goes(&mut self, thread: u16, partner: u16) -> bool {
        self.choose(thread, partner).is_ok()
    }
}
