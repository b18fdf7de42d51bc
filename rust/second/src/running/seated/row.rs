//! A state of a run with seats as the words of a row.

use super::super::state::{count_totals, BEFORE_TOTALS, MOST_MADE, RECORDS};
use super::super::THREAD_WORDS;
use super::{Line, SeatedRun, SESSIONS};
use crate::roles::has;
use crate::running::Thread;

/// How many words the row has with which these begin; none where one is missing, or where
/// it has more threads, made channels or sessions in a line than there can be.
fn row_length(words: &[u16], roles: usize) -> Option<usize> {
    let (counts, _) = words.split_first_chunk()?;
    let [threads, made] = counts.map(usize::from);
    let mut end = 2 + 2 * made + (THREAD_WORDS + 1) * threads;
    let mut fits = threads <= RECORDS && made <= MOST_MADE && end <= words.len();
    for _ in 0..roles {
        let waiting = usize::from(*words.get(end)?);
        end += 1 + waiting;
        fits &= waiting <= SESSIONS && end <= words.len();
    }
    fits.then_some(end)
}

impl SeatedRun<'_> {
    /// The words of its row: the run's output from its third word on, the session of each
    /// thread, and for each role of the file how many wait for it and who, the first in
    /// front.
    pub fn row(&self) -> Vec<u16> {
        let mut words = Vec::new();
        self.each_part(|part| {
            words.extend(part);
            true
        });
        words
    }

    /// Whether some words begin with its row.
    pub(crate) fn begins(&self, words: &[u16]) -> bool {
        let mut rest = words;
        self.each_part(|part| match rest.strip_prefix(part) {
            Some(behind) => {
                rest = behind;
                true
            }
            None => false,
        })
    }

    /// How many words its row has.
    pub(crate) fn length(&self) -> usize {
        let mut length = 0;
        self.each_part(|part| {
            length += part.len();
            true
        });
        length
    }

    /// Writes its row into as many words.
    pub(crate) fn write_row(&self, out: &mut [u16]) {
        let mut at = 0;
        self.each_part(|part| {
            out[at..at + part.len()].copy_from_slice(part);
            at += part.len();
            true
        });
    }

    /// Visits the words of its row, some at a time, as long as the visit answers true.
    /// Whether all did.
    fn each_part(&self, mut visit: impl FnMut(&[u16]) -> bool) -> bool {
        let (threads, made) = (self.run.threads(), self.run.made());
        let lines = &self.seats.lines[..self.run.file.roles.len()];
        visit(&[threads.len() as u16, made.len() as u16])
            && visit(made.as_flattened())
            && threads.iter().all(|thread| visit(&thread.words()))
            && visit(self.owners())
            && lines
                .iter()
                .all(|line| visit(&[line.count as u16]) && visit(line.waiting()))
    }

    /// Goes to the state whose row some words begin with, if it has all its words and is
    /// in order; how many words it has. Its threads and made channels may have any words,
    /// so that it need be no state that the run can come to.
    pub(crate) fn stand_in_order(&mut self, words: &[u16]) -> Option<usize> {
        let length = row_length(words, self.run.file.roles.len())?;
        self.stand(words);
        self.is_in_order().then_some(length)
    }

    /// Goes to the state whose row these words are, no more and no less, if it is in order.
    pub(crate) fn stand_exactly(&mut self, words: &[u16]) -> bool {
        self.stand_in_order(words) == Some(words.len()) && self.begins(words)
    }

    /// What holds in every state of a run with seats: each thread's session is one of the
    /// file's, and each role is in order.
    fn is_in_order(&self) -> bool {
        let roles = self.run.file.roles.len() as u16;
        let known = self.owners().iter().all(|owner| self.has_session(*owner));
        known && (1..=roles).all(|role| self.is_role_in_order(role))
    }

    /// A role without limit has no line. One with a limit has no more sessions in it than
    /// seats, and in its line sessions of the file, none that is in the role and none twice.
    fn is_role_in_order(&self, role: u16) -> bool {
        let (limit, line) = (self.seats.limits[usize::from(role) - 1], self.line(role));
        if limit == 0 {
            return line.is_empty();
        }
        let seated = self.seated(role);
        let may_wait = |(before, session): (usize, &u16)| {
            let again = line[..before].contains(session);
            self.has_session(*session) && !has(seated, *session) && !again
        };
        seated.count_ones() <= limit.into() && line.iter().enumerate().all(may_wait)
    }

    fn has_session(&self, session: u16) -> bool {
        (1..=self.run.file.sessions.len()).contains(&session.into())
    }

    /// Goes to the state whose row these words begin with; they have all that belong to it.
    pub(crate) fn stand(&mut self, words: &[u16]) {
        let (&[threads, made], _) = words.split_first_chunk().expect("a row's counts");
        let (beside, words) = words.split_at(2 + 2 * usize::from(made));
        self.run.beside[..beside.len()].copy_from_slice(beside);
        let (records, words) = words.split_at(THREAD_WORDS * usize::from(threads));
        let records = records.as_chunks::<THREAD_WORDS>().0;
        for (thread, record) in self.run.threads.iter_mut().zip(records) {
            *thread = Thread::of(record);
        }
        let (owners, mut words) = words.split_at(threads.into());
        self.seats.owners[..owners.len()].copy_from_slice(owners);
        for line in &mut self.seats.lines[..self.run.file.roles.len()] {
            let (&count, rest) = words.split_first().expect("a line's count");
            let waiting;
            (waiting, words) = rest.split_at(count.into());
            *line = Line::of(waiting);
        }
        let totals = count_totals(&self.run.file, self.run.threads(), &self.run.beside);
        self.run.beside[BEFORE_TOTALS..].copy_from_slice(&totals);
        (self.seats.waited, self.seats.last) = (0, 0);
    }
}
