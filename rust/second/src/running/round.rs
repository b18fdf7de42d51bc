//! A dispatcher's round: every thread of its start is visited once.

use super::state::{node_of, State, RECEIVE, RECORDS, SEND};
use super::Thread;
use crate::roles::Rights;

/// Words of a round's choices: as many choices as there can be threads.
pub const ROUND_WORDS: usize = 2 * RECORDS;

/// The choices of a round, 0 past the last, and how many they are.
pub struct Choices {
    pub words: [u16; ROUND_WORDS],
    pub count: usize,
}

impl Choices {
    fn push(&mut self, thread: u16, partner: u16) {
        self.words[2 * self.count] = thread;
        self.words[2 * self.count + 1] = partner;
        self.count += 1;
    }
}

/// What a round goes through: threads, and choices of them.
pub trait Visited {
    /// How many threads there are.
    fn count(&self) -> usize;

    /// The partner of what the thread at `at` may do now, 0 for a lone step; none if
    /// there is nothing. Those that have moved can't be met.
    fn partner(&self, at: usize, moved: &[bool]) -> Option<u16>;

    /// Carries out a choice, unless it is refused.
    fn goes(&mut self, thread: u16, partner: u16) -> bool;
}

/// Carries out a round. The threads of its start that are still there are the first
/// of the list, as those made meanwhile come last.
pub fn go_round(visited: &mut impl Visited) -> Choices {
    let mut choices = Choices {
        words: [0; ROUND_WORDS],
        count: 0,
    };
    let mut present = visited.count();
    let mut moved = [false; RECORDS];
    let mut at = 0;
    while at < present {
        let before = visited.count();
        let thread = at as u16 + 1;
        let partner = visited.partner(at, &moved[..present]);
        let partner = partner.filter(|&partner| visited.goes(thread, partner));
        let Some(partner) = partner else {
            at += 1;
            continue;
        };
        choices.push(thread, partner);
        if visited.count() < before {
            // It has ended, and the next thread has its place.
            moved.copy_within(at + 1..present, at);
            present -= 1;
            continue;
        }
        moved[at] = true;
        if partner != 0 {
            moved[usize::from(partner) - 1] = true;
        }
        at += 1;
    }
    choices
}

impl<R: Rights> Visited for State<'_, R> {
    fn count(&self) -> usize {
        State::count(self)
    }

    fn partner(&self, at: usize, moved: &[bool]) -> Option<u16> {
        let [tag, _, _] = node_of(self.file, &self.threads[at]);
        match tag {
            RECEIVE => None,
            SEND => self.receiver(at, moved),
            _ => Some(0),
        }
    }

    fn goes(&mut self, thread: u16, partner: u16) -> bool {
        self.choose(thread, partner).is_ok()
    }
}

impl<R: Rights> State<'_, R> {
    /// The first that can receive from the sender at `at` and has not moved.
    fn receiver(&self, at: usize, moved: &[bool]) -> Option<u16> {
        let sender = &self.threads[at];
        let [_, operand, _] = node_of(self.file, sender);
        let channel = sender.value_of(operand);
        let kind = self.kind_of(channel);
        if !self.rights.may_send(sender.mask, kind) {
            return None;
        }
        let can_meet = |thread: &Thread| {
            let [tag, operand, _] = node_of(self.file, thread);
            tag == RECEIVE
                && thread.value_of(operand) == channel
                && self.rights.may_receive(thread.mask, kind)
        };
        let mut threads = self.threads.iter().zip(moved);
        let found = threads.position(|(thread, moved)| !moved && can_meet(thread))?;
        Some(found as u16 + 1)
    }
}
