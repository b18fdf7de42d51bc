//! A dispatcher's rounds. Each goes on from where the one before it left the run, so that it
//! costs its own choices alone. Request K5 says which choices a round tries, and the engine
//! carries them out.

use crate::choices;
use crate::clinic::KINDS;
use crate::follow::{Follower, Seating};
use crate::input::Input;
use crate::threads::Thread as Named;
use pilzdamo::{Thread, Verdict, RECORDS};
use std::collections::HashSet;

const END: u16 = 0;
const FORK: u16 = 1;
const REPEAT: u16 = 2;
const NEW: u16 = 3;
const RECEIVE: u16 = 5;
const SEND: u16 = 6;

/// A run that goes on round by round.
pub struct Rounds<'a> {
    pub run: Follower<'a>,
    /// The names of the sessions, if the file has names.
    sessions: Option<Vec<String>>,
    /// For each kind the roles that may receive on it, and those that may send.
    permitting: Vec<[u16; 2]>,
    /// Threads whose lone step was refused. What they have doesn't change before they step,
    /// so it stays refused.
    stuck: HashSet<Thread>,
    spared: Option<Spared>,
}

/// What sparing rounds keep.
#[derive(Default)]
pub struct Spared {
    /// Each repeat with the thread that it made last, while that one has met nobody.
    waiting: Vec<[Named; 2]>,
    /// How often a repeat was left out.
    pub left_out: usize,
}

impl Spared {
    /// The thread for which a repeat is left out.
    pub fn waits_for(&self, repeat: Named) -> Option<Named> {
        let waiting = self.waiting.iter().find(|[one, _]| *one == repeat);
        waiting.map(|[_, copy]| *copy)
    }

    /// A thread has met another, or has ended.
    fn went_on(&mut self, thread: Named) {
        self.waiting.retain(|[_, copy]| *copy != thread);
    }
}

impl<'a> Rounds<'a> {
    /// The start of a run, unless the engine refuses the file. Sparing rounds leave a repeat
    /// out until the thread that it made last has met another or has ended.
    pub fn start(
        input: &'a Input,
        seating: Seating<'a>,
        sparing: bool,
    ) -> Result<Rounds<'a>, Verdict> {
        let run = Follower::start(input, seating)?;
        let kinds = 1..=run.clinic.count(KINDS) as u16;
        let clinic = &run.clinic;
        let permitting = kinds.map(|kind| [RECEIVE, SEND].map(|tag| clinic.permitting(tag, kind)));
        Ok(Rounds {
            sessions: input.text.as_ref().map(|text| text.sessions()),
            permitting: permitting.collect(),
            stuck: HashSet::new(),
            spared: sparing.then(Spared::default),
            run,
        })
    }

    /// What was spared, if rounds are sparing.
    pub fn spared(&self) -> Option<&Spared> {
        self.spared.as_ref()
    }

    /// Does the next round, and gives its choices in a line, as a list has them; none if it
    /// is empty.
    pub fn go(&mut self) -> Option<String> {
        let mut told = Vec::new();
        // The threads of its start come first in the list, as far as they are still there.
        let mut moved = vec![false; self.run.desk.threads().len()];
        let mut at = 0;
        while at < moved.len() {
            let (name, thread) = (self.run.roll.threads[at], self.run.desk.threads()[at]);
            let tag = self.node(&thread)[0];
            let before = self.run.roll.threads.len();
            let Some(partner) = self.visit(at, &thread, tag, &moved) else {
                at += 1;
                continue;
            };
            told.push(self.choice(name, at, partner));
            self.spare(name, tag, partner);
            if self.run.roll.threads.len() < before {
                // It has ended, and the next thread has its place.
                moved.remove(at);
                continue;
            }
            moved[at] = true;
            if let Some(partner) = usize::from(partner).checked_sub(1) {
                moved[partner] = true;
            }
            at += 1;
        }
        (!told.is_empty()).then(|| told.join("  "))
    }

    /// Does what the thread at an index can do; gives its partner, 0 for a lone step.
    fn visit(&mut self, at: usize, thread: &Thread, tag: u16, moved: &[bool]) -> Option<u16> {
        let number = at as u16 + 1;
        if tag == SEND {
            let mut receivers = self.receivers(thread, moved).into_iter();
            return receivers.find(|&partner| self.run.tries(number, partner).is_ok());
        }
        if tag == RECEIVE || self.is_full(tag) || self.stuck.contains(thread) {
            return None;
        }
        if tag == REPEAT && self.leaves_out(at) {
            return None;
        }
        match self.run.tries(number, 0) {
            Ok(()) => Some(0),
            Err(_) => {
                self.stuck.insert(*thread);
                None
            }
        }
    }

    /// Whether a step would make a 65th thread or channel.
    fn is_full(&self, tag: u16) -> bool {
        match tag {
            FORK | REPEAT => self.run.desk.threads().len() == RECORDS,
            NEW => self.run.desk.made().len() == RECORDS,
            _ => false,
        }
    }

    /// The threads that can meet this sender and haven't moved, in the list's order.
    fn receivers(&self, sender: &Thread, moved: &[bool]) -> Vec<u16> {
        let channel = self.channel(sender);
        let kind = self.kind(channel);
        let Some(&[receiving, sending]) = kind.and_then(|kind| self.permitting.get(kind)) else {
            return Vec::new();
        };
        if sender.mask & sending == 0 {
            return Vec::new();
        }
        let meets = |thread: &Thread| {
            thread.mask & receiving != 0
                && self.node(thread)[0] == RECEIVE
                && self.channel(thread) == channel
        };
        let threads = (1..).zip(self.run.desk.threads().iter().zip(moved));
        let found = threads.filter(|(_, (thread, moved))| !**moved && meets(thread));
        found.map(|(number, _)| number).collect()
    }

    /// The node at which a thread stands.
    fn node(&self, thread: &Thread) -> [u16; 3] {
        let index = usize::from(thread.node).checked_sub(1);
        let node = index.and_then(|index| self.run.clinic.nodes.get(index));
        node.copied().unwrap_or_default()
    }

    /// The value of the channel at which a thread sends or receives.
    fn channel(&self, thread: &Thread) -> u16 {
        match self.node(thread)[1] {
            word @ 512..=519 => thread.vars[usize::from(word - 512)],
            word => word,
        }
    }

    /// The index of a channel's kind.
    fn kind(&self, channel: u16) -> Option<usize> {
        let kind = match channel {
            257..=320 => self.run.clinic.channels.get(usize::from(channel - 257))?[1],
            385..=448 => self.run.desk.made().nth(usize::from(channel - 385))?.kind,
            _ => return None,
        };
        usize::from(kind).checked_sub(1)
    }

    /// Whether a repeat is left out, which is then counted.
    fn leaves_out(&mut self, at: usize) -> bool {
        let repeat = self.run.roll.threads[at];
        let spared = self.spared.as_mut();
        let spared = spared.filter(|spared| spared.waits_for(repeat).is_some());
        spared.is_some_and(|spared| {
            spared.left_out += 1;
            true
        })
    }

    /// Keeps what a choice means for repeats: of a thread that had this tag, and of its
    /// partner, whose place in the list a meeting doesn't change.
    fn spare(&mut self, thread: Named, tag: u16, partner: u16) {
        let Some(spared) = &mut self.spared else {
            return;
        };
        let threads = &self.run.roll.threads;
        match (tag, usize::from(partner).checked_sub(1)) {
            (END, _) => spared.went_on(thread),
            (_, Some(partner)) => {
                spared.went_on(thread);
                spared.went_on(threads[partner]);
            }
            (REPEAT, _) => {
                let copy = threads.last();
                spared.waiting.extend(copy.map(|&copy| [thread, copy]));
            }
            _ => (),
        }
    }

    /// A choice as a list has it.
    fn choice(&self, thread: Named, at: usize, partner: u16) -> String {
        let Some(sessions) = &self.sessions else {
            return choices::line(&[at as u16 + 1, partner]);
        };
        let name = thread.name(sessions);
        match usize::from(partner).checked_sub(1) {
            None => name,
            Some(partner) => {
                let partner = self.run.roll.threads[partner].name(sessions);
                format!("{name} -> {partner}")
            }
        }
    }
}

#[cfg(test)]
mod tests;
