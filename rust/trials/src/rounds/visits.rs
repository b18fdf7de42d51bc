//! A round gone through again, by labels: the threads of its start have those of
//! their numbers then, and those made meanwhile have none.

use crate::running::Replay;
use crate::schedule::halt_of;
use second::{Halt, Thread, RECORDS};
use std::collections::BTreeMap;

const END: u16 = 0;
const RECEIVE: u16 = 5;
const SEND: u16 = 6;

/// How often something came up in a round.
pub type Came = BTreeMap<&'static str, u64>;

/// What a thread of the start has done in this round.
#[derive(Clone, Copy, Default)]
struct Past {
    /// The last that moved it.
    moved: Option<Move>,
    met: bool,
    /// It was visited, and stood at a receive.
    waited: bool,
    /// As it stood at the start, if it could do a lone step there.
    could_step: Option<Thread>,
}

#[derive(Clone, Copy, PartialEq)]
enum Move {
    Step,
    Send,
    Receive,
}

/// A round from its start on.
pub struct Visits<'a> {
    replay: Replay<'a>,
    /// The label of each thread, 0 for one that was made meanwhile.
    labels: Vec<usize>,
    past: [Past; RECORDS + 1],
    came: Came,
}

/// One thread's turn: its number and label.
#[derive(Clone, Copy)]
struct Turn {
    number: u16,
    label: usize,
}

impl<'a> Visits<'a> {
    /// The start of a round after choices that are all done.
    pub fn after(file: &'a [u8], choices: &[u16]) -> Visits<'a> {
        let mut replay = Replay::start(file);
        for &[thread, partner] in choices.as_chunks().0 {
            replay.run.choose(thread, partner).expect("it is done");
        }
        let labels: Vec<usize> = (1..=replay.run.threads().len()).collect();
        let mut past = [Past::default(); RECORDS + 1];
        for (&label, &thread) in labels.iter().zip(replay.run.threads()) {
            let steps = halt_of(&replay.run, [label as u16, 0]).is_none();
            past[label].could_step = steps.then_some(thread);
        }
        Visits {
            replay,
            labels,
            past,
            came: Came::new(),
        }
    }

    /// Goes through the round by these choices, which have to be those that are
    /// due, and says what came up.
    pub fn through(mut self, choices: &[[u16; 2]]) -> Result<Came, String> {
        let all = self.labels.len();
        let mut left = choices.iter();
        for label in 1..=all {
            let at = self.labels.iter().position(|&found| found == label);
            let at = at.ok_or(format!("{label} ended before its visit"))?;
            let turn = Turn {
                number: at as u16 + 1,
                label,
            };
            let partner = self.visit(turn, label < all)?;
            if let Some(partner) = partner {
                let due = [turn.number, partner];
                let choice = left.next();
                if choice != Some(&due) {
                    return Err(format!("{choice:?} where {due:?} is due"));
                }
            }
        }
        if let Some(choice) = left.next() {
            return Err(format!("{choice:?} after all visits"));
        }
        self.note("rounds", true);
        self.note("no threads", all == 0);
        self.note("idle rounds", all > 0 && choices.is_empty());
        self.note("rounds of 64 choices", choices.len() == 64);
        Ok(self.came)
    }

    fn note(&mut self, what: &'static str, shown: bool) {
        *self.came.entry(what).or_default() += u64::from(shown);
    }

    fn tag_of(&self, number: u16) -> u16 {
        self.replay.node_of(self.replay.thread(number))[0]
    }

    /// The numbers of the threads at a receive.
    fn receivers(&self) -> Vec<u16> {
        let numbers = 1..=self.labels.len() as u16;
        numbers
            .filter(|&number| self.tag_of(number) == RECEIVE)
            .collect()
    }

    fn label_of(&self, number: u16) -> usize {
        self.labels[usize::from(number) - 1]
    }

    /// Whether a thread is there from the start and has not moved.
    fn can_receive(&self, number: u16) -> bool {
        let label = self.label_of(number);
        label != 0 && self.past[label].moved.is_none()
    }

    /// Carries out what is due at a visit, and gives the partner.
    fn visit(&mut self, turn: Turn, more: bool) -> Result<Option<u16>, String> {
        match self.tag_of(turn.number) {
            RECEIVE => {
                self.past[turn.label].waited = true;
                Ok(None)
            }
            SEND => Ok(self.send(turn)),
            tag => self.step(turn, tag, more),
        }
    }

    fn step(&mut self, turn: Turn, tag: u16, more: bool) -> Result<Option<u16>, String> {
        let Past {
            could_step, met, ..
        } = self.past[turn.label];
        if could_step.is_some_and(|then| then != *self.replay.thread(turn.number)) {
            return Err(format!("{} is another at its visit", turn.label));
        }
        if let Some(halt) = halt_of(&self.replay.run, [turn.number, 0]) {
            let by_20 = halt.number() == 20;
            if could_step.is_some() && !by_20 {
                return Err(format!("{} held by {halt:?}", turn.label));
            }
            let by_channels = halt == Halt::ChannelsFull;
            self.note("20 by threads held a thread", by_20 && !by_channels);
            self.note("20 by channels held a thread", by_channels);
            let since = could_step.is_some();
            self.note("20 held a thread that could step at the start", since);
            self.note("a lone step refused otherwise", !by_20);
            return Ok(None);
        }
        self.note("met, then steps", met);
        self.note("an end before later visits", tag == END && more);
        self.past[turn.label].moved = Some(Move::Step);
        self.choose(turn, 0);
        Ok(Some(0))
    }

    /// A sender's visit.
    fn send(&mut self, turn: Turn) -> Option<u16> {
        let receivers = self.receivers();
        let halt = |&receiver: &u16| halt_of(&self.replay.run, [turn.number, receiver]);
        let halts: Vec<_> = receivers.iter().map(halt).collect();
        let found =
            (0..receivers.len()).find(|&at| halts[at].is_none() && self.can_receive(receivers[at]));
        let passed = found.unwrap_or(receivers.len());
        for (&receiver, &halt) in receivers[..passed].iter().zip(&halts) {
            self.pass_over(receiver, halt, found.is_some());
        }
        let partner = receivers[found?];
        let label = self.label_of(partner);
        self.note("meetings", true);
        self.note("met after an idle visit", self.past[label].waited);
        self.note("met, then sends", self.past[turn.label].met);
        let channel = self.replay.channel_of(self.replay.thread(turn.number));
        self.note("a send on a made channel", channel >= 385);
        self.past[turn.label].moved = Some(Move::Send);
        self.past[label].moved = Some(Move::Receive);
        self.past[label].met = true;
        self.choose(turn, partner);
        Some(partner)
    }

    /// Notes why a receiver isn't met, with another after it or none.
    fn pass_over(&mut self, receiver: u16, halt: Option<Halt>, for_another: bool) {
        let label = self.label_of(receiver);
        if halt.is_none() {
            // They could meet.
            let moved = self.past[label].moved;
            self.note("a made thread at a receive not met", label == 0);
            self.note("moved onto a receive and so not met", label != 0);
            let by = |due: Move| label != 0 && moved == Some(due);
            self.note("onto it by a lone step", by(Move::Step));
            self.note("onto it by a send", by(Move::Send));
            self.note("onto it by a receive", by(Move::Receive));
            let behind = label != 0 && for_another;
            self.note("moved onto a receive, and another met", behind);
        } else if self.can_receive(receiver) {
            let number = halt.map_or(0, Halt::number);
            self.note("13 passed over", number == 13 && for_another);
            self.note("19 passed over", number == 19 && for_another);
            let nobody = number == 13 && !for_another;
            self.note("13 and nobody met", nobody);
        }
    }

    /// Carries out a choice that is due, and labels what comes of it.
    fn choose(&mut self, turn: Turn, partner: u16) {
        let run = &mut self.replay.run;
        let before = run.threads().len();
        run.choose(turn.number, partner).expect("it is due");
        let after = run.threads().len();
        if after < before {
            self.labels.remove(usize::from(turn.number) - 1);
        } else if after > before {
            self.labels.push(0);
        }
    }
}
