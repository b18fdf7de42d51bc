//! What happens in a run, step by step.

use second::draft::Draft;
use second::{Run, Thread};

/// The sends that are done in a run.
pub fn sends_in(file: &[u8], choices: &[u16]) -> u64 {
    Replay::start(file).sends_in(choices, |_, _| {})
}

/// A run that is gone through again by the second implementation, to see what
/// happens in it.
pub struct Replay<'a> {
    pub run: Run<'a>,
    nodes: Vec<[u16; 3]>,
    channels: Vec<[u16; 2]>,
}

/// What is known of a state's ready pair: whether there is one, and whether a
/// lower send, or a lower receive, is passed over.
pub struct Meeting {
    pub ready: bool,
    pub past_send: bool,
    pub past_receive: bool,
}

impl<'a> Replay<'a> {
    pub fn start(file: &'a [u8]) -> Replay<'a> {
        let Draft {
            nodes, channels, ..
        } = Draft::of(file);
        Replay {
            run: second::begin(file).expect("1 to 10 leave it clean"),
            nodes,
            channels,
        }
    }

    pub fn thread(&self, number: u16) -> &Thread {
        &self.run.threads()[usize::from(number) - 1]
    }

    pub fn node_of(&self, thread: &Thread) -> [u16; 3] {
        self.nodes[usize::from(thread.node) - 1]
    }

    /// The channel that a thread at a send or receive names.
    pub fn channel_of(&self, thread: &Thread) -> u16 {
        match self.node_of(thread)[1] {
            operand @ 512.. => thread.variables[usize::from(operand) - 512],
            operand => operand,
        }
    }

    /// The kind of a channel that a thread at a send or receive names.
    pub fn kind_of(&self, thread: &Thread) -> u16 {
        let channel = usize::from(self.channel_of(thread));
        let [_, kind] = match channel.checked_sub(385) {
            Some(number) => self.run.made()[number],
            None => self.channels[channel - 257],
        };
        kind
    }

    /// What there is to say of the ready pair.
    pub fn meeting(&self) -> Meeting {
        let (sender, receiver) = self.run.ready();
        let lower = |number: u16, tag| {
            let lower = usize::from(number).saturating_sub(1);
            let mut threads = self.run.threads()[..lower].iter();
            threads.any(|thread| self.node_of(thread)[0] == tag)
        };
        Meeting {
            ready: sender != 0,
            past_send: lower(sender, 6),
            past_receive: lower(receiver, 5),
        }
    }

    /// Goes on to the end of the list, or to the choice that is refused, and
    /// notes what comes up. Gives the number of sends.
    pub fn sends_in(&mut self, choices: &[u16], mut note: impl FnMut(&'static str, bool)) -> u64 {
        let mut sends = 0;
        for &[thread, partner] in choices.as_chunks().0 {
            let before = self.run.threads().get(usize::from(thread).wrapping_sub(1));
            let before = before.copied();
            let after_it = self.run.threads().len() > usize::from(thread);
            let met = partner != 0 && usize::from(partner) <= self.run.threads().len();
            let receiver = met.then(|| *self.thread(partner));
            if self.run.choose(thread, partner).is_err() {
                break;
            }
            note("choices done", true);
            let sender = before.expect("a choice that is done has a thread");
            let [tag, operand, _] = self.node_of(&sender);
            note("ends with threads behind", tag == 0 && after_it);
            let Some(receiver) = receiver else { continue };
            sends += 1;
            let channel = self.channel_of(&sender);
            let on_made = channel >= 385;
            let value = self.thread(partner).variables;
            let value = value[receiver.variables.iter().filter(|v| **v != 0).count()];
            let maker = on_made && self.run.made()[usize::from(channel) - 385][0] == sender.user;
            note("sends done", true);
            note("sends to a thread before", partner < thread);
            note("sends on a made channel", on_made);
            note("sends of a made channel", value >= 385);
            let received = operand >= 512 && (257..385).contains(&channel);
            note("sends on a channel that was received", received);
            note("sends on a made channel of another user", on_made && !maker);
        }
        sends
    }
}
