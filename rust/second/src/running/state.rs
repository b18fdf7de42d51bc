//! Threads and made channels as they stand, and what a choice does to them.

use super::{Halt, Thread};
use crate::file::{word, File};
use crate::roles::Rights;

/// The most threads that there can be.
pub const RECORDS: usize = 64;

/// The most made channels that there can be.
pub const MOST_MADE: usize = 64;

/// The kinds that there can be, for each of which a total is kept.
pub const TOTALS: usize = 32;

/// The words before the totals: how many threads there are, how many made
/// channels, and the owner and kind of each made channel.
pub const BEFORE_TOTALS: usize = 2 + 2 * MOST_MADE;

/// Words beside the threads. Last come the totals of kinds 1 to 32: how many
/// threads stand at a receive whose channel has that kind.
pub const BESIDE: usize = BEFORE_TOTALS + TOTALS;

pub const END: u16 = 0;
pub const FORK: u16 = 1;
pub const REPEAT: u16 = 2;
pub const NEW: u16 = 3;
pub const COMPARE: u16 = 4;
pub const RECEIVE: u16 = 5;
pub const SEND: u16 = 6;
pub const ON: u16 = 7;

/// The tag for a thread that stands at no node of the file: only a row that is lent has
/// such a one.
const NOWHERE: u16 = 9;

/// The values of the file's first channel and of the first that is made.
pub const NAMED: u16 = 257;
pub const MADE: u16 = 385;

/// The threads that there are.
pub fn counted<'s>(threads: &'s [Thread; RECORDS], beside: &[u16; BESIDE]) -> &'s [Thread] {
    &threads[..usize::from(beside[0])]
}

/// Owner and kind of the channels made so far.
pub fn made(beside: &[u16; BESIDE]) -> &[[u16; 2]] {
    let words = 2 * usize::from(beside[1]);
    beside[2..2 + words].as_chunks().0
}

/// The node at which a thread stands.
pub fn node_of(file: &File, thread: &Thread) -> [u16; 3] {
    match usize::from(thread.node) {
        node if node == 0 || node > file.nodes.len() => [NOWHERE, 0, 0],
        node => file.nodes.at(node - 1),
    }
}

/// The roles assigned to a user: none for what is no user.
pub fn assigned_to(file: &File, user: u16) -> u16 {
    let record = file.users.get(usize::from(user).wrapping_sub(1));
    record.map_or(0, |record| word(record, 0))
}

/// The kind of a channel, by its value; 0 for what is no channel.
pub fn kind_of(file: &File, beside: &[u16; BESIDE], channel: u16) -> u16 {
    match channel {
        MADE.. => {
            let made = made(beside).get(usize::from(channel - MADE));
            made.map_or(0, |[_, kind]| *kind)
        }
        NAMED.. => {
            let named = file.channels.get(usize::from(channel - NAMED));
            named.map_or(0, |channel| word(channel, 1))
        }
        _ => 0,
    }
}

/// The kind of the channel that a thread waits on; none if it isn't at a receive, or on
/// what is no channel.
pub fn waits_on(file: &File, beside: &[u16; BESIDE], thread: &Thread) -> Option<u16> {
    let [tag, operand, _] = node_of(file, thread);
    let waits = (tag == RECEIVE).then(|| kind_of(file, beside, thread.value_of(operand)));
    waits.filter(|kind| (1..=TOTALS).contains(&usize::from(*kind)))
}

/// The totals as they are kept.
pub fn totals(beside: &[u16; BESIDE]) -> &[u16; TOTALS] {
    beside.last_chunk().expect("they stand last")
}

/// The total of a kind from 1 to 32, to be changed.
pub fn total_mut(beside: &mut [u16; BESIDE], kind: u16) -> &mut u16 {
    &mut beside[BEFORE_TOTALS + usize::from(kind) - 1]
}

/// The totals that are due, from all threads.
pub fn count_totals(file: &File, threads: &[Thread], beside: &[u16; BESIDE]) -> [u16; TOTALS] {
    let mut totals = [0; TOTALS];
    for kind in threads.iter().filter_map(|it| waits_on(file, beside, it)) {
        totals[usize::from(kind) - 1] += 1;
    }
    totals
}

/// A state of a file: a run's own, or one that is lent.
pub struct State<'s, R> {
    pub file: &'s File<'s>,
    pub rights: &'s R,
    pub threads: &'s mut [Thread; RECORDS],
    pub beside: &'s mut [u16; BESIDE],
}

impl<R: Rights> State<'_, R> {
    /// Carries out a choice. Refused, it leaves the state as it was. The totals
    /// change by the receives that threads leave and come to; only a meeting
    /// leaves one.
    pub fn choose(&mut self, thread: u16, partner: u16) -> Result<(), Halt> {
        let at = self.index(thread, Halt::ThreadZero, Halt::ThreadAbove)?;
        let [tag, f1, f2] = node_of(self.file, &self.threads[at]);
        match tag {
            SEND => self.send(at, partner, f1, f2)?,
            RECEIVE => return Err(Halt::ReceiveFirst),
            NOWHERE => return Err(Halt::Nowhere),
            _ if partner != 0 => return Err(Halt::PartnerOfLone { tag }),
            END => {
                self.remove(at);
                return Ok(());
            }
            FORK => {
                self.add(at, f1, Halt::ThreadsFullAtFork)?;
                self.threads[at].advance();
            }
            REPEAT => {
                let child = self.threads[at].node + 1;
                self.add(at, child, Halt::ThreadsFullAtRepeat)?;
            }
            NEW => self.make(at, f1)?,
            COMPARE => self.threads[at].compare(f1, f2)?,
            ON => {
                let assigned = assigned_to(self.file, self.threads[at].user);
                self.threads[at].put_on(f1, assigned)?;
            }
            _ => self.threads[at].put_off(f1)?,
        }
        self.arrive(at);
        Ok(())
    }

    /// Adds the thread at `at` to its kind's total, if it has come to a receive.
    fn arrive(&mut self, at: usize) {
        if let Some(kind) = waits_on(self.file, self.beside, &self.threads[at]) {
            *total_mut(self.beside, kind) += 1;
        }
    }

    /// The kind of a channel, by its value.
    pub(super) fn kind_of(&self, channel: u16) -> u16 {
        kind_of(self.file, self.beside, channel)
    }

    /// How many threads there are.
    pub(super) fn count(&self) -> usize {
        self.beside[0].into()
    }

    /// Where the thread of this number stands in the list.
    fn index(&self, number: u16, zero: Halt, above: Halt) -> Result<usize, Halt> {
        match usize::from(number) {
            0 => Err(zero),
            number if number > self.count() => Err(above),
            number => Ok(number - 1),
        }
    }

    /// Takes a thread out; those after it move down by one.
    fn remove(&mut self, at: usize) {
        let count = self.count();
        self.threads.copy_within(at + 1..count, at);
        self.beside[0] -= 1;
    }

    /// Adds a last thread, like the one at `at` but for its node.
    fn add(&mut self, at: usize, node: u16, full: Halt) -> Result<(), Halt> {
        let count = self.count();
        if count == RECORDS {
            return Err(full);
        }
        self.threads[count] = self.threads[at].twin(node);
        self.beside[0] += 1;
        self.arrive(count);
        Ok(())
    }

    /// Makes a channel of the thread's user.
    fn make(&mut self, at: usize, kind: u16) -> Result<(), Halt> {
        let number = usize::from(self.beside[1]);
        if number == MOST_MADE {
            return Err(Halt::ChannelsFull);
        }
        let thread = &mut self.threads[at];
        self.beside[2 + 2 * number] = thread.user;
        self.beside[2 + 2 * number + 1] = kind;
        self.beside[1] += 1;
        thread.bind(MADE + number as u16);
        Ok(())
    }

    /// Sends `value` on `channel`, two operands of the thread at `from`.
    fn send(&mut self, from: usize, partner: u16, channel: u16, value: u16) -> Result<(), Halt> {
        let to = self.index(partner, Halt::SendAlone, Halt::SendPartnerAbove)?;
        let (sender, receiver) = (&self.threads[from], &self.threads[to]);
        let [tag, received_on, _] = node_of(self.file, receiver);
        if tag != RECEIVE {
            let itself = to == from;
            return Err(Halt::PartnerNotReceiving { itself });
        }
        let sent_on = sender.value_of(channel);
        let received_on = receiver.value_of(received_on);
        if !self.rights.may_send(sender.mask, self.kind_of(sent_on)) {
            return Err(Halt::SenderNotAllowed);
        }
        if !self
            .rights
            .may_receive(receiver.mask, self.kind_of(received_on))
        {
            return Err(Halt::ReceiverNotAllowed);
        }
        if sent_on != received_on {
            return Err(Halt::ChannelsDiffer);
        }
        let value = sender.value_of(value);
        *total_mut(self.beside, self.kind_of(received_on)) -= 1;
        self.threads[from].advance();
        self.threads[to].bind(value);
        self.arrive(to);
        Ok(())
    }
}
