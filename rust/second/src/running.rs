//! Running: refusals 17 to 20 and 26, and 11 to 13 at a choice.

mod halt;
mod lent;
mod round;
mod seated;
mod state;
mod thread;
mod unfit;

pub use halt::Halt;
pub use lent::{Lent, Scopes};
pub use round::{Choices, ROUND_WORDS};
pub use seated::{judge_table, Answer, SeatedRun, LINE_WORDS, ROLES};
pub use state::{State, BEFORE_TOTALS, BESIDE, RECORDS, TOTALS};
pub use thread::Thread;
pub use unfit::Unfit;

use crate::cause::{Cause, Refusal};
use crate::draft::set_word;
use crate::file::File;
use crate::roles::{Permitted, Rights};
use state::{count_totals, counted, kind_of, made, node_of, totals, RECEIVE, SEND};

/// The bytes that a run's output must have, whatever is written there.
pub const RUN_ROOM: usize = 1_800;

/// The most choices of a list.
pub const MOST_CHOICES: usize = 65_535;

/// The most choices before a round, so that a list has room for the round's too.
pub const BEFORE_ROUND: usize = MOST_CHOICES - ROUND_WORDS / 2;

/// Words of a thread in the output.
const THREAD_WORDS: usize = 12;

/// Refusal 17 for the output.
pub fn judge_room(room: usize) -> Result<(), Refusal> {
    refuse_if(room < RUN_ROOM, Cause::OutputTooShort)
}

/// Refusal 17 for so many words of choices, of which there may be `most`.
pub fn judge_list(words: usize, most: usize) -> Result<(), Refusal> {
    refuse_if(!words.is_multiple_of(2), Cause::OddChoices)?;
    refuse_if(words / 2 > most, Cause::TooManyChoices)
}

fn refuse_if(wrong: bool, cause: Cause) -> Result<(), Refusal> {
    if wrong {
        return Err(Refusal { cause, place: 0 });
    }
    Ok(())
}

/// A file that meets refusals 1 to 10 clean, and the state of a run of it.
#[derive(Clone)]
pub struct Run<'a> {
    file: File<'a>,
    permitted: Permitted,
    threads: [Thread; RECORDS],
    beside: [u16; BESIDE],
}

impl<'a> Run<'a> {
    /// The file's start, in owned lists.
    pub(crate) fn start(file: File<'a>) -> Run<'a> {
        let (mut threads, mut beside) = ([Thread::default(); RECORDS], [0; BESIDE]);
        let lists = Lent {
            threads: &mut threads,
            beside: &mut beside,
        };
        lists.start(&file);
        Run {
            permitted: Permitted::of(&file),
            threads,
            beside,
            file,
        }
    }

    /// The state that is lent.
    pub(crate) fn resume(file: File<'a>, lent: Lent) -> Run<'a> {
        Run {
            permitted: Permitted::of(&file),
            threads: *lent.threads,
            beside: *lent.beside,
            file,
        }
    }

    /// The threads that there are.
    pub fn threads(&self) -> &[Thread] {
        counted(&self.threads, &self.beside)
    }

    /// Owner and kind of the channels made so far.
    pub fn made(&self) -> &[[u16; 2]] {
        made(&self.beside)
    }

    /// For each kind from 1 on how many threads stand at a receive whose channel has
    /// that kind, as the run keeps them.
    pub fn totals(&self) -> &[u16; TOTALS] {
        totals(&self.beside)
    }

    /// The totals counted anew, from all threads.
    pub fn counted_totals(&self) -> [u16; TOTALS] {
        count_totals(&self.file, self.threads(), &self.beside)
    }

    /// Carries out the choices up to the first that is refused.
    pub(crate) fn go_through(&mut self, choices: &[u16]) -> Result<(), Refusal> {
        for (done, &[thread, partner]) in choices.as_chunks().0.iter().enumerate() {
            if let Err(halt) = self.choose(thread, partner) {
                return Err(Refusal {
                    cause: Cause::Choice(halt),
                    place: done as u16 + 1,
                });
            }
        }
        Ok(())
    }

    /// Carries out a choice. Refused, it leaves the state as it was.
    pub fn choose(&mut self, thread: u16, partner: u16) -> Result<(), Halt> {
        self.state().choose(thread, partner)
    }

    /// Carries out a round.
    pub(crate) fn go_round(&mut self) -> Choices {
        round::go_round(&mut self.state())
    }

    fn state(&mut self) -> State<'_, Permitted> {
        State {
            file: &self.file,
            rights: &self.permitted,
            threads: &mut self.threads,
            beside: &mut self.beside,
        }
    }

    /// The lowest sender, then the lowest receiver that can meet it without
    /// refusal; 0 and 0 if no pair exists.
    pub fn ready(&self) -> (u16, u16) {
        // The channel that each thread may receive on now, 0 for none.
        let mut open = [0; RECORDS];
        for (open, thread) in open.iter_mut().zip(self.threads()) {
            let [tag, f1, _] = node_of(&self.file, thread);
            if tag == RECEIVE {
                let channel = thread.value_of(f1);
                *open = if self.may_receive(thread, channel) {
                    channel
                } else {
                    0
                };
            }
        }
        for (sender, thread) in self.threads().iter().enumerate() {
            let [tag, f1, _] = node_of(&self.file, thread);
            if tag != SEND {
                continue;
            }
            let channel = thread.value_of(f1);
            if !self.may_send(thread, channel) {
                continue;
            }
            if let Some(receiver) = open.iter().position(|&open| open == channel) {
                return (sender as u16 + 1, receiver as u16 + 1);
            }
        }
        (0, 0)
    }

    /// Writes the state, and nothing past it. Gives its length in bytes.
    pub(crate) fn write(&self, done: u16, refusal: u16, out: &mut [u8]) -> u16 {
        let head = [done, refusal];
        let beside = &self.beside[..2 + 2 * self.made().len()];
        for (at, &word) in head.iter().chain(beside).enumerate() {
            set_word(out, at, word);
        }
        let words = head.len() + beside.len();
        let rest = &mut out[2 * words..];
        let records = rest.as_chunks_mut::<{ 2 * THREAD_WORDS }>().0;
        for (record, thread) in records.iter_mut().zip(self.threads()) {
            for (at, word) in thread.words().into_iter().enumerate() {
                set_word(record, at, word);
            }
        }
        2 * (words + THREAD_WORDS * self.threads().len()) as u16
    }

    fn may_send(&self, thread: &Thread, channel: u16) -> bool {
        let kind = kind_of(&self.file, &self.beside, channel);
        self.permitted.may_send(thread.mask, kind)
    }

    fn may_receive(&self, thread: &Thread, channel: u16) -> bool {
        let kind = kind_of(&self.file, &self.beside, channel);
        self.permitted.may_receive(thread.mask, kind)
    }
}
