//! The threads of a run by name, choice by choice.

use crate::threads::{Thread, Who};

/// The threads in the order of the engine's list.
#[derive(Clone, Default)]
pub struct Roll {
    pub threads: Vec<Thread>,
    /// How many threads each session has had.
    counts: Vec<usize>,
}

impl Roll {
    /// One thread for each session.
    pub fn start(sessions: usize) -> Roll {
        let first = |session| Thread { session, number: 1 };
        Roll {
            threads: (0..sessions).map(first).collect(),
            counts: vec![1; sessions],
        }
    }

    /// What a choice of the thread of this number leaves, which are so many: one more
    /// after the others, or all but that thread, or the same.
    pub fn step(&mut self, thread: u16, left: usize) {
        let index = usize::from(thread) - 1;
        let before = self.threads.len();
        if left > before {
            let session = self.threads[index].session;
            self.counts[session] += 1;
            let number = self.counts[session];
            self.threads.push(Thread { session, number });
        } else if left < before {
            self.threads.remove(index);
        }
    }

    /// A thread's number in the list; the thread itself where it isn't there.
    pub fn number(&self, who: Who) -> Result<u16, Thread> {
        match who {
            Who::Numbered(number) => Ok(number),
            Who::Named(thread) => {
                let at = self.threads.iter().position(|found| *found == thread);
                at.map(|at| at as u16 + 1).ok_or(thread)
            }
        }
    }
}
