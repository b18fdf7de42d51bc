//! Lent lists of threads, and calls on them by both implementations.

use second::draft::Draft;
use second::{Thread, Verdict, BESIDE, TOTALS};
use std::fmt::Display;

/// A list of threads and the words beside it.
#[derive(Clone, Debug, PartialEq, Eq)]
pub struct Lists {
    pub threads: Vec<Thread>,
    pub beside: Vec<u16>,
}

/// How many of these threads of a file stand at a receive on a channel of each kind,
/// by the values that they hold.
pub fn count_waiting(draft: &Draft, threads: &[Thread], made: &[[u16; 2]]) -> [u16; TOTALS] {
    let mut totals = [0; TOTALS];
    for thread in threads {
        let [tag, operand, _] = draft.nodes[usize::from(thread.node) - 1];
        if tag != 5 {
            continue;
        }
        let channel = match usize::from(operand).checked_sub(512) {
            Some(variable) => thread.variables[variable],
            None => operand,
        };
        let [_, kind] = match usize::from(channel).checked_sub(385) {
            Some(number) => made[number],
            None => draft.channels[usize::from(channel) - 257],
        };
        totals[usize::from(kind) - 1] += 1;
    }
    totals
}

impl Lists {
    /// How many of the threads that count wait on each kind, in lists with nothing
    /// wrong in them.
    pub fn waiting(&self, draft: &Draft) -> [u16; TOTALS] {
        let [threads, made] = [0, 1].map(|at| usize::from(self.beside[at]));
        let made = &self.beside[2..].as_chunks().0[..made];
        count_waiting(draft, &self.threads[..threads], made)
    }
}

/// A thread's record, as the engine takes it.
pub fn to_engine(thread: &Thread) -> pilzdamo::Thread {
    pilzdamo::Thread {
        user: thread.user,
        node: thread.node,
        mask: thread.mask,
        vars: thread.variables,
    }
}

fn to_second(record: &pilzdamo::Thread) -> Thread {
    Thread {
        user: record.user,
        node: record.node,
        mask: record.mask,
        variables: record.vars,
    }
}

/// What the engine answers and leaves, in the second implementation's form.
pub fn by_engine(
    threads: &mut [Thread],
    call: impl FnOnce(&mut [pilzdamo::Thread]) -> pilzdamo::Verdict,
) -> Verdict {
    let mut records: Vec<_> = threads.iter().map(to_engine).collect();
    let pilzdamo::Verdict { number, place } = call(&mut records);
    for (thread, record) in threads.iter_mut().zip(&records) {
        *thread = to_second(record);
    }
    Verdict { number, place }
}

/// A call on a file and lent lists. `name` says which, with its arguments
/// besides, and `origin` how to have the same lists again.
pub struct Call<'a, N, O> {
    pub name: N,
    pub origin: O,
    pub file: &'a [u8],
    pub before: &'a Lists,
}

impl<N: Display, O: Display> Call<'_, N, O> {
    /// What both answer, and what both leave in the lists. Panics if they differ, or
    /// if the judge finds a fault in what they leave.
    pub fn agreed(
        &self,
        engine: impl Fn(&[u8], &mut [Thread], &mut [u16]) -> Verdict,
        second: impl Fn(&[u8], &mut [Thread], &mut [u16]) -> Verdict,
        judge: impl Fn(&Lists, Verdict) -> Result<(), &'static str>,
    ) -> (Verdict, Lists) {
        let (mut lists, mut of_second) = (self.before.clone(), self.before.clone());
        let verdict = engine(self.file, &mut lists.threads, &mut lists.beside);
        let theirs = second(self.file, &mut of_second.threads, &mut of_second.beside);
        if verdict != theirs {
            self.fail("another answer", verdict, theirs);
        }
        if let Some(at) = first_difference(&lists.threads, &of_second.threads) {
            self.fail(&format!("record {} differs", at + 1), verdict, theirs);
        }
        if let Some(at) = first_difference(&lists.beside, &of_second.beside) {
            self.fail(&format!("word {at} beside differs"), verdict, theirs);
        }
        if let Err(fault) = judge(&lists, verdict) {
            self.fail(fault, verdict, theirs);
        }
        (verdict, lists)
    }

    fn fail(&self, what: &str, engine: Verdict, second: Verdict) -> ! {
        let Call {
            name,
            origin,
            file,
            before: Lists { threads, beside },
        } = self;
        let count = beside.first().map_or(0, |count| (*count).into());
        let counted = &threads[..threads.len().min(count)];
        panic!(
            "{name}: {what} at {origin}: engine {engine:?}, second {second:?}, {} records, of \
             which count {counted:?}, {} words beside {:?}, on {} bytes, to be had back by \
             `xxd -r -p`:\n{}",
            threads.len(),
            beside.len(),
            &beside[..beside.len().min(BESIDE)],
            file.len(),
            file.iter()
                .map(|byte| format!("{byte:02x}"))
                .collect::<String>()
        )
    }
}

fn first_difference<T: PartialEq>(ours: &[T], theirs: &[T]) -> Option<usize> {
    (0..ours.len()).find(|&at| ours[at] != theirs[at])
}
