//! Starts and choices in a list of threads that is lent.

mod refusals;
mod starts;
mod steps;
mod totals;
mod unfit;

pub use starts::{cases as start_cases, sized, StartCase};

use super::RunCase;
use crate::draft::Draft;
use crate::file::File;
use crate::{Thread, Verdict, BEFORE_TOTALS, BESIDE, RECORDS, TOTALS};

/// What is lent: the threads and made channels that count, by two counts that
/// need not be theirs, the totals, if they aren't to be any words, and how many
/// records and words beside them there are.
#[derive(Clone)]
pub struct Lent {
    pub threads: Vec<Thread>,
    pub made: Vec<[u16; 2]>,
    pub counts: [u16; 2],
    pub totals: Option<[u16; TOTALS]>,
    pub records: usize,
    pub words: usize,
}

impl Lent {
    pub fn of(threads: &[Thread], made: &[[u16; 2]]) -> Lent {
        Lent {
            counts: [threads.len() as u16, made.len() as u16],
            threads: threads.to_vec(),
            made: made.to_vec(),
            totals: None,
            records: RECORDS,
            words: BESIDE,
        }
    }

    /// With the totals of these kinds, and all others 0.
    pub fn waiting(self, totals: &[(u16, u16)]) -> Lent {
        let totals = Some(spread(totals));
        Lent { totals, ..self }
    }

    /// With the totals that its threads have in a file, where none are said.
    fn counted_in(mut self, file: &Draft) -> Lent {
        if self.totals.is_none() {
            let mut totals = [0; TOTALS];
            let counted = self.threads.iter().take(self.counts[0].into());
            for kind in counted.filter_map(|it| self.waits_on(file, it)) {
                let at = usize::from(kind).wrapping_sub(1);
                totals.get_mut(at).into_iter().for_each(|total| *total += 1);
            }
            self.totals = Some(totals);
        }
        self
    }

    /// The kind of the channel that a thread waits on, if it is at a receive and
    /// there is such a channel.
    fn waits_on(&self, file: &Draft, thread: &Thread) -> Option<u16> {
        let at = |number: u16, first: u16| usize::from(number).checked_sub(first.into());
        let &[tag, operand, _] = file.nodes.get(at(thread.node, 1)?)?;
        let channel = match operand {
            512.. => thread.variables[at(operand, 512)?],
            _ => operand,
        };
        let channels = match channel {
            385.. => self.made.get(at(channel, 385)?),
            _ => file.channels.get(at(channel, 257)?),
        };
        channels.filter(|_| tag == 5).map(|[_, kind]| *kind)
    }

    /// Writes what counts into lists, and leaves what they hold past it.
    fn write(&self, threads: &mut [Thread], beside: &mut [u16]) {
        for (slot, thread) in threads.iter_mut().zip(&self.threads) {
            *slot = *thread;
        }
        let words = self.counts.iter().chain(self.made.as_flattened());
        for (slot, word) in beside.iter_mut().zip(words) {
            *slot = *word;
        }
        let last = beside.iter_mut().skip(BEFORE_TOTALS);
        for (slot, total) in last.zip(self.totals.iter().flatten()) {
            *slot = *total;
        }
    }

    /// The lists, with this word wherever nothing counts.
    fn lists(&self, fill: u16) -> (Vec<Thread>, Vec<u16>) {
        let filled = Thread {
            user: fill,
            node: fill,
            mask: fill,
            variables: [fill; 8],
        };
        let (mut threads, mut beside) = (vec![filled; self.records], vec![fill; self.words]);
        self.write(&mut threads, &mut beside);
        (threads, beside)
    }

    /// Fails unless a call on these lists gives the answer that is due and leaves
    /// every record and word as it should be, whatever stands where nothing
    /// counts: `after` over what was there.
    fn demand(
        &self,
        who: &str,
        name: &str,
        (number, place): (u16, u16),
        after: Option<&Lent>,
        call: impl Fn(&mut [Thread], &mut [u16]) -> Verdict,
    ) {
        for fill in [0, 1, 0xa5a5] {
            let (mut threads, mut beside) = self.lists(fill);
            let (mut threads_due, mut beside_due) = (threads.clone(), beside.clone());
            if let Some(after) = after {
                after.write(&mut threads_due, &mut beside_due);
            }
            let answer = call(&mut threads, &mut beside);
            assert_eq!(answer, Verdict { number, place }, "{who}: {name}");
            let record = (0..threads.len()).find(|&at| threads[at] != threads_due[at]);
            assert_eq!(record, None, "{who}: a record of {name}");
            let word = (0..beside.len()).find(|&at| beside[at] != beside_due[at]);
            assert_eq!(word, None, "{who}: a word beside of {name}");
        }
    }
}

/// A file, what is lent, a choice, and what is left.
pub struct ChooseCase {
    pub name: &'static str,
    pub file: Vec<u8>,
    pub lent: Lent,
    pub choice: [u16; 2],
    pub answer: (u16, u16),
    /// What counts after a choice that is done. All else is as it was.
    pub after: Option<Lent>,
}

impl ChooseCase {
    /// Fails unless `choose` gives the answer that is due and leaves every
    /// record and word as it should be, whatever those past the counts hold.
    pub fn demand(
        &self,
        who: &str,
        choose: impl Fn(&[u8], &mut [Thread], &mut [u16], u16, u16) -> Verdict,
    ) {
        let [thread, partner] = self.choice;
        let call = |threads: &mut [Thread], beside: &mut [u16]| {
            choose(&self.file, threads, beside, thread, partner)
        };
        let after = self.after.as_ref();
        self.lent.demand(who, self.name, self.answer, after, call);
    }

    /// The lists as they are lent.
    pub fn lists(&self) -> (Vec<Thread>, Vec<u16>) {
        self.lent.lists(0xa5a5)
    }
}

/// The totals of these kinds, with all others 0.
pub fn spread(totals: &[(u16, u16)]) -> [u16; TOTALS] {
    let mut spread = [0; TOTALS];
    for &(kind, total) in totals {
        spread[usize::from(kind) - 1] = total;
    }
    spread
}

/// A thread's record, with the variables that are bound.
pub fn record(user: u16, node: u16, mask: u16, bound: &[u16]) -> Thread {
    let mut variables = [0; 8];
    variables[..bound.len()].copy_from_slice(bound);
    Thread {
        user,
        node,
        mask,
        variables,
    }
}

/// A choice that is done. Where no totals are said they are those of the threads.
pub fn done(
    name: &'static str,
    file: &Draft,
    choice: [u16; 2],
    lent: Lent,
    after: Lent,
) -> ChooseCase {
    ChooseCase {
        name,
        file: file.bytes(),
        lent: lent.counted_in(file),
        choice,
        answer: (0, 0),
        after: Some(after.counted_in(file)),
    }
}

/// A choice that is refused. Where no totals are said they are those of the
/// threads, if the file can be taken apart.
pub fn refused(
    name: &'static str,
    file: Vec<u8>,
    choice: [u16; 2],
    lent: Lent,
    answer: (u16, u16),
) -> ChooseCase {
    let lent = match File::open(&file) {
        Ok(_) => lent.counted_in(&Draft::of(&file)),
        Err(_) => lent,
    };
    ChooseCase {
        name,
        file,
        lent,
        choice,
        answer,
        after: None,
    }
}

/// The choice at which a run halts, in the state that the run leaves.
fn of_halted(case: RunCase) -> Option<ChooseCase> {
    let (number, place) = case.answer;
    let halted = matches!(number, 11..=13 | 18..=20);
    let at = 2 * usize::from(place);
    let choice = halted.then(|| [case.choices[at - 2], case.choices[at - 1]])?;
    let made = 2 * usize::from(case.words[3]);
    let (made, threads) = case.words[4..].split_at(made);
    let thread = |words: &[u16; 12]| record(words[0], words[1], words[2], &words[4..]);
    let threads: Vec<Thread> = threads.as_chunks().0.iter().map(thread).collect();
    let lent = Lent::of(&threads, made.as_chunks().0);
    Some(refused(case.name, case.file, choice, lent, (number, 1)))
}

/// All of them.
pub fn cases() -> Vec<ChooseCase> {
    [
        steps::cases(),
        unfit::fitting(),
        unfit::cases(),
        totals::cases(),
        refusals::cases(),
        super::juniors::choices(),
        super::nothing::choices(),
        super::cases().into_iter().filter_map(of_halted).collect(),
    ]
    .into_iter()
    .flatten()
    .collect()
}
