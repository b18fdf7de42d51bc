//! Counting lists by number, and by how threads come to wait in them.

use crate::running::{is_halted, Replay};
use second::{Cause, Thread, Totals, Verdict, Version};
use std::collections::BTreeMap;

/// The least number of lists in which each comes up.
const LEAST: u64 = 500;

/// What has to come up.
const DUE: [&str; 29] = [
    "lists that are done",
    "lists without a choice",
    "a thread that waits at the start",
    "a receive reached by a fork's first child",
    "a receive reached by a fork's second child",
    "a receive reached by both children of a fork",
    "a receive reached by a repeat's child",
    "a receive reached by new",
    "a receive reached by compare",
    "a receive reached by on",
    "a receive reached by off",
    "a receive reached by send's sender",
    "a receive reached by receive's receiver",
    "of the same kind as before",
    "of another kind",
    "a receive left by a meeting for another step",
    "a meeting after which both wait",
    "threads that wait on a named channel",
    "threads that wait on a made channel",
    "threads that wait without a role",
    "totals of two kinds or more",
    "totals of two or more",
    "totals of kinds 17 to 32",
    "halted lists",
    "halted lists while threads wait",
    "no thread that waits",
    "odd lists",
    "lists over 65,535 choices",
    "refused by the file",
];

/// The least number of lists for each number that is answered.
const LEAST_OF_NUMBER: u64 = 50;

/// What came up over many lists for files of a version.
pub struct TotalsTally {
    version: Version,
    by_number: BTreeMap<u16, u64>,
    counts: BTreeMap<&'static str, u64>,
    /// Files whose first word names another version.
    others: u64,
}

/// What comes up in a list.
type Came = BTreeMap<&'static str, bool>;

impl TotalsTally {
    pub(super) fn new(version: Version) -> TotalsTally {
        TotalsTally {
            version,
            by_number: BTreeMap::new(),
            counts: DUE.into_iter().map(|what| (what, 0)).collect(),
            others: 0,
        }
    }

    fn note(&mut self, what: &'static str, shown: bool) {
        *self.counts.entry(what).or_default() += u64::from(shown);
    }

    pub(super) fn count(&mut self, file: &[u8], choices: &[u16], told: &Totals) {
        if Version::claimed(file) != self.version {
            self.others += 1;
            return;
        }
        let &Totals { number, place, .. } = told;
        *self.by_number.entry(number).or_default() += 1;
        if number == 17 {
            let refusal = second::cause_in_run(file, choices, second::RUN_ROOM);
            let cause = refusal.map(|refusal| refusal.cause);
            self.note("odd lists", cause == Some(Cause::OddChoices));
            let long = cause == Some(Cause::TooManyChoices);
            self.note("lists over 65,535 choices", long);
            return;
        }
        let halted = is_halted(Verdict { number, place });
        if number != 0 && !halted {
            self.note("refused by the file", true);
            return;
        }
        let waiting = told.totals.iter().any(|total| *total != 0);
        self.note("lists that are done", number == 0);
        self.note("lists without a choice", choices.is_empty());
        self.note("halted lists", halted);
        self.note("halted lists while threads wait", halted && waiting);
        self.note("no thread that waits", !waiting);
        let several = told.totals.iter().filter(|total| **total != 0).count() > 1;
        self.note("totals of two kinds or more", several);
        let many = told.totals.iter().any(|total| *total > 1);
        self.note("totals of two or more", many);
        let high = told.totals[16..].iter().any(|total| *total != 0);
        self.note("totals of kinds 17 to 32", high);
        for (what, shown) in go_through(file, choices) {
            self.note(what, shown);
        }
    }

    /// Prints the table, and fails if something came up too seldom.
    pub fn demand(&self) {
        println!("version {}", self.version.number());
        for (number, count) in &self.by_number {
            println!("{count:>9} of {number}");
        }
        for (what, count) in &self.counts {
            println!("{count:>9} {what}");
        }
        println!("{:>9} lists", self.by_number.values().sum::<u64>());
        println!("{:>9} of another version", self.others);
        let counts = self.counts.iter();
        let rare: Vec<_> = counts.filter(|(_, count)| **count < LEAST).collect();
        assert!(rare.is_empty(), "under {LEAST} of {rare:?}");
        let of_version = match self.version {
            Version::One => &[2][..],
            Version::Two | Version::Three => &[21],
        };
        let numbers = [0, 1, 3, 4, 5, 6, 7, 8, 9, 10, 11, 12, 13, 17, 18, 19, 20];
        for number in numbers.iter().chain(of_version) {
            let count = self.by_number.get(number).copied().unwrap_or(0);
            assert!(count >= LEAST_OF_NUMBER, "too few of {number}");
        }
    }
}

/// Goes through a list again, up to the choice that is refused, and says how threads
/// come to wait in it. At every choice the second implementation's totals are those
/// of its threads.
fn go_through(file: &[u8], choices: &[u16]) -> Came {
    let mut came = Came::new();
    let mut replay = Replay::start(file);
    let waits = |replay: &Replay, thread: &Thread| replay.node_of(thread)[0] == 5;
    let at_start = replay.run.threads().iter().any(|it| waits(&replay, it));
    came.insert("a thread that waits at the start", at_start);
    for &[thread, partner] in choices.as_chunks().0 {
        let numbers = [thread, partner].map(|number| usize::from(number).wrapping_sub(1));
        let [before, met] = numbers.map(|at| replay.run.threads().get(at).copied());
        if replay.run.choose(thread, partner).is_err() {
            break;
        }
        assert_eq!(*replay.run.totals(), replay.run.counted_totals());
        let before = before.expect("a choice that is done has a thread");
        let [tag, _, _] = replay.node_of(&before);
        if tag == 0 {
            continue;
        }
        let moved = waits(&replay, replay.thread(thread));
        let threads = replay.run.threads();
        let last = waits(&replay, threads.last().expect("one has moved"));
        let mut note = |what, shown| *came.entry(what).or_default() |= shown;
        match tag {
            1 => {
                note("a receive reached by a fork's first child", moved);
                note("a receive reached by a fork's second child", last);
                let both = moved && last;
                note("a receive reached by both children of a fork", both);
            }
            2 => note("a receive reached by a repeat's child", last),
            3 => note("a receive reached by new", moved),
            4 => note("a receive reached by compare", moved),
            7 => note("a receive reached by on", moved),
            8 => note("a receive reached by off", moved),
            _ => {
                let receiver = replay.thread(partner);
                let again = waits(&replay, receiver);
                note("a receive reached by send's sender", moved);
                note("a receive reached by receive's receiver", again);
                note("a receive left by a meeting for another step", !again);
                note("a meeting after which both wait", moved && again);
                let left = replay.kind_of(&met.expect("a send has a partner"));
                let same = again && replay.kind_of(receiver) == left;
                note("of the same kind as before", same);
                note("of another kind", again && !same);
            }
        }
    }
    for thread in replay.run.threads() {
        if waits(&replay, thread) {
            let made = replay.channel_of(thread) >= 385;
            let mut note = |what, shown| *came.entry(what).or_default() |= shown;
            note("threads that wait on a made channel", made);
            note("threads that wait on a named channel", !made);
            note("threads that wait without a role", thread.mask == 0);
        }
    }
    came
}
