//! Counting rounds by number and cause, and by what happens in them.

use super::Came;
use crate::juniors;
use crate::running::{is_halted, Dealt};
use second::draft::Draft;
use second::{Cause, Round, Verdict, Version, BEFORE_ROUND, RUN_ROOM};
use std::collections::BTreeMap;

/// The least number of rounds in which each comes up.
const LEAST: u64 = 500;

/// What has to come up.
const DUE: [&str; 33] = [
    "rounds",
    "meetings",
    "met, then steps",
    "met, then sends",
    "met after an idle visit",
    "a send on a made channel",
    "moved onto a receive and so not met",
    "moved onto a receive, and another met",
    "onto it by a lone step",
    "onto it by a send",
    "onto it by a receive",
    "a made thread at a receive not met",
    "20 by threads held a thread",
    "20 by channels held a thread",
    "20 held a thread that could step at the start",
    "a lone step refused otherwise",
    "13 passed over",
    "13 and nobody met",
    "19 passed over",
    "an end before later visits",
    "rounds of 64 choices",
    "idle rounds",
    "no threads",
    "empty rounds with all choices tried",
    "stopped lists",
    "65,471 choices",
    "65,472 choices",
    "outputs under 1,800 bytes",
    "longer outputs",
    "odd lists",
    "lists over 65,471 choices",
    "refused by the file",
    "lists of choices before a round",
];

/// What has to come up in version 2 besides. A chain of two counts where the
/// juniors of juniors make a difference.
const OF_JUNIORS: [&str; 2] = [
    "rounds that go otherwise without juniors",
    "rounds that go otherwise without a chain of two",
];

/// The least number of rounds for each number that is answered.
const LEAST_OF_NUMBER: u64 = 50;

/// What came up over many rounds of files of a version.
pub struct RoundTally {
    version: Version,
    by_number: BTreeMap<u16, u64>,
    counts: Came,
    /// Files whose first word names another version.
    others: u64,
}

impl RoundTally {
    pub(super) fn new(version: Version) -> RoundTally {
        let mut due = DUE.to_vec();
        if version.has_juniors() {
            due.extend(OF_JUNIORS);
        }
        RoundTally {
            version,
            by_number: BTreeMap::new(),
            counts: due.into_iter().map(|what| (what, 0)).collect(),
            others: 0,
        }
    }

    fn note(&mut self, what: &'static str, shown: bool) {
        *self.counts.entry(what).or_default() += u64::from(shown);
    }

    pub(super) fn count(&mut self, dealt: &Dealt, round: &Round, came: Option<&Came>) {
        let Dealt {
            file,
            choices,
            before,
        } = dealt;
        if Version::claimed(file) != self.version {
            self.others += 1;
            return;
        }
        let &Round { number, place, .. } = round;
        *self.by_number.entry(number).or_default() += 1;
        let refusal = second::cause_in_round(file, choices, before.len());
        let cause = refusal.map(|refusal| refusal.cause);
        self.note(
            "outputs under 1,800 bytes",
            cause == Some(Cause::OutputTooShort),
        );
        self.note("odd lists", cause == Some(Cause::OddChoices));
        self.note(
            "lists over 65,471 choices",
            cause == Some(Cause::TooManyChoices),
        );
        let one_more = choices.len() == 2 * (BEFORE_ROUND + 1);
        self.note("65,472 choices", one_more && number == 17);
        let stopped = is_halted(Verdict { number, place });
        self.note("stopped lists", stopped);
        let of_file = matches!(number, 1..=10 | 21);
        self.note("refused by the file", of_file);
        let longer = !of_file && number != 17 && before.len() > RUN_ROOM;
        self.note("longer outputs", longer);
        for (&what, &count) in came.into_iter().flatten() {
            self.note(what, count > 0);
        }
        if number == 0 {
            self.note("65,471 choices", choices.len() == 2 * BEFORE_ROUND);
            self.note("lists of choices before a round", !choices.is_empty());
            if self.version.has_juniors() {
                self.count_juniors(dealt, round);
            }
        }
    }

    /// Counts the rounds that juniors make a difference to, and theirs.
    fn count_juniors(&mut self, dealt: &Dealt, round: &Round) {
        let draft = Draft::of(&dealt.file);
        let others = [juniors::without(&draft), juniors::of_one_level(&draft)];
        for (what, other) in OF_JUNIORS.into_iter().zip(others) {
            let out = &mut [0; RUN_ROOM];
            let other = second::round(&other.bytes(), &dealt.choices, out);
            self.note(what, other.number == 0 && other != *round);
        }
    }

    /// Prints the table, and fails if something came up too seldom.
    pub fn demand(&self) {
        println!("version {}", self.version.number());
        for (number, count) in &self.by_number {
            println!("{count:>9} of {number}");
        }
        for (what, count) in &self.counts {
            println!("{count:>9} {what}");
        }
        println!(
            "{:>9} rounds asked for",
            self.by_number.values().sum::<u64>()
        );
        println!("{:>9} of another version", self.others);
        let counts = self.counts.iter();
        let rare: Vec<_> = counts.filter(|(_, count)| **count < LEAST).collect();
        assert!(rare.is_empty(), "under {LEAST} of {rare:?}");
        let of_version = match self.version {
            Version::One => &[2][..],
            Version::Two | Version::Three => &[21],
        };
        let numbers = [0, 1, 3, 4, 5, 6, 7, 8, 9, 10, 11, 12, 13, 17, 18, 19, 20];
        for number in numbers.iter().chain(of_version) {
            let count = self.by_number.get(number).copied().unwrap_or(0);
            assert!(count >= LEAST_OF_NUMBER, "too few of {number}");
        }
    }
}
