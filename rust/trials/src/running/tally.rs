//! Counting runs by number and cause, and by what happens in them.

use super::replay::Replay;
use super::{is_halted, Dealt};
use crate::juniors;
use crate::schedule::halt_of;
use second::draft::Draft;
use second::{Cause, Halt, Verdict, Version, RUN_ROOM};
use std::collections::BTreeMap;

/// The least number of runs for each cause.
const LEAST_OF_CAUSE: u64 = 500;

/// What came up over many runs of files of a version.
pub struct RunTally {
    version: Version,
    counts: BTreeMap<&'static str, u64>,
    by_number: BTreeMap<u16, u64>,
    by_cause: BTreeMap<Cause, u64>,
}

/// What has to come up, and in how many runs or choices.
const LEAST: [(&str, u64); 22] = [
    ("runs to the end", 10_000),
    ("runs with a send", 10_000),
    ("choices done", 1_000_000),
    ("sends done", 50_000),
    ("sends to a thread before", 5_000),
    ("sends on a made channel", 1_000),
    ("sends of a made channel", 1_000),
    ("sends on a channel that was received", 500),
    ("sends on a made channel of another user", 500),
    ("ends with threads behind", 5_000),
    ("states with 64 threads", 500),
    ("states with 64 made channels", 500),
    ("states with a ready pair", 5_000),
    ("ready pairs past a lower send", 500),
    ("files that the check refuses", 5_000),
    ("longer outputs", 1_000),
    ("13 though the channels differ", 500),
    ("13 of both", 200),
    ("18 where 11 or 12 would be next", 50),
    ("18 where 19 would be next", 50),
    ("18 where 20 would be next", 50),
    ("halted runs with choices left", 1_000),
];

/// What has to come up in version 2 besides. A chain of two counts where the
/// juniors of juniors make a difference.
const LEAST_OF_JUNIORS: [(&str, u64); 5] = [
    ("runs refused with 21", 500),
    ("runs that go on by a junior", 500),
    ("runs that go on by a chain of two", 500),
    ("ready pairs by a junior", 500),
    ("ready pairs by a chain of two", 500),
];

impl RunTally {
    pub(super) fn new(version: Version) -> RunTally {
        RunTally {
            version,
            counts: BTreeMap::new(),
            by_number: BTreeMap::new(),
            by_cause: BTreeMap::new(),
        }
    }

    fn note(&mut self, what: &'static str, shown: bool) {
        *self.counts.entry(what).or_default() += u64::from(shown);
    }

    pub(super) fn count(&mut self, dealt: &Dealt, verdict: Verdict) {
        let Dealt {
            file,
            choices,
            before,
        } = dealt;
        if Version::claimed(file) != self.version {
            self.note("files of another version", true);
            return;
        }
        self.note("runs refused with 21", verdict.number == 21);
        *self.by_number.entry(verdict.number).or_default() += 1;
        if let Some(refusal) = second::cause_in_run(file, choices, before.len()) {
            *self.by_cause.entry(refusal.cause).or_default() += 1;
        }
        if verdict.number != 0 && !is_halted(verdict) {
            return;
        }
        self.note("longer outputs", before.len() > RUN_ROOM);
        self.note("runs to the end", verdict.number == 0);
        let refused = second::check(file) != Verdict::CLEAN;
        self.note("files that the check refuses", refused);
        let last = 2 * usize::from(verdict.place);
        self.note(
            "halted runs with choices left",
            last != 0 && choices.len() > last,
        );
        let mut replay = Replay::start(file);
        let sends = replay.sends_in(choices, |what, shown| self.note(what, shown));
        self.note("runs with a send", sends > 0);
        self.count_state(&replay);
        if is_halted(verdict) {
            self.count_halt(&replay, [choices[last - 2], choices[last - 1]]);
        }
        if self.version.has_juniors() {
            self.count_juniors(dealt, verdict, replay.run.ready());
        }
    }

    /// Counts what would be refused, and who could not meet, without juniors and
    /// without theirs.
    fn count_juniors(&mut self, dealt: &Dealt, verdict: Verdict, ready: (u16, u16)) {
        let draft = Draft::of(&dealt.file);
        let done = match verdict.place {
            0 => &dealt.choices[..],
            place => &dealt.choices[..2 * (usize::from(place) - 1)],
        };
        let less = |draft: Draft| {
            let file = draft.bytes();
            let halted = second::run(&file, done, &mut [0; RUN_ROOM]).number == 13;
            let pair = second::ready(&file, done);
            let met = !halted && (pair.sender, pair.receiver) == ready;
            (halted, !halted && !met)
        };
        let (halted, pair) = less(juniors::without(&draft));
        self.note("runs that go on by a junior", halted);
        self.note("ready pairs by a junior", pair);
        let (halted, pair) = less(juniors::of_one_level(&draft));
        self.note("runs that go on by a chain of two", halted);
        self.note("ready pairs by a chain of two", pair);
    }

    fn count_state(&mut self, replay: &Replay) {
        let run = &replay.run;
        self.note("states with 64 threads", run.threads().len() == 64);
        self.note("states with 64 made channels", run.made().len() == 64);
        let meeting = replay.meeting();
        self.note("states with a ready pair", meeting.ready);
        self.note("ready pairs past a lower send", meeting.past_send);
    }

    /// Counts what else could have been said of the choice that was refused.
    fn count_halt(&mut self, replay: &Replay, choice: [u16; 2]) {
        let run = &replay.run;
        let [thread, partner] = choice;
        match halt_of(run, choice) {
            Some(Halt::PartnerOfLone { .. }) => {
                let next = halt_of(run, [thread, 0]).map_or(0, Halt::number);
                self.note("18 where 11 or 12 would be next", matches!(next, 11 | 12));
                self.note("18 where 19 would be next", next == 19);
                self.note("18 where 20 would be next", next == 20);
            }
            Some(halt @ (Halt::SenderNotAllowed | Halt::ReceiverNotAllowed)) => {
                let [sender, receiver] = [thread, partner].map(|number| replay.thread(number));
                let differ = replay.channel_of(sender) != replay.channel_of(receiver);
                self.note("13 though the channels differ", differ);
                let of_both = halt == Halt::SenderNotAllowed && receiver.mask == 0;
                self.note("13 of both", of_both);
            }
            _ => {}
        }
    }

    /// Prints the table, and fails if something came up too seldom.
    pub fn demand(&self) {
        println!("version {}", self.version.number());
        let of_juniors = match self.version {
            Version::One => &[][..],
            Version::Two | Version::Three => &LEAST_OF_JUNIORS,
        };
        let all = || LEAST.iter().chain(of_juniors);
        for (number, count) in &self.by_number {
            println!("{count:>9} of {number}");
        }
        for cause in Cause::of_running() {
            let count = self.by_cause.get(&cause).copied().unwrap_or(0);
            println!("{count:>9} {:>3} {cause:?}", cause.number());
        }
        for (what, _) in all() {
            println!("{:>9} {what}", self.counts.get(what).copied().unwrap_or(0));
        }
        println!("{:>9} runs", self.by_number.values().sum::<u64>());
        for cause in Cause::of_running() {
            let count = self.by_cause.get(&cause).copied().unwrap_or(0);
            assert!(count >= LEAST_OF_CAUSE, "too few of {cause:?}");
        }
        for (what, least) in all() {
            let count = self.counts.get(what).copied().unwrap_or(0);
            assert!(count >= *least, "too few {what}");
        }
    }
}
