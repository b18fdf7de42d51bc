//! Counting calls by what was lent and by the cause of each refusal.

use super::deal::Asked;
use second::cases::NOTHING;
use second::draft::to_bytes;
use second::{Cause, Halt, Refusal, Section, Unfit, RUN_ROOM};
use std::collections::BTreeMap;

/// The least number of files for each.
const LEAST: u64 = 500;

/// What is lent as the clinic's file.
#[derive(Clone, Copy, Debug, PartialEq, Eq, PartialOrd, Ord)]
enum Sort {
    ZeroBytes,
    /// 1 to 25 bytes.
    Short,
    /// The version 1 file with all counts 0.
    Nothing,
    Near,
}

impl Sort {
    fn of(file: &[u8]) -> Sort {
        match file.len() {
            0 => Sort::ZeroBytes,
            1..=25 => Sort::Short,
            _ if file == to_bytes(&NOTHING) => Sort::Nothing,
            _ => Sort::Near,
        }
    }
}

/// A call, and why it refuses, if it does.
type Told = (&'static str, Option<Cause>);

/// How often each came up.
#[derive(Default)]
pub struct NothingTally {
    counts: BTreeMap<(Sort, Told), u64>,
    files: u64,
}

impl NothingTally {
    pub(super) fn count(&mut self, asked: &Asked) {
        let sort = Sort::of(&asked.at.file);
        for (call, refusal) in told(asked) {
            let cause = refusal.map(|refusal| refusal.cause);
            *self.counts.entry((sort, (call, cause))).or_default() += 1;
        }
        self.files += 1;
    }

    /// Prints the table, and fails if something came up too seldom.
    pub fn demand(&self) {
        for ((sort, (call, cause)), count) in &self.counts {
            println!("{count:>9} {sort:?}, {call}: {cause:?}");
        }
        println!("{:>9} files", self.files);
        let alike = [Sort::ZeroBytes, Sort::Nothing].map(|sort| (sort, with_nothing()));
        let others = [(Sort::Short, with_few_bytes()), (Sort::Near, near())];
        for (sort, due) in alike.into_iter().chain(others) {
            for told in due {
                let count = self.counts.get(&(sort, told)).copied().unwrap_or(0);
                assert!(count >= LEAST, "{count} of {sort:?}, {told:?}");
            }
        }
        // Zero bytes are never refused by the file, and 1 to 25 never clean.
        for (sort, (call, cause)) in self.counts.keys() {
            match sort {
                Sort::ZeroBytes | Sort::Nothing => {
                    let due = with_nothing().contains(&(*call, *cause));
                    assert!(due, "{sort:?}, {call}: {cause:?}");
                }
                Sort::Short => assert!(cause.is_some(), "{sort:?}, {call}: clean"),
                Sort::Near => {}
            }
        }
    }
}

/// Every call on what is lent.
fn told(asked: &Asked) -> Vec<(&'static str, Option<Refusal>)> {
    let Asked {
        at,
        before,
        dealt,
        lists,
        choice: [thread, partner],
    } = asked;
    let (file, hours, choices) = (&at.file, &at.hours, &dealt.choices);
    let (threads, beside) = (&lists.threads, &lists.beside);
    let (room, run_room) = (before.len(), dealt.before.len());
    let enough = second::ROOM;
    vec![
        ("check", second::cause(file)),
        ("check_at", second::cause_at(file, hours, at.minute)),
        ("place", second::cause_in_placing(file, room)),
        (
            "place_at",
            second::cause_in_placing_at(file, hours, at.minute, room),
        ),
        ("measure", second::cause_in_placing(file, enough)),
        (
            "measure_at",
            second::cause_in_placing_at(file, hours, at.minute, enough),
        ),
        ("run", second::cause_in_run(file, choices, run_room)),
        ("ready", second::cause_in_run(file, choices, RUN_ROOM)),
        ("round", second::cause_in_round(file, choices, run_room)),
        ("totals", second::cause_in_run(file, choices, RUN_ROOM)),
        ("start", second::cause_in_starting(file, threads, beside)),
        (
            "choose",
            second::cause_in_choosing(file, threads, beside, *thread, *partner),
        ),
        ("merge", second::cause_in_merging(file, file, room)),
    ]
}

const OF_TABLE: [Cause; 3] = [Cause::MinuteAbove, Cause::PartOfRow, Cause::TooManyRows];

/// A file without roles has none that a row could name.
const OF_ROWS: [Cause; 2] = [Cause::RowRoleZero, Cause::RowRoleAbove];

const OF_LIST: [Cause; 2] = [Cause::OddChoices, Cause::TooManyChoices];

/// Where there is no thread.
const OF_CHOICE: [Cause; 2] = [
    Cause::Choice(Halt::ThreadZero),
    Cause::Choice(Halt::ThreadAbove),
];

const OF_SIZES: [Cause; 2] = [Cause::Lent(Unfit::Records), Cause::Lent(Unfit::Beside)];

/// Where nothing but empty lists can be lent.
const OF_LENT: [Cause; 7] = [
    Cause::Lent(Unfit::Threads),
    Cause::Lent(Unfit::Made),
    Cause::Lent(Unfit::OwnerZero),
    Cause::Lent(Unfit::OwnerAbove),
    Cause::Lent(Unfit::NodeZero),
    Cause::Lent(Unfit::NodeAbove),
    Cause::Lent(Unfit::TotalAbove),
];

/// A call that is refused by these.
fn by(call: &'static str, causes: &[&[Cause]]) -> Vec<Told> {
    let causes = causes.concat().into_iter();
    causes.map(|cause| (call, Some(cause))).collect()
}

/// The same, where it can also be clean.
fn clean_or(call: &'static str, causes: &[&[Cause]]) -> Vec<Told> {
    [vec![(call, None)], by(call, causes)].concat()
}

/// All that a file with nothing in it can be answered.
fn with_nothing() -> Vec<Told> {
    let short = &[Cause::OutputTooShort][..];
    let (table, rows, list, choice) = (&OF_TABLE[..], &OF_ROWS[..], &OF_LIST[..], &OF_CHOICE[..]);
    [
        clean_or("check", &[]),
        clean_or("check_at", &[table, rows]),
        clean_or("place", &[short]),
        clean_or("place_at", &[short, table, rows]),
        clean_or("measure", &[]),
        clean_or("measure_at", &[table, rows]),
        clean_or("run", &[short, list, choice]),
        clean_or("ready", &[list, choice]),
        clean_or("round", &[short, list, choice]),
        clean_or("totals", &[list, choice]),
        clean_or("start", &[&OF_SIZES]),
        by("choose", &[&OF_SIZES, &OF_LENT, choice]),
        clean_or("merge", &[short]),
    ]
    .concat()
}

/// What 1 to 25 bytes must come to.
fn with_few_bytes() -> Vec<Told> {
    let short = &[Cause::Short][..];
    let (table, list) = (&OF_TABLE[..], &OF_LIST[..]);
    let room = &[Cause::OutputTooShort][..];
    [
        by("check", &[short]),
        by("check_at", &[short, table]),
        by("place", &[short, room]),
        by("place_at", &[short, room, table]),
        by("measure", &[short]),
        by("measure_at", &[short, table]),
        by("run", &[short, room, list]),
        by("ready", &[short, list]),
        by("round", &[short, room, list]),
        by("totals", &[short, list]),
        by("start", &[short]),
        by("choose", &[short]),
        by("merge", &[short, room]),
    ]
    .concat()
}

/// What files near it must come to, by the check.
fn near() -> Vec<Told> {
    let counts = Section::COUNTED.map(Cause::Count);
    let offsets = Section::COUNTED.map(Cause::Offset);
    let others = [
        Cause::Odd,
        Cause::ShortForSecond,
        Cause::Version,
        Cause::Shorter,
        Cause::Longer,
    ];
    clean_or("check", &[&others, &counts, &offsets])
}
