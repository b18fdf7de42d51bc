//! Who is waiting on what after a list of choices, by both implementations: compared,
//! judged and counted.

mod deal;
mod tally;

pub use deal::deal_totals;
pub use tally::TotalsTally;

use crate::columns::row_file;
use crate::lists::count_waiting;
use crate::running::{agreed, engine_run, is_halted, Dealt};
use second::draft::{word_at, Draft};
use second::{Thread, Totals, Verdict, Version, RUN_ROOM, TOTALS};
use std::fmt::Display;

/// The engine's answer, in the second implementation's form.
pub fn engine_totals(file: &[u8], choices: &[u16]) -> Totals {
    let told = pilzdamo::totals(file, choices);
    Totals {
        number: told.number,
        place: told.place,
        totals: told.totals,
    }
}

/// What both answer, which is what the threads of the engine's run say.
pub fn agreed_totals(file: &[u8], choices: &[u16], origin: impl Display) -> Totals {
    let dealt = Dealt {
        file: file.to_vec(),
        choices: choices.to_vec(),
        before: Vec::new(),
    };
    let engine = |file: &[u8], choices: &[u16], _: &mut [u8]| engine_totals(file, choices);
    let second = |file: &[u8], choices: &[u16], _: &mut [u8]| second::totals(file, choices);
    let (told, _) = agreed(&dealt, origin, engine, second, |told, _| {
        let due = counted(file, choices);
        if *told != due {
            return Err(format!("the run's threads give {due:?}"));
        }
        Ok(())
    });
    told
}

/// The answer that is due by the state that the engine's run writes, thread by
/// thread.
fn counted(file: &[u8], choices: &[u16]) -> Totals {
    let mut out = [0; RUN_ROOM];
    let verdict = engine_run(file, choices, &mut out);
    if verdict != Verdict::CLEAN && !is_halted(verdict) {
        return Totals::of(verdict, [0; TOTALS]);
    }
    let [threads, made] = [2, 3].map(|at| usize::from(word_at(&out, at)));
    let channel = |number| [4, 5].map(|at| word_at(&out, at + 2 * number));
    let thread = |number| {
        let at = 4 + 2 * made + 12 * number;
        Thread {
            user: word_at(&out, at),
            node: word_at(&out, at + 1),
            mask: word_at(&out, at + 2),
            variables: std::array::from_fn(|variable| word_at(&out, at + 4 + variable)),
        }
    };
    let made: Vec<_> = (0..made).map(channel).collect();
    let threads: Vec<_> = (0..threads).map(thread).collect();
    Totals::of(verdict, count_waiting(&Draft::of(file), &threads, &made))
}

/// Deals `lists` lists for files of a version to both and panics at the first
/// difference.
pub fn compare_totals(version: Version, seed: u64, lists: u64) -> TotalsTally {
    let mut tally = TotalsTally::new(version);
    for index in 0..lists {
        let (file, choices) = deal_totals(version, seed, index);
        let origin = format_args!("trials::deal_totals(Version::{version:?}, {seed}, {index})");
        let told = agreed_totals(&file, &choices, origin);
        if let Some(rows) = row_file(&file) {
            assert_eq!(told, engine_totals(&rows, &choices), "by row: {origin}");
        }
        tally.count(&file, &choices, &told);
    }
    tally
}
