//! Choices in lent lists of threads by both implementations: compared, judged
//! and counted.

mod aim;
mod deal;
mod fit;
mod steps;
mod tally;

pub use deal::{deal_lent, full_lent, typical_lent};
pub use fit::{any_thread, Clinic, Sort};
pub use steps::{long_run_by_choices, run_by_choices, Steps};
pub use tally::ChooseTally;

use crate::columns::row_file;
use crate::lists::{by_engine, Call, Lists};
use second::draft::Draft;
use second::{is_of_file, Thread, Verdict, Version, BEFORE_TOTALS};
use std::fmt::Display;

/// A file, what is lent with it, and a choice.
#[derive(Clone)]
pub struct Lent {
    pub file: Vec<u8>,
    pub lists: Lists,
    pub choice: [u16; 2],
}

/// The engine's answer, in the second implementation's form.
pub fn engine_choose(
    file: &[u8],
    threads: &mut [Thread],
    beside: &mut [u16],
    thread: u16,
    partner: u16,
) -> Verdict {
    by_engine(threads, |records| {
        pilzdamo::choose(file, records, beside, thread, partner)
    })
}

/// What both answer, and what both leave in the lists. Panics if they differ, or if the
/// answer is wrong.
pub fn agreed_choice(
    file: &[u8],
    before: &Lists,
    [thread, partner]: [u16; 2],
    origin: impl Display,
) -> (Verdict, Lists) {
    let call = Call {
        name: format_args!("choose {thread}, {partner}"),
        origin,
        file,
        before,
    };
    call.agreed(
        |file, threads, beside| engine_choose(file, threads, beside, thread, partner),
        |file, threads, beside| second::choose(file, threads, beside, thread, partner),
        |after, verdict| judge(file, before, after, verdict),
    )
}

/// Judges what is known of every answer without doing the choice anew.
fn judge(file: &[u8], before: &Lists, after: &Lists, verdict: Verdict) -> Result<(), &'static str> {
    let unless = |wrong: bool, fault| if wrong { Err(fault) } else { Ok(()) };
    let can_be = match verdict.number {
        0 => verdict.place == 0,
        number if is_of_file(number) => true,
        11..=13 | 19 | 20 => verdict.place == 1,
        18 => verdict.place <= 1,
        _ => false,
    };
    unless(!can_be, "no such answer")?;
    if verdict != Verdict::CLEAN {
        return unless(before != after, "something written");
    }
    let [threads, made] = [0, 1].map(|at| usize::from(after.beside[at]));
    let [threads_before, made_before] = [0, 1].map(|at| usize::from(before.beside[at]));
    unless(threads > 64 || made > 64, "too many threads or channels")?;
    unless(
        before.threads[threads..] != after.threads[threads..],
        "a record past the threads",
    )?;
    let rest = 2 + 2 * made..BEFORE_TOTALS;
    unless(
        before.beside[rest.clone()] != after.beside[rest],
        "a word past the made channels",
    )?;
    let waiting = after.waiting(&Draft::of(file));
    unless(after.beside[BEFORE_TOTALS..] != waiting, "other totals")?;
    let kept = 2..2 + 2 * made_before;
    unless(
        before.beside[kept.clone()] != after.beside[kept],
        "another made channel",
    )?;
    let changed = (0..threads).filter(|&at| before.threads[at] != after.threads[at]);
    let ended = threads < threads_before;
    unless(!ended && changed.count() > 2, "more than two threads moved")?;
    unless(
        threads.abs_diff(threads_before) + made.abs_diff(made_before) > 1,
        "more than one thread or channel came or went",
    )
}

/// Deals lists for `files` files of a version to both and panics at the first
/// difference.
pub fn compare_choosing(version: Version, seed: u64, files: u64) -> ChooseTally {
    let mut tally = ChooseTally::new(version);
    for index in 0..files {
        for (turn, lent) in deal_lent(version, seed, index).iter().enumerate() {
            let origin =
                format_args!("trials::deal_lent(Version::{version:?}, {seed}, {index})[{turn}]");
            let (verdict, after) = agreed_choice(&lent.file, &lent.lists, lent.choice, origin);
            if let Some(rows) = row_file(&lent.file) {
                let Lists {
                    mut threads,
                    mut beside,
                } = lent.lists.clone();
                let [thread, partner] = lent.choice;
                let by_row = engine_choose(&rows, &mut threads, &mut beside, thread, partner);
                assert_eq!(verdict, by_row, "by row: {origin}");
                let same = after == Lists { threads, beside };
                assert!(same, "other lists by row: {origin}");
            }
            tally.count(lent, verdict, &after);
        }
    }
    tally
}
