//! Starts of lent lists by both implementations: compared, judged and counted.

mod deal;
mod tally;

pub use deal::{any_lists, deal_start};
pub use tally::StartTally;

use crate::answers::second_read;
use crate::columns::row_file;
use crate::lists::{by_engine, Call, Lists};
use second::draft::Draft;
use second::{Thread, Verdict, Version, BEFORE_TOTALS, BESIDE, RECORDS};
use std::fmt::Display;

/// The engine's answer, in the second implementation's form.
pub fn engine_start(file: &[u8], threads: &mut [Thread], beside: &mut [u16]) -> Verdict {
    by_engine(threads, |records| pilzdamo::start(file, records, beside))
}

/// What both answer, and what both leave in the lists. Panics if they differ, or if the
/// answer is wrong.
pub fn agreed_start(file: &[u8], before: &Lists, origin: impl Display) -> (Verdict, Lists) {
    let call = Call {
        name: "start",
        origin,
        file,
        before,
    };
    call.agreed(engine_start, second::start, |after, verdict| {
        judge(file, before, after, verdict)
    })
}

/// Judges all of it: answer, records and words.
fn judge(file: &[u8], before: &Lists, after: &Lists, verdict: Verdict) -> Result<(), &'static str> {
    let unless = |wrong: bool, fault| if wrong { Err(fault) } else { Ok(()) };
    let sized = before.threads.len() == RECORDS && before.beside.len() == BESIDE;
    let due = match second_read(file) {
        (0, 0) if !sized => (18, 0),
        read => read,
    };
    unless((verdict.number, verdict.place) != due, "no such answer")?;
    if verdict != Verdict::CLEAN {
        return unless(before != after, "something written");
    }
    unless(*after != started(file, before), "not the file's start")
}

/// The lists that are left where the file starts in these.
fn started(file: &[u8], before: &Lists) -> Lists {
    let mut lists = before.clone();
    let draft = Draft::of(file);
    let sessions = &draft.sessions;
    for (thread, &[user, mask, root]) in lists.threads.iter_mut().zip(sessions) {
        *thread = Thread {
            user,
            node: root,
            mask,
            variables: [0; 8],
        };
    }
    lists.beside[..2].copy_from_slice(&[sessions.len() as u16, 0]);
    let totals = lists.waiting(&draft);
    lists.beside[BEFORE_TOTALS..].copy_from_slice(&totals);
    lists
}

/// Deals `files` files of a version and lists to both and panics at the first
/// difference.
pub fn compare_starting(version: Version, seed: u64, files: u64) -> StartTally {
    let mut tally = StartTally::new(version);
    for index in 0..files {
        let (file, lists) = deal_start(version, seed, index);
        let origin = format_args!("trials::deal_start(Version::{version:?}, {seed}, {index})");
        let (verdict, after) = agreed_start(&file, &lists, origin);
        if let Some(rows) = row_file(&file) {
            let mut of_rows = lists.clone();
            let by_row = engine_start(&rows, &mut of_rows.threads, &mut of_rows.beside);
            assert_eq!(verdict, by_row, "by row: {origin}");
            assert!(after == of_rows, "other lists by row: {origin}");
        }
        tally.count(&file, &lists);
    }
    tally
}
