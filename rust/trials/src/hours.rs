//! The check and placing at a minute by both implementations: compared, judged and
//! counted.

mod deal;
mod tally;

pub use deal::{deal_at, deal_bare_at, grant_more, with_hours, At};
pub use tally::{CheckAtTally, PlaceAtTally};

use crate::columns::{assert_placed_as_rows, row_file};
use crate::measuring::{agreed_measure_at, engine_measure_at};
use crate::placing::{differences, in_form, judge};
use second::draft::Draft;
use second::{Placed, Verdict, Version, ROOM};
use std::fmt::Display;

/// The engine's answer, in the second implementation's form.
pub fn engine_check_at(file: &[u8], hours: &[u16], minute: u16) -> Verdict {
    let pilzdamo::Verdict { number, place } = pilzdamo::check_at(file, hours, minute);
    Verdict { number, place }
}

/// The engine's answer, in the second implementation's form.
pub fn engine_place_at(file: &[u8], hours: &[u16], minute: u16, out: &mut [u8]) -> Placed {
    in_form(pilzdamo::place_at(file, hours, minute, out))
}

/// The mask of the roles that are closed, for any rows: those that have rows, none
/// of which is open.
pub fn closed(hours: &[u16], minute: u16) -> u16 {
    let rows = hours.as_chunks().0;
    let is_closed = |role: u16| {
        let mut own = rows.iter().filter(|[of, _, _]| *of == role).peekable();
        own.peek().is_some() && own.all(|&[_, first, end]| minute < first || end <= minute)
    };
    let roles = (1..=16).filter(|&role| is_closed(role));
    roles.fold(0, |mask, role| mask | 1 << (role - 1))
}

/// The file with these roles taken from every user.
pub fn without_roles(draft: &Draft, roles: u16) -> Draft {
    let mut less = draft.clone();
    for [mask] in &mut less.users {
        *mask &= !roles;
    }
    less
}

/// What both answer at the minute. Panics if they differ.
pub fn agreed_check_at(at: &At, origin: impl Display) -> Verdict {
    let At {
        file,
        hours,
        minute,
    } = at;
    let ours = engine_check_at(file, hours, *minute);
    let theirs = second::check_at(file, hours, *minute);
    assert!(
        ours == theirs,
        "check_at differs at {origin}: engine {ours:?}, second {theirs:?}, {}",
        at.told()
    );
    ours
}

/// What both answer at the minute, given an output and what it holds, and what both
/// leave in it. Panics if they differ, or if the answer is wrong.
pub fn agreed_placing_at(at: &At, before: &[u8], origin: impl Display) -> (Placed, Vec<u8>) {
    let At {
        file,
        hours,
        minute,
    } = at;
    let (mut out, mut of_second) = (before.to_vec(), before.to_vec());
    let placed = engine_place_at(file, hours, *minute, &mut out);
    let second = second::place_at(file, hours, *minute, &mut of_second);
    let check = |out: &[u8]| second::check_at(out, hours, *minute);
    let fault = differences((placed, &out), (second, &of_second))
        .or_else(|| {
            judge(file, before, &out, placed, check)
                .err()
                .map(str::to_string)
        })
        .or_else(|| judge_states(at, &out, placed).err().map(str::to_string));
    if let Some(fault) = fault {
        panic!(
            "{fault} at {origin}: engine {placed:?}, second {second:?}, output of {} bytes, {}",
            before.len(),
            at.told()
        );
    }
    (placed, out)
}

/// The states taken are those of the file whose users lack the closed roles.
fn judge_states(at: &At, out: &[u8], placed: Placed) -> Result<(), &'static str> {
    let unless = |wrong: bool, fault| if wrong { Err(fault) } else { Ok(()) };
    if !matches!(placed.number, 0 | 15 | 16) {
        return Ok(());
    }
    let draft = Draft::of(&at.file);
    let less = without_roles(&draft, closed(&at.hours, at.minute)).bytes();
    let mut of_less = [0; ROOM];
    let due = second::place(&less, &mut of_less);
    unless(due != placed, "another answer than with fewer roles")?;
    if placed.number != 0 {
        return Ok(());
    }
    let [out, of_less] = [out, &of_less].map(|out| Draft::of(&out[..placed.length.into()]));
    unless(
        out.nodes != of_less.nodes,
        "other nodes than with fewer roles",
    )?;
    unless(out.users != draft.users, "other users than the input's")
}

/// Deals `files` files of these versions with hours to both and panics at the first
/// difference.
pub fn compare_checking_at(versions: &[Version], seed: u64, files: u64) -> CheckAtTally {
    let mut tally = CheckAtTally::default();
    for index in 0..files {
        let at = deal_at(versions, seed, index);
        let origin = format_args!("trials::deal_at(&{versions:?}, {seed}, {index})");
        let verdict = agreed_check_at(&at, origin);
        if let Some(rows) = row_file(&at.file) {
            let by_row = engine_check_at(&rows, &at.hours, at.minute);
            assert_eq!(verdict, by_row, "by row: {origin}");
        }
        tally.count(&at, verdict);
    }
    tally
}

/// Deals `files` files of these versions to be placed, with hours, to both and panics at
/// the first difference.
pub fn compare_placing_at(versions: &[Version], seed: u64, files: u64) -> PlaceAtTally {
    let mut tally = PlaceAtTally::default();
    for index in 0..files {
        let (at, before) = deal_bare_at(versions, seed, index);
        let origin = format_args!("trials::deal_bare_at(&{versions:?}, {seed}, {index})");
        let (placed, out) = agreed_placing_at(&at, &before, origin);
        if let Some(rows) = row_file(&at.file) {
            let At { hours, minute, .. } = &at;
            let place = |out: &mut [u8]| engine_place_at(&rows, hours, *minute, out);
            assert_placed_as_rows(placed, &out, &before, place, origin);
            let measured = engine_measure_at(&rows, hours, *minute);
            assert_eq!(agreed_measure_at(&at, origin), measured, "by row: {origin}");
        }
        tally.count(&at, placed, &out);
    }
    tally
}
