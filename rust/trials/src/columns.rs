//! Column files beside their row files, and files turned both ways by both
//! implementations: compared and counted.

mod deal;
mod tally;

pub use deal::{deal_turn, Turned};
pub use tally::TurnTally;

use second::cases::Turn;
use second::draft::{set_word, Draft};
use second::{cause_in_turning, Placed, Version, Written, TURNED_ROOM};
use std::fmt::Display;

/// The engine's answer, in the second implementation's form.
pub fn engine_turn(turn: Turn, file: &[u8], out: &mut [u8]) -> Written {
    let written = match turn {
        Turn::ToColumns => pilzdamo::to_columns(file, out),
        Turn::ToRows => pilzdamo::to_rows(file, out),
    };
    Written {
        number: written.number,
        place: written.place,
        length: written.length,
    }
}

/// The second implementation's.
pub fn second_turn(turn: Turn, file: &[u8], out: &mut [u8]) -> Written {
    match turn {
        Turn::ToColumns => second::to_columns(file, out),
        Turn::ToRows => second::to_rows(file, out),
    }
}

/// The row file of a column file, by its records. Where 1 to 5 refuse it that is the
/// same file with a first word of 2. None for other versions.
pub fn row_file(file: &[u8]) -> Option<Vec<u8>> {
    other_form(Turn::ToRows, file)
}

/// The column file of a file of version 2, likewise.
pub fn column_file(file: &[u8]) -> Option<Vec<u8>> {
    other_form(Turn::ToColumns, file)
}

fn other_form(turn: Turn, file: &[u8]) -> Option<Vec<u8>> {
    let (from, to) = (turn.from(), turn.back().from());
    if Version::claimed(file) != from {
        return None;
    }
    if cause_in_turning(from, file, TURNED_ROOM).is_some() {
        let mut file = file.to_vec();
        set_word(&mut file, 0, to.number());
        return Some(file);
    }
    let draft = Draft {
        by_column: to == Version::Three,
        ..Draft::of(file)
    };
    Some(draft.bytes())
}

/// Panics unless a column file is placed as its row file is by `place`, and what is
/// written is the columns of what is written there.
pub fn assert_placed_as_rows(
    placed: Placed,
    out: &[u8],
    before: &[u8],
    place: impl FnOnce(&mut [u8]) -> Placed,
    origin: impl Display,
) {
    let mut of_rows = before.to_vec();
    assert_eq!(placed, place(&mut of_rows), "by row: {origin}");
    if placed.number == 0 {
        let placed_rows = &mut of_rows[..placed.length.into()];
        let columns = column_file(placed_rows).expect("a file of version 2");
        placed_rows.copy_from_slice(&columns);
    }
    assert!(out == of_rows, "another output by row: {origin}");
}

/// What both answer, and what both leave in the output. Panics if they differ, or if
/// the answer is wrong.
pub fn agreed_turn(turned: &Turned, origin: impl Display) -> (Written, Vec<u8>) {
    let Turned { turn, file, before } = turned;
    let (mut out, mut of_second) = (before.clone(), before.clone());
    let written = engine_turn(*turn, file, &mut out);
    let second = second_turn(*turn, file, &mut of_second);
    let fail = |fault: &str| {
        let hex: String = file.iter().map(|byte| format!("{byte:02x}")).collect();
        panic!(
            "{turn:?}: {fault} at {origin}: engine {written:?}, second {second:?}, output of {} \
             bytes, on {} bytes, to be had back by `xxd -r -p`:\n{hex}",
            before.len(),
            file.len(),
        )
    };
    if written != second {
        fail("the answer differs");
    }
    if let Some(at) = (0..out.len()).find(|&at| out[at] != of_second[at]) {
        fail(&format!("output byte {at} differs"));
    }
    if let Err(fault) = judge(turned, &out, written) {
        fail(fault);
    }
    (written, out)
}

/// Judges an answer by the file's records, and turns what is written back.
fn judge(turned: &Turned, out: &[u8], written: Written) -> Result<(), &'static str> {
    let unless = |wrong: bool, fault| if wrong { Err(fault) } else { Ok(()) };
    let Turned { turn, file, before } = turned;
    unless(written.place != 0, "a place")?;
    if written.number != 0 {
        unless(written.length != 0, "more than a refusal")?;
        return unless(out != before, "something written");
    }
    let length = file.len();
    unless(usize::from(written.length) != length, "another length")?;
    unless(out[length..] != before[length..], "a byte past the length")?;
    let due = other_form(*turn, file);
    unless(due.as_deref() != Some(&out[..length]), "another file")?;
    let mut back = vec![0; TURNED_ROOM];
    let again = engine_turn(turn.back(), &out[..length], &mut back);
    unless(again != written, "another answer on the way back")?;
    unless(back[..length] != file[..], "another file on the way back")
}

/// Deals `files` files to be turned to both and panics at the first difference.
pub fn compare_turning(seed: u64, files: u64) -> TurnTally {
    let mut tally = TurnTally::default();
    for index in 0..files {
        let turned = deal_turn(seed, index);
        let origin = format_args!("trials::deal_turn({seed}, {index})");
        let (written, _) = agreed_turn(&turned, origin);
        tally.count(&turned, written);
    }
    tally
}
