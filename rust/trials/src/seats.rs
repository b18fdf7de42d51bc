//! Runs and rounds with seats, and what is read of the seats, by both implementations:
//! compared, judged and counted.

mod deal;
mod tally;
mod timed;
mod ward;
mod witness;

pub use deal::deal_seated;
pub use tally::SeatTally;
pub use timed::{largest_seated, typical_seated};
pub use witness::{Came, Witness};

use crate::columns::row_file;
use crate::rounds::{choices_of, engine_round};
use crate::running::{agreed, engine_run, is_halted, Dealt};
use crate::totals::engine_totals;
use second::draft::word_at;
use second::{Round, Seats, Verdict, Version, Written, BEFORE_ROUND};
use std::fmt::Display;

/// A run's input with a table of seats.
#[derive(Clone)]
pub struct Seated {
    pub dealt: Dealt,
    pub seats: Vec<u16>,
}

/// The engine's answer, in the second implementation's form.
pub fn engine_run_seated(file: &[u8], choices: &[u16], seats: &[u16], out: &mut [u8]) -> Written {
    let written = pilzdamo::run_seated(file, choices, seats, out);
    Written {
        number: written.number,
        place: written.place,
        length: written.length,
    }
}

/// The engine's round, in the second implementation's form.
pub fn engine_round_seated(file: &[u8], choices: &[u16], seats: &[u16], out: &mut [u8]) -> Round {
    let round = pilzdamo::round_seated(file, choices, seats, out);
    Round {
        number: round.number,
        place: round.place,
        length: round.length,
        words: round.words,
    }
}

/// What the engine reads of the seats, in the second implementation's form.
pub fn engine_seats(file: &[u8], choices: &[u16], seats: &[u16]) -> Seats {
    let told = pilzdamo::seats(file, choices, seats);
    Seats {
        number: told.number,
        place: told.place,
        waited: told.waited,
        last: told.last,
        taken: told.taken,
        waiting: told.waiting,
        line: told.line,
        totals: told.totals,
    }
}

/// What all three calls answer, and what the run and the round leave in the output.
pub struct Told {
    pub run: Written,
    pub out: Vec<u8>,
    pub seats: Seats,
    pub round: Round,
    pub after_round: Vec<u8>,
}

/// All three by both.
pub fn agreed_seated(seated: &Seated, origin: impl Display) -> Told {
    let Seated {
        dealt,
        seats: table,
    } = seated;
    let none = |_: &_, _: &[u8]| Ok(());
    let (seats, _) = agreed(
        dealt,
        format_args!("{origin}, seats of {table:?}"),
        |file, choices, _| engine_seats(file, choices, table),
        |file, choices, _| second::seats(file, choices, table),
        none,
    );
    let (run, out) = agreed(
        dealt,
        format_args!("{origin}, with seats {table:?}"),
        |file, choices, out| engine_run_seated(file, choices, table, out),
        |file, choices, out| second::run_seated(file, choices, table, out),
        |run, out| Ok(judge_run(seated, &seats, run, out)?),
    );
    let (round, after_round) = agreed(
        dealt,
        format_args!("{origin}, a round with seats {table:?}"),
        |file, choices, out| engine_round_seated(file, choices, table, out),
        |file, choices, out| second::round_seated(file, choices, table, out),
        |round, out| Ok(judge_round(seated, round, out)?),
    );
    Told {
        run,
        out,
        seats,
        round,
        after_round,
    }
}

fn unless(wrong: bool, fault: &'static str) -> Result<(), &'static str> {
    if wrong {
        Err(fault)
    } else {
        Ok(())
    }
}

/// Whether a run with seats halted at a choice; 26 never halts one.
fn is_stopped(number: u16) -> bool {
    is_halted(Verdict { number, place: 0 })
}

/// The length of the state that is written.
fn length_of(out: &[u8]) -> u16 {
    let [threads, channels] = [2, 3].map(|at| word_at(out, at));
    2 * (4 + 2 * channels + 12 * threads)
}

/// Judges what is known of every answer of a run without doing it anew.
fn judge_run(
    seated: &Seated,
    seats: &Seats,
    run: &Written,
    out: &[u8],
) -> Result<(), &'static str> {
    let Seated {
        dealt,
        seats: table,
    } = seated;
    let too_short = run.number == 17 && dealt.before.len() < second::RUN_ROOM;
    let same = (run.number, run.place) == (seats.number, seats.place);
    unless(!same && !too_short, "the seats are refused otherwise")?;
    if run.number != 0 && !is_stopped(run.number) {
        unless(run.length != 0, "a refusal, and a length")?;
        unless(out != dealt.before, "something written")?;
        let nothing = Seats::refused(seats.number, seats.place);
        return unless(same && *seats != nothing, "a refusal, and seats");
    }
    let length = length_of(out);
    unless(run.length != length, "another length")?;
    let past = usize::from(length);
    unless(out[past..] != dealt.before[past..], "a byte past the state")?;
    for (role, &limit) in table.iter().enumerate() {
        let over = limit != 0 && seats.taken[role] > limit;
        unless(over, "more sessions than seats")?;
        let line = limit == 0 && seats.waiting[role] != 0;
        unless(line, "a line without a limit")?;
    }
    Ok(())
}

/// Judges a round by the engine's runs with seats: through the list, and through it and
/// then the round's choices.
fn judge_round(seated: &Seated, round: &Round, out: &[u8]) -> Result<(), &'static str> {
    let Seated { dealt, seats } = seated;
    let Dealt {
        file,
        choices,
        before,
    } = dealt;
    let made = choices_of(round);
    if choices.len() > 2 * BEFORE_ROUND {
        unless((round.number, round.length) != (17, 0), "a round too long")?;
        return unless(out != before, "something written");
    }
    let both = [&choices[..], made.as_flattened()].concat();
    let mut due = before.clone();
    let run = engine_run_seated(file, &both, seats, &mut due);
    let told = (round.number, round.place, round.length);
    let same = told == (run.number, run.place, run.length);
    unless(!same, "another answer than the run")?;
    unless(*out != due, "another output than the run's")?;
    unless(
        round.number != 0 && !made.is_empty(),
        "a refusal, and a round",
    )
}

/// With all words 0 the run, the round and the totals are those without seats.
fn assert_as_without(dealt: &Dealt, told: &Told, origin: &str) {
    let Dealt {
        file,
        choices,
        before,
    } = dealt;
    let (mut out, mut after_round) = (before.clone(), before.clone());
    let run = engine_run(file, choices, &mut out);
    let verdict = (told.run.number, told.run.place);
    assert_eq!(verdict, (run.number, run.place), "{origin}");
    assert!(told.out == out, "{origin}: another output without limits");
    let round = engine_round(file, choices, &mut after_round);
    assert_eq!(told.round, round, "{origin}");
    assert!(told.after_round == after_round, "{origin}: a round's");
    let totals = engine_totals(file, choices).totals;
    assert_eq!(told.seats.totals, totals, "{origin}");
    assert_eq!((told.seats.waited, told.seats.last), (0, 0), "{origin}");
}

/// Without the choices that were answered 26 the run without seats comes to the same state
/// and halts alike.
fn assert_alike(dealt: &Dealt, told: &Told, witness: &Witness, origin: &str) {
    let left = witness.steps();
    let mut out = dealt.before.clone();
    let run = engine_run(&dealt.file, &left, &mut out);
    assert_eq!(run.number, told.run.number, "{origin}: without the 26");
    let length = usize::from(told.run.length);
    assert!(out[2..length] == told.out[2..length], "{origin}: its state");
    let done = word_at(&out, 0) + told.seats.waited;
    assert_eq!(done, word_at(&told.out, 0), "{origin}: its choices done");
}

/// The engine answers and writes for a column file what it does for its rows.
fn assert_as_by_row(seated: &Seated, rows: Vec<u8>, told: &Told, origin: &str) {
    let (choices, table) = (&seated.dealt.choices, &seated.seats);
    let mut out = seated.dealt.before.clone();
    let mut after_round = seated.dealt.before.clone();
    let run = engine_run_seated(&rows, choices, table, &mut out);
    let round = engine_round_seated(&rows, choices, table, &mut after_round);
    let seats = engine_seats(&rows, choices, table);
    assert_eq!(
        (told.run, told.round, told.seats),
        (run, round, seats),
        "by row: {origin}"
    );
    assert!(told.out == out, "another output by row: {origin}");
    assert!(
        told.after_round == after_round,
        "a round's by row: {origin}"
    );
}

/// Deals `inputs` inputs for files of a version to both and panics at the first
/// difference.
pub fn compare_seats(version: Version, seed: u64, inputs: u64) -> SeatTally {
    let mut tally = SeatTally::new(version);
    for index in 0..inputs {
        let seated = deal_seated(version, seed, index);
        let origin = format!("trials::deal_seated(Version::{version:?}, {seed}, {index})");
        let told = agreed_seated(&seated, &origin);
        if let Some(rows) = row_file(&seated.dealt.file) {
            assert_as_by_row(&seated, rows, &told, &origin);
        }
        let no_limits = seated.seats.iter().all(|&seats| seats == 0);
        let refused_table = told.run.number == 17;
        if no_limits && !refused_table {
            assert_as_without(&seated.dealt, &told, &origin);
        }
        let witness = Witness::of(&seated, &told, &origin);
        if let Some(witness) = &witness {
            assert_alike(&seated.dealt, &told, witness, &origin);
        }
        tally.count(&seated, &told, witness.as_ref());
    }
    tally
}
