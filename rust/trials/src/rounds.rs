//! Rounds by both implementations: compared, judged and counted.

mod deal;
mod desk;
mod placed;
mod tally;
mod timed;
mod visits;

pub use deal::deal_round;
pub use placed::{dispatch_placed, Dispatched};
pub use tally::RoundTally;
pub use timed::{lone_round, meeting_round, typical_round};
pub use visits::{Came, Visits};

use crate::columns::row_file;
use crate::running::{agreed, engine_run, is_halted, Dealt};
use second::draft::word_at;
use second::{Round, Verdict, Version, BEFORE_ROUND};
use std::fmt::Display;

/// The engine's answer, in the second implementation's form.
pub fn engine_round(file: &[u8], choices: &[u16], out: &mut [u8]) -> Round {
    let round = pilzdamo::round(file, choices, out);
    Round {
        number: round.number,
        place: round.place,
        length: round.length,
        words: round.words,
    }
}

/// The choices of a round, without the zeros past the last.
pub fn choices_of(round: &Round) -> &[[u16; 2]] {
    let choices = round.words.as_chunks().0;
    let past = choices.iter().position(|[thread, _]| *thread == 0);
    &choices[..past.unwrap_or(choices.len())]
}

/// The round by both.
pub fn agreed_round(dealt: &Dealt, origin: impl Display) -> (Round, Vec<u8>) {
    agreed(dealt, origin, engine_round, second::round, |round, out| {
        Ok(judge(dealt, out, round)?)
    })
}

const TOO_LONG: Verdict = Verdict {
    number: 17,
    place: 0,
};

/// Judges what is known of every answer by the engine's runs: through the list,
/// and through it and then the round's choices.
fn judge(dealt: &Dealt, out: &[u8], round: &Round) -> Result<(), &'static str> {
    let unless = |wrong: bool, fault| if wrong { Err(fault) } else { Ok(()) };
    let Dealt {
        file,
        choices,
        before,
    } = dealt;
    let made = choices_of(round);
    let past = &round.words[2 * made.len()..];
    unless(past.iter().any(|&word| word != 0), "a word past the last")?;
    let both = [&choices[..], made.as_flattened()].concat();
    let mut due = before.clone();
    let verdict = if choices.len() > 2 * BEFORE_ROUND {
        TOO_LONG
    } else {
        engine_run(file, &both, &mut due)
    };
    let told = (round.number, round.place);
    unless(
        told != (verdict.number, verdict.place),
        "another answer than the run",
    )?;
    if verdict != Verdict::CLEAN {
        unless(!made.is_empty(), "a refusal, and a round")?;
    }
    if verdict != Verdict::CLEAN && !is_halted(verdict) {
        unless(round.length != 0, "a refusal, and a length")?;
        return unless(out != before, "something written");
    }
    unless(*out != due, "another output than the run's")?;
    let [threads, channels] = [2, 3].map(|at| word_at(out, at));
    let words = 4 + 2 * channels + 12 * threads;
    unless(round.length != 2 * words, "another length")
}

/// Asserts that no choice of these numbers is done after the list, by the
/// engine's runs.
fn assert_idle(dealt: &Dealt, threads: u16, origin: impl Display) {
    let mut out = dealt.before.clone();
    for thread in 0..=threads + 1 {
        for partner in 0..=threads + 1 {
            let choices = [&dealt.choices[..], &[thread, partner]].concat();
            let verdict = engine_run(&dealt.file, &choices, &mut out);
            assert_eq!(
                usize::from(verdict.place),
                choices.len() / 2,
                "{origin}: an empty round, and {thread}, {partner} is done"
            );
        }
    }
}

/// Goes through the round again, and in a sample through all choices after one that
/// is empty. Gives what came up in it; nothing where there is no round.
fn look_into(dealt: &Dealt, round: &Round, out: &[u8], sample: bool, origin: &str) -> Option<Came> {
    if round.number != 0 {
        return None;
    }
    let made = choices_of(round);
    let visits = Visits::after(&dealt.file, &dealt.choices);
    let mut came = match visits.through(made) {
        Ok(came) => came,
        Err(fault) => panic!("{origin}: {fault} in {made:?}"),
    };
    let tried = made.is_empty() && sample && dealt.choices.len() < 1_000;
    if tried {
        assert_idle(dealt, word_at(out, 2), origin);
    }
    came.insert("empty rounds with all choices tried", tried.into());
    Some(came)
}

/// Deals `rounds` rounds of files of a version to both and panics at the first
/// difference.
pub fn compare_rounds(version: Version, seed: u64, rounds: u64) -> RoundTally {
    let mut tally = RoundTally::new(version);
    for index in 0..rounds {
        let dealt = deal_round(version, seed, index);
        let origin = format!("trials::deal_round(Version::{version:?}, {seed}, {index})");
        let (round, out) = agreed_round(&dealt, &origin);
        if let Some(rows) = row_file(&dealt.file) {
            let mut of_rows = dealt.before.clone();
            let by_row = engine_round(&rows, &dealt.choices, &mut of_rows);
            assert_eq!(round, by_row, "by row: {origin}");
            assert!(out == of_rows, "another output by row: {origin}");
        }
        let sample = index % 4 == 0;
        let came = look_into(&dealt, &round, &out, sample, &origin);
        tally.count(&dealt, &round, came.as_ref());
    }
    tally
}
