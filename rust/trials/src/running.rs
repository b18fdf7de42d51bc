//! Runs by both implementations: compared, judged and counted.

mod deal;
mod placed;
mod replay;
mod tally;

pub use deal::{deal_run, deal_state, room};
pub use placed::{run_placed, PlacedRuns};
pub use replay::{sends_in, Replay};
pub use tally::RunTally;

use crate::columns::row_file;
use second::draft::word_at;
use second::{Ready, Verdict, Version, RUN_ROOM};
use std::fmt::{Debug, Display};

/// The engine's answer, in the second implementation's form.
pub fn engine_run(file: &[u8], choices: &[u16], out: &mut [u8]) -> Verdict {
    let pilzdamo::Verdict { number, place } = pilzdamo::run(file, choices, out);
    Verdict { number, place }
}

/// The engine's ready pair, in the second implementation's form.
pub fn engine_ready(file: &[u8], choices: &[u16]) -> Ready {
    let ready = pilzdamo::ready(file, choices);
    Ready {
        number: ready.number,
        place: ready.place,
        sender: ready.sender,
        receiver: ready.receiver,
    }
}

/// A file, a list of choices, and an output with what it holds beforehand.
#[derive(Clone)]
pub struct Dealt {
    pub file: Vec<u8>,
    pub choices: Vec<u16>,
    pub before: Vec<u8>,
}

/// What both answer, and what both leave in the output. Panics if they differ, or if
/// the answer is wrong.
pub fn agreed<Answer: PartialEq + Debug>(
    dealt: &Dealt,
    origin: impl Display,
    engine: impl Fn(&[u8], &[u16], &mut [u8]) -> Answer,
    second: impl Fn(&[u8], &[u16], &mut [u8]) -> Answer,
    judge: impl Fn(&Answer, &[u8]) -> Result<(), String>,
) -> (Answer, Vec<u8>) {
    let Dealt {
        file,
        choices,
        before,
    } = dealt;
    let (mut out, mut of_second) = (before.clone(), before.clone());
    let answer = engine(file, choices, &mut out);
    let other = second(file, choices, &mut of_second);
    let fail = |what: &str| -> ! {
        let shown = &choices[..choices.len().min(2_000)];
        panic!(
            "{what} at {origin}: engine {answer:?}, second {other:?}, output of {} bytes, {} \
             words of choices {shown:?}, on {} bytes, to be had back by `xxd -r -p`:\n{}",
            before.len(),
            choices.len(),
            file.len(),
            file.iter()
                .map(|byte| format!("{byte:02x}"))
                .collect::<String>()
        )
    };
    if answer != other {
        fail("the answer differs");
    }
    if let Some(at) = (0..out.len()).find(|&at| out[at] != of_second[at]) {
        fail(&format!("output byte {at} differs"));
    }
    if let Err(fault) = judge(&answer, &out) {
        fail(&fault);
    }
    (answer, out)
}

/// The run by both, and the ready pair after it.
pub fn agreed_run(dealt: &Dealt, origin: impl Display) -> (Verdict, Vec<u8>) {
    let Dealt { file, choices, .. } = dealt;
    agreed(dealt, origin, engine_run, second::run, |&verdict, out| {
        let (ready, other) = (engine_ready(file, choices), second::ready(file, choices));
        if ready != other {
            return Err(format!("ready differs, {ready:?} and {other:?}"));
        }
        Ok(judge(dealt, out, verdict, ready)?)
    })
}

/// Whether a run halted at a choice, and not before the first.
pub fn is_halted(verdict: Verdict) -> bool {
    matches!(verdict.number, 11..=13 | 18..=20)
}

/// Judges what is known of every answer without doing the run anew.
fn judge(dealt: &Dealt, out: &[u8], verdict: Verdict, ready: Ready) -> Result<(), &'static str> {
    let unless = |wrong: bool, fault| if wrong { Err(fault) } else { Ok(()) };
    let before = &dealt.before;
    let without_output = ready.number != verdict.number || ready.place != verdict.place;
    let too_short = verdict.number == 17 && before.len() < RUN_ROOM;
    unless(without_output && !too_short, "ready is refused otherwise")?;
    let pair = ready.sender | ready.receiver;
    unless(ready.number != 0 && pair != 0, "a refusal, and a pair")?;
    unless(
        (ready.sender == 0) != (ready.receiver == 0),
        "half a ready pair",
    )?;
    if verdict.number != 0 && !is_halted(verdict) {
        return unless(out != before, "something written");
    }
    let done = match verdict.place {
        0 => dealt.choices.len() / 2,
        place => usize::from(place) - 1,
    };
    let [said, refusal, threads, made] = [0, 1, 2, 3].map(|at| usize::from(word_at(out, at)));
    unless(said != done, "another number of choices done")?;
    unless(refusal != verdict.number.into(), "another refusal written")?;
    unless(threads > 64 || made > 64, "too many threads or channels")?;
    let length = 2 * (4 + 2 * made + 12 * threads);
    unless(out[length..] != before[length..], "a byte past the state")?;
    for thread in 0..threads {
        let at = 4 + 2 * made + 12 * thread;
        let (mask, roles) = (word_at(out, at + 2), word_at(out, at + 3));
        let bits = (0..16).filter(|bit| mask >> bit & 1 != 0).count();
        unless(bits != roles.into(), "another number of roles")?;
    }
    Ok(())
}

/// The state before the choice at which a run halted is what the list up to it
/// leads to, but for the refusal.
fn assert_state_before(dealt: &Dealt, verdict: Verdict, out: &[u8]) {
    let done = usize::from(verdict.place) - 1;
    let mut cut = dealt.before.clone();
    let choices = &dealt.choices[..2 * done];
    assert_eq!(engine_run(&dealt.file, choices, &mut cut), Verdict::CLEAN);
    assert_eq!(cut[..2], out[..2], "choices done");
    assert_eq!(cut[4..], out[4..], "the state before choice {}", done + 1);
}

/// Deals `runs` runs of files of a version to both and panics at the first
/// difference.
pub fn compare_running(version: Version, seed: u64, runs: u64) -> RunTally {
    let mut tally = RunTally::new(version);
    for index in 0..runs {
        let dealt = deal_run(version, seed, index);
        let origin = format_args!("trials::deal_run(Version::{version:?}, {seed}, {index})");
        let (verdict, out) = agreed_run(&dealt, origin);
        if let Some(rows) = row_file(&dealt.file) {
            let mut of_rows = dealt.before.clone();
            let by_row = engine_run(&rows, &dealt.choices, &mut of_rows);
            assert_eq!(verdict, by_row, "by row: {origin}");
            assert!(out == of_rows, "another output by row: {origin}");
            let ready = [&dealt.file, &rows].map(|file| engine_ready(file, &dealt.choices));
            assert_eq!(ready[0], ready[1], "by row: {origin}");
        }
        if is_halted(verdict) && index % 4 == 0 {
            assert_state_before(&dealt, verdict, &out);
        }
        tally.count(&dealt, verdict);
    }
    tally
}
