//! Whole runs, choice by choice in a lent list.

use super::{agreed_choice, engine_choose};
use crate::lists::Lists;
use crate::rng::Rng;
use crate::running::{deal_run, engine_run};
use crate::starting::{agreed_start, any_lists};
use crate::totals::engine_totals;
use second::draft::to_bytes;
use second::{Run, Verdict, Version, BEFORE_TOTALS, RUN_ROOM};

/// What came up over the runs.
#[derive(Debug, Default)]
pub struct Steps {
    pub runs: u64,
    pub done: u64,
    /// Runs that a choice halts.
    pub halted: u64,
}

/// The start of a run in lists that held anything before. The engine's run
/// without a choice leaves the same.
fn start(rng: &mut Rng, file: &[u8], origin: &str) -> Lists {
    let (verdict, lists) = agreed_start(file, &any_lists(rng, file), origin);
    assert_eq!(verdict, Verdict::CLEAN, "{origin}");
    assert_run(file, &[], &lists, 0, origin);
    lists
}

/// What a run writes in a state: the choices done, the refusal, and what the
/// lists hold.
fn written(lists: &Lists, done: u16, refusal: u16) -> Vec<u8> {
    let [threads, made] = [0, 1].map(|at| usize::from(lists.beside[at]));
    let mut words = vec![done, refusal];
    words.extend(&lists.beside[..2 + 2 * made]);
    for thread in &lists.threads[..threads] {
        let roles = (0..16).filter(|bit| thread.mask >> bit & 1 != 0).count();
        words.extend([thread.user, thread.node, thread.mask, roles as u16]);
        words.extend(thread.variables);
    }
    to_bytes(&words)
}

/// Asserts that the engine's run through these choices is refused as it says
/// and leaves what the lists hold.
fn assert_run(file: &[u8], choices: &[u16], lists: &Lists, refusal: u16, origin: &str) {
    let all = choices.len() / 2;
    let (done, place) = match refusal {
        0 => (all, 0),
        _ => (all - 1, all),
    };
    let due = written(lists, done as u16, refusal);
    let mut out = [0; RUN_ROOM];
    let verdict = engine_run(file, choices, &mut out);
    assert_eq!(
        (verdict.number, usize::from(verdict.place)),
        (refusal, place),
        "{origin}"
    );
    assert!(
        out[..due.len()] == due,
        "{origin}: another state after {all} choices"
    );
    let told = engine_totals(file, choices);
    assert_eq!((told.number, usize::from(told.place)), (refusal, place));
    let totals = &lists.beside[BEFORE_TOTALS..];
    assert_eq!(told.totals, totals, "{origin}: other totals");
    assert_read(&lists.beside, origin);
}

/// Asserts that a kind's total is read from the words beside a list.
fn assert_read(beside: &[u16], origin: &str) {
    let totals = [&[0], &beside[BEFORE_TOTALS..], &[0; 3]].concat();
    for (kind, total) in (0..).zip(totals) {
        assert_eq!(pilzdamo::total(beside, kind), total, "{origin}: {kind}");
        assert_eq!(second::total(beside, kind), total, "{origin}: {kind}");
    }
}

/// Whether the lists hold the state of a run, and its totals.
fn holds(lists: &Lists, run: &Run) -> bool {
    let Lists { threads, beside } = lists;
    let (counted, made) = (run.threads(), run.made().as_flattened());
    beside[..2] == [counted.len() as u16, made.len() as u16 / 2]
        && beside[2..].starts_with(made)
        && threads.starts_with(counted)
        && beside[BEFORE_TOTALS..] == *run.totals()
        && *run.totals() == run.counted_totals()
}

/// Goes through `runs` runs of files of a version by choices, both
/// implementations at a time, and panics where the state after a choice is not the
/// run's.
pub fn run_by_choices(version: Version, seed: u64, runs: u64) -> Steps {
    let mut steps = Steps::default();
    for index in 0..runs {
        let dealt = deal_run(version, seed, index);
        let Ok(mut run) = second::begin(&dealt.file) else {
            continue;
        };
        steps.runs += 1;
        let origin = format!("trials::deal_run(Version::{version:?}, {seed}, {index})");
        let mut lists = start(&mut Rng::new(seed, index), &dealt.file, &origin);
        assert!(holds(&lists, &run), "{origin}: not the run's start");
        let (choices, _) = dealt.choices.as_chunks();
        for (at, &choice) in choices.iter().enumerate() {
            let origin = format!("{origin}, choice {}", at + 1);
            let (verdict, after) = agreed_choice(&dealt.file, &lists, choice, &origin);
            let Verdict { number, place } = verdict;
            assert_eq!(place, number.min(1), "{origin}: {verdict:?}");
            let halt = run.choose(choice[0], choice[1]).err();
            assert_eq!(number, halt.map_or(0, |halt| halt.number()), "{origin}");
            assert!(holds(&after, &run), "{origin}: not the run's next state");
            let so_far = &dealt.choices[..2 * at + 2];
            assert_run(&dealt.file, so_far, &after, number, &origin);
            lists = after;
            if number != 0 {
                steps.halted += 1;
                break;
            }
            steps.done += 1;
        }
        // The list may start again, wherever it has come to.
        agreed_start(&dealt.file, &lists, format!("{origin}, again"));
    }
    steps
}

/// Goes through one run by the engine's choices alone. All of them are done,
/// and each leaves the state of the second implementation's run.
pub fn long_run_by_choices(file: &[u8], choices: &[u16]) {
    let mut lists = start(&mut Rng::new(0, 0), file, "the start");
    let mut run = second::begin(file).expect("1 to 10 leave it clean");
    for &[thread, partner] in choices.as_chunks().0 {
        let Lists { threads, beside } = &mut lists;
        let verdict = engine_choose(file, threads, beside, thread, partner);
        assert_eq!(verdict, Verdict::CLEAN);
        run.choose(thread, partner).expect("it is done");
        assert!(holds(&lists, &run));
    }
    assert_run(file, choices, &lists, 0, "the whole list");
}
