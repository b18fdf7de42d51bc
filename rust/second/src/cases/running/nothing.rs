//! A clinic with nothing planned: zero bytes, run and lent beside lists.

use super::lent::{record, sized};
use super::{refused, ChooseCase, Lent, RoundCase, RunCase, StartCase, TotalsCase};
use crate::{Ready, BEFORE_ROUND, BESIDE, RECORDS, RUN_ROOM, TOTALS};

/// A run has no thread, so that no choice is done.
pub fn runs() -> Vec<RunCase> {
    let halted = |name, choice: [u16; 2]| RunCase {
        words: vec![0, 18, 0, 0],
        ..refused(name, vec![], choice.to_vec(), (18, 1))
    };
    vec![
        RunCase {
            words: vec![0; 4],
            ready: Ready::pair(0, 0),
            ..refused("zero bytes", vec![], vec![], (0, 0))
        },
        halted("zero bytes and thread 1", [1, 0]),
        halted("zero bytes and thread 0", [0, 0]),
        halted("zero bytes and a pair", [1, 2]),
        refused("zero bytes and an odd list", vec![], vec![1], (17, 0)),
        refused(
            "zero bytes and 65,536 choices",
            vec![],
            vec![1; 131_072],
            (17, 0),
        ),
        RunCase {
            room: RUN_ROOM - 1,
            ready: Ready::pair(0, 0),
            ..refused("zero bytes, output too short", vec![], vec![], (17, 0))
        },
    ]
}

/// A round is empty. Those after a list that stops come from the runs.
pub fn rounds() -> Vec<RoundCase> {
    let round = |name, words: usize, answer, written: &[u16]| RoundCase {
        name,
        file: vec![],
        choices: vec![1; words],
        room: RUN_ROOM,
        answer,
        words: written.to_vec(),
        round: vec![],
    };
    let over = 2 * BEFORE_ROUND + 2;
    vec![
        round("zero bytes", 0, (0, 0), &[0; 4]),
        round("zero bytes and 65,472 choices", over, (17, 0), &[]),
        round("zero bytes and 65,471", over - 2, (18, 1), &[0, 18, 0, 0]),
    ]
}

/// Nobody waits.
pub fn totals() -> Vec<TotalsCase> {
    let of = |name, choices: &[u16], answer| TotalsCase {
        name,
        file: vec![],
        choices: choices.to_vec(),
        answer,
        totals: [0; TOTALS],
    };
    vec![
        of("zero bytes", &[], (0, 0)),
        of("zero bytes and a choice", &[1, 0], (18, 1)),
        of("zero bytes and an odd list", &[1], (17, 0)),
    ]
}

pub fn starts() -> Vec<StartCase> {
    let start = |name, lent, answer, after| StartCase {
        name,
        file: vec![],
        lent,
        answer,
        after,
    };
    let started = Some(Lent::of(&[], &[]).waiting(&[]));
    let other = |records, words| start("zero bytes", sized(records, words), (18, 0), None);
    vec![
        start("zero bytes", sized(RECORDS, BESIDE), (0, 0), started),
        other(RECORDS - 1, BESIDE),
        other(RECORDS, BESIDE + 1),
        other(0, 0),
    ]
}

/// Whatever the choice, there is no such thread; and nothing but no thread, no made
/// channel and totals of 0 can be lent.
pub fn choices() -> Vec<ChooseCase> {
    let lent = |name, choice, lent, place| ChooseCase {
        name,
        file: vec![],
        lent,
        choice,
        answer: (18, place),
        after: None,
    };
    let fit = || Lent::of(&[], &[]).waiting(&[]);
    let any = |choice| lent("zero bytes", choice, fit(), 1);
    let unfit = |name, other| lent(name, [1, 0], other, 0);
    let counts = |threads, made| Lent {
        counts: [threads, made],
        ..fit()
    };
    let thread = Lent::of(&[record(1, 1, 0, &[])], &[]).waiting(&[]);
    let made = Lent::of(&[], &[[1, 1]]).waiting(&[]);
    vec![
        any([0, 0]),
        any([1, 0]),
        any([1, 2]),
        any([65_535, 65_535]),
        unfit("zero bytes and a thread", thread),
        unfit("zero bytes and a thread of no node", counts(1, 0)),
        unfit("zero bytes and 65 threads", counts(65, 0)),
        unfit("zero bytes and a made channel", made),
        unfit("zero bytes and 65 made channels", counts(0, 65)),
        unfit("zero bytes and a total", fit().waiting(&[(1, 1)])),
        unfit("zero bytes and the last total", fit().waiting(&[(32, 1)])),
        unfit(
            "zero bytes and 63 records",
            Lent {
                records: RECORDS - 1,
                ..fit()
            },
        ),
        unfit(
            "zero bytes and 161 words",
            Lent {
                words: BESIDE - 1,
                ..fit()
            },
        ),
    ]
}
