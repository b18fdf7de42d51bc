//! Starts: what is written over what, and what is refused.

use super::super::juniors::{against_21, meeting};
use super::super::{compare, desk, fork, new, nothing, on, send, REPEAT};
use super::{record, totals, Lent};
use crate::cases::END;
use crate::draft::Draft;
use crate::{Thread, Verdict, BESIDE, RECORDS};

/// A file, what is lent, and what is left.
pub struct StartCase {
    pub name: &'static str,
    pub file: Vec<u8>,
    pub lent: Lent,
    pub answer: (u16, u16),
    /// What counts after a start. All else is as it was.
    pub after: Option<Lent>,
}

impl StartCase {
    /// Fails unless `start` gives the answer that is due and leaves every record
    /// and word as it should be, whatever they held before.
    pub fn demand(&self, who: &str, start: impl Fn(&[u8], &mut [Thread], &mut [u16]) -> Verdict) {
        let call = |threads: &mut [Thread], beside: &mut [u16]| start(&self.file, threads, beside);
        let after = self.after.as_ref();
        self.lent.demand(who, self.name, self.answer, after, call);
    }

    /// The lists as they are lent.
    pub fn lists(&self) -> (Vec<Thread>, Vec<u16>) {
        self.lent.lists(0xa5a5)
    }
}

/// Three sessions: the second starts in two roles, the third at node 7.
fn three_sessions() -> Draft {
    desk(&[
        (1, 0, &[on(1), send(257, 3), END]),
        (2, 6, &[fork(6), END, END]),
        (3, 0, &[REPEAT, END]),
    ])
}

/// The threads of that file at its start.
fn three_threads() -> [Thread; 3] {
    [
        record(1, 1, 0, &[]),
        record(2, 4, 6, &[]),
        record(3, 7, 0, &[]),
    ]
}

pub fn started(name: &'static str, file: &Draft, lent: Lent, threads: &[Thread]) -> StartCase {
    StartCase {
        name,
        file: file.bytes(),
        lent,
        answer: (0, 0),
        after: Some(Lent::of(threads, &[]).counted_in(file)),
    }
}

fn refused(name: &'static str, file: Vec<u8>, lent: Lent, answer: (u16, u16)) -> StartCase {
    StartCase {
        name,
        file,
        lent,
        answer,
        after: None,
    }
}

/// Lists of this length that hold another state, or none.
pub fn sized(records: usize, words: usize) -> Lent {
    Lent {
        counts: [65, 65_535],
        records,
        words,
        ..Lent::of(&[record(9, 9, 9, &[9; 8]); 2], &[[9, 9]])
    }
}

/// All of them.
pub fn cases() -> Vec<StartCase> {
    [starts(), totals::starts(), refusals(), nothing::starts()]
        .into_iter()
        .flatten()
        .collect()
}

fn starts() -> Vec<StartCase> {
    let file = three_sessions();
    let any = || sized(RECORDS, BESIDE);
    let full = Lent::of(&[record(3, 8, 0, &[]); RECORDS], &[[2, 1]; 64]);
    let most = desk(&[(1, 7, &[END][..]); 32]);
    let each: Vec<Thread> = (1..=32).map(|root| record(1, root, 7, &[])).collect();
    vec![
        started("over no list of threads", &file, any(), &three_threads()),
        started("over a full list", &file, full, &three_threads()),
        started(
            "over its own start",
            &file,
            Lent::of(&three_threads(), &[]),
            &three_threads(),
        ),
        started(
            "over an empty list",
            &file,
            Lent::of(&[], &[]),
            &three_threads(),
        ),
        started("32 sessions", &most, any(), &each),
        started("no session", &desk(&[]), any(), &[]),
        started("an empty file", &Draft::default(), any(), &[]),
        started(
            "a file that the check refuses",
            &desk(&[(3, 0, &[on(1), END])]),
            any(),
            &[record(3, 1, 0, &[])],
        ),
        started(
            "a file of version 2",
            &meeting(true, 4, 2, 257),
            any(),
            &[record(1, 1, 4, &[]), record(2, 3, 2, &[])],
        ),
    ]
}

fn refusals() -> Vec<StartCase> {
    let sound = three_sessions().bytes();
    let any = || sized(RECORDS, BESIDE);
    let named = |nodes: &[[u16; 3]]| desk(&[(1, 0, nodes)]).bytes();
    let mut odd = sound.clone();
    odd.push(0);
    let other = |name, records, words| {
        let lent = sized(records, words);
        refused(name, sound.clone(), lent, (18, 0))
    };
    vec![
        refused("one byte", vec![1], any(), (1, 0)),
        refused("an odd length", odd, any(), (1, 0)),
        refused("a cut tree", named(&[on(1)]), any(), (8, 2)),
        refused("no such role", named(&[new(1), on(4), END]), any(), (9, 2)),
        refused(
            "unlike kinds",
            named(&[on(1), compare(1, 257), END]),
            any(),
            (10, 2),
        ),
        refused("a junior's number", against_21(), any(), (21, 30)),
        refused("21 before 18", against_21(), sized(0, 0), (21, 30)),
        refused("1 before 18", vec![1], sized(0, 0), (1, 0)),
        refused(
            "8 before 18",
            named(&[on(1)]),
            sized(RECORDS - 1, BESIDE),
            (8, 2),
        ),
        refused(
            "10 before 18",
            named(&[on(1), send(1, 1), END]),
            sized(RECORDS, BESIDE + 1),
            (10, 2),
        ),
        other("no records", 0, BESIDE),
        other("63 records", RECORDS - 1, BESIDE),
        other("65 records", RECORDS + 1, BESIDE),
        other("as many records as sessions", 3, BESIDE),
        other("no words beside", RECORDS, 0),
        other("2 words beside", RECORDS, 2),
        other("161 words beside", RECORDS, BESIDE - 1),
        other("163 words beside", RECORDS, BESIDE + 1),
        other("130 words beside", RECORDS, 130),
        other("the two lengths exchanged", BESIDE, RECORDS),
        other("nothing lent", 0, 0),
    ]
}
