//! How many threads wait on each kind: judged, changed and started.

use super::super::{compare, desk, fork, new, off, on, receive, send, REPEAT};
use super::starts::{sized, started, StartCase};
use super::{done, record, refused, ChooseCase, Lent};
use crate::cases::END;
use crate::draft::Draft;
use crate::{Thread, BESIDE, RECORDS};

/// At every node but the ends a thread can step, and it comes to a receive: by a
/// fork in both branches (of kinds 1 and 17), by a repeat, by a new on the channel
/// that is made, by a compare, an on, an off and a send.
fn file() -> Draft {
    let (one, four) = (receive(257), receive(260));
    desk(&[
        (2, 0, &[fork(4), one, END, receive(261), END]),
        (2, 0, &[REPEAT, receive(258), END]),
        (1, 0, &[new(3), receive(512), END]),
        (2, 0, &[compare(1, 1), four, END]),
        (2, 0, &[on(3), one, END]),
        (2, 4, &[off(3), receive(261), END]),
        (2, 1, &[send(257, 3), receive(258), END]),
        (2, 2, &[one, receive(259), END]),
    ])
}

/// All of choosing.
pub fn cases() -> Vec<ChooseCase> {
    [counted(), arrivals(), wrong()]
        .into_iter()
        .flatten()
        .collect()
}

/// The two threads that meet, at nodes 21 and 24.
fn meeting() -> [Thread; 2] {
    [record(2, 21, 1, &[]), record(2, 24, 2, &[])]
}

/// Totals that are right, and a choice that changes none of them.
fn counted() -> Vec<ChooseCase> {
    let ends = |name, waiting: &[Thread], made: &[[u16; 2]], totals: &[(u16, u16)]| {
        let end = record(2, 3, 0, &[1]);
        let lent = Lent::of(&[&[end], waiting].concat(), made).waiting(totals);
        let after = Lent::of(waiting, made).waiting(totals);
        done(name, &file(), [1, 0], lent, after)
    };
    let on_made = |kind: u16| record(1, 10, 0, &[kind]);
    vec![
        ends("totals: nobody waits", &[], &[], &[]),
        ends("totals: one waits", &[record(2, 2, 0, &[])], &[], &[(1, 1)]),
        ends(
            "totals: on two channels of one kind",
            &[record(2, 2, 0, &[]), record(2, 13, 0, &[])],
            &[],
            &[(1, 2)],
        ),
        ends(
            "totals: on a named channel and on made ones",
            &[record(2, 25, 0, &[3]), on_made(385), on_made(386)],
            &[[1, 3], [3, 3], [1, 17]],
            &[(3, 3)],
        ),
        ends(
            "totals: a role for it or none",
            &[record(2, 7, 0, &[]), record(2, 7, 7, &[])],
            &[],
            &[(2, 2)],
        ),
        ends(
            "totals: 63 wait on kind 17",
            &[record(2, 4, 0, &[]); 63],
            &[],
            &[(17, 63)],
        ),
    ]
}

/// A choice that is done, by the totals before it and after.
fn arrivals() -> Vec<ChooseCase> {
    let idle = record(2, 4, 0, &[]);
    let lone = |name, from: Thread, after: &[Thread], made: &[[u16; 2]], kind| {
        let lent = Lent::of(&[idle, from], &[]).waiting(&[(17, 1)]);
        let totals: &[(u16, u16)] = match kind {
            17 => &[(17, 2)],
            kind => &[(17, 1), (kind, 1)],
        };
        let after = Lent::of(&[&[idle], after].concat(), made).waiting(totals);
        done(name, &file(), [2, 0], lent, after)
    };
    let [sends, receives] = meeting();
    let (at_258, at_259) = (record(2, 22, 1, &[]), record(2, 25, 2, &[3]));
    vec![
        done(
            "totals: both branches of a fork",
            &file(),
            [1, 0],
            Lent::of(&[record(2, 1, 0, &[]), idle], &[]).waiting(&[(17, 1)]),
            Lent::of(&[record(2, 2, 0, &[]), idle, idle], &[]).waiting(&[(1, 1), (17, 2)]),
        ),
        lone(
            "totals: a repeat's child",
            record(2, 6, 0, &[]),
            &[record(2, 6, 0, &[]), record(2, 7, 0, &[])],
            &[],
            2,
        ),
        lone(
            "totals: new, on what it made",
            record(1, 9, 0, &[]),
            &[record(1, 10, 0, &[385])],
            &[[1, 3]],
            3,
        ),
        lone(
            "totals: compare",
            record(2, 12, 0, &[]),
            &[record(2, 13, 0, &[])],
            &[],
            1,
        ),
        lone(
            "totals: on",
            record(2, 15, 0, &[]),
            &[record(2, 16, 4, &[])],
            &[],
            1,
        ),
        lone(
            "totals: off",
            record(2, 18, 4, &[]),
            &[record(2, 19, 0, &[])],
            &[],
            17,
        ),
        done(
            "totals: a meeting after which both wait",
            &file(),
            [1, 2],
            Lent::of(&[sends, receives], &[]).waiting(&[(1, 1)]),
            Lent::of(&[at_258, at_259], &[]).waiting(&[(2, 1), (3, 1)]),
        ),
        done(
            "totals: a meeting while another waits on that kind",
            &file(),
            [3, 2],
            Lent::of(&[record(2, 2, 0, &[]), receives, sends], &[]).waiting(&[(1, 2)]),
            Lent::of(&[record(2, 2, 0, &[]), at_259, at_258], &[]).waiting(&[
                (1, 1),
                (2, 1),
                (3, 1),
            ]),
        ),
        refused(
            "totals: a choice that is refused",
            file().bytes(),
            [2, 0],
            Lent::of(&[sends, receives], &[]).waiting(&[(1, 1)]),
            (18, 1),
        ),
    ]
}

/// Totals that are wrong, in lists that have nothing else wrong.
fn wrong() -> Vec<ChooseCase> {
    let [sends, receives] = meeting();
    let unfit = |name, totals: &[(u16, u16)]| {
        let threads = [sends, receives, record(2, 2, 0, &[]), record(2, 7, 0, &[])];
        let lent = Lent::of(&threads, &[]).waiting(totals);
        refused(name, file().bytes(), [1, 2], lent, (18, 0))
    };
    let nobody = |name, totals: &[(u16, u16)]| {
        let lent = Lent::of(&[record(2, 3, 0, &[1])], &[]).waiting(totals);
        refused(name, file().bytes(), [1, 0], lent, (18, 0))
    };
    vec![
        unfit("totals: none where some wait", &[]),
        unfit("totals: one too many", &[(1, 3), (2, 1)]),
        unfit("totals: one too few", &[(1, 1), (2, 1)]),
        unfit("totals: the second one too few", &[(1, 2)]),
        unfit("totals: two exchanged", &[(1, 1), (2, 2)]),
        unfit("totals: one kind up", &[(2, 2), (3, 1)]),
        unfit(
            "totals: of a kind that nobody waits on",
            &[(1, 2), (2, 1), (3, 1)],
        ),
        unfit("totals: of the last kind", &[(1, 2), (2, 1), (17, 1)]),
        unfit(
            "totals: of the first kind out of count",
            &[(1, 2), (2, 1), (18, 1)],
        ),
        unfit("totals: of kind 32", &[(1, 2), (2, 1), (32, 1)]),
        unfit("totals: 258 for 2", &[(1, 258), (2, 1)]),
        nobody("totals: one, and nobody waits", &[(1, 1)]),
        nobody("totals: 65,535, and nobody waits", &[(2, 65_535)]),
        nobody("totals: 256, and nobody waits", &[(17, 256)]),
        nobody("totals: 1 of kind 32, and nobody waits", &[(32, 1)]),
        refused(
            "totals: one in a list without threads",
            file().bytes(),
            [1, 0],
            Lent::of(&[], &[]).waiting(&[(1, 1)]),
            (18, 0),
        ),
        refused(
            "totals: one in a file without kinds",
            Draft::default().bytes(),
            [1, 0],
            Lent::of(&[], &[]).waiting(&[(1, 1)]),
            (18, 0),
        ),
        refused(
            "totals: before the choice",
            file().bytes(),
            [0, 0],
            Lent::of(&[receives], &[]).waiting(&[(2, 1)]),
            (18, 0),
        ),
    ]
}

/// Starts of sessions that wait at once.
pub fn starts() -> Vec<StartCase> {
    let any = || sized(RECORDS, BESIDE).waiting(&[(1, 9), (2, 9), (17, 9), (32, 9)]);
    let due = |case: StartCase, totals: &[(u16, u16)]| {
        let after = case.after.map(|after| after.waiting(totals));
        StartCase { after, ..case }
    };
    let waits = desk(&[
        (2, 0, &[receive(257), END]),
        (2, 2, &[receive(261), END]),
        (2, 0, &[compare(1, 1), receive(258), END]),
        (2, 2, &[receive(260), END]),
    ]);
    let threads = [
        record(2, 1, 0, &[]),
        record(2, 3, 2, &[]),
        record(2, 5, 0, &[]),
        record(2, 8, 2, &[]),
    ];
    let all = desk(&[(2, 0, &[receive(257), END][..]); 32]);
    let each: Vec<Thread> = (0..32).map(|at| record(2, 2 * at + 1, 0, &[])).collect();
    vec![
        due(
            started("totals: a start that waits", &waits, any(), &threads),
            &[(1, 2), (17, 1)],
        ),
        due(
            started("totals: 32 that wait", &all, any(), &each),
            &[(1, 32)],
        ),
        due(
            started("totals: nobody is there", &desk(&[]), any(), &[]),
            &[],
        ),
    ]
}
