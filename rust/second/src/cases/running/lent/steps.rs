//! Choices that are done.

use super::super::{compare, desk, fork, new, off, on, receive, send, REPEAT};
use super::{done, record, ChooseCase, Lent};
use crate::cases::END;

/// Each kind of step.
pub fn cases() -> Vec<ChooseCase> {
    let idle = desk(&[(1, 0, &[END]), (2, 1, &[compare(2, 2), END])]);
    let (one, two) = (record(1, 1, 3, &[]), record(2, 2, 7, &[]));
    let three = record(2, 3, 4, &[]);
    let makes = desk(&[(2, 1, &[new(17), new(2), END])]);
    let forks = desk(&[(1, 5, &[new(2), fork(4), END, new(3), END])]);
    let forking = record(1, 2, 4, &[385]);
    let repeats = desk(&[(1, 0, &[new(1), REPEAT, END])]);
    let repeating = record(1, 2, 5, &[260]);
    let roles = desk(&[(1, 0, &[on(3), off(3), END])]);
    let ends = |name, at: u16, lent: &[_], after: &[_]| {
        let after = Lent::of(after, &[[3, 9]]);
        done(name, &idle, [at, 0], Lent::of(lent, &[[3, 9]]), after)
    };
    let lone = |name, file, thread, after| {
        let after = Lent::of(&[two, after], &[]);
        done(name, file, [2, 0], Lent::of(&[two, thread], &[]), after)
    };
    let of_kind_17: Vec<[u16; 2]> = vec![[2, 17]; 63];
    let one_more = [&of_kind_17[..], &[[2, 2]]].concat();
    vec![
        ends(
            "an end leaves the old last record",
            1,
            &[one, two, three],
            &[two, three],
        ),
        ends(
            "an end in the midst of three",
            2,
            &[two, one, three],
            &[two, three],
        ),
        ends("the last thread ends", 2, &[two, one], &[two]),
        ends("the only thread ends", 1, &[one], &[]),
        ends("one of 64 ends", 64, &[one; 64], &[one; 63]),
        done(
            "a new writes its two words and the number",
            &makes,
            [2, 0],
            Lent::of(&[record(2, 1, 0, &[]), record(2, 1, 2, &[])], &[[1, 3]]),
            Lent::of(
                &[record(2, 1, 0, &[]), record(2, 2, 2, &[386])],
                &[[1, 3], [2, 17]],
            ),
        ),
        done(
            "a new of the 64th channel",
            &makes,
            [1, 0],
            Lent::of(&[record(2, 2, 0, &[447])], &of_kind_17),
            Lent::of(&[record(2, 3, 0, &[447, 448])], &one_more),
        ),
        done(
            "a fork adds a record",
            &forks,
            [1, 0],
            Lent::of(&[forking, record(1, 5, 0, &[385, 259])], &[[3, 2]]),
            Lent::of(
                &[
                    record(1, 3, 4, &[385]),
                    record(1, 5, 0, &[385, 259]),
                    record(1, 4, 4, &[385]),
                ],
                &[[3, 2]],
            ),
        ),
        done(
            "a fork adds the 64th record",
            &forks,
            [63, 0],
            Lent::of(&[forking; 63], &[[3, 2]]),
            Lent::of(
                &[
                    &[forking; 62][..],
                    &[record(1, 3, 4, &[385]), record(1, 4, 4, &[385])],
                ]
                .concat(),
                &[[3, 2]],
            ),
        ),
        done(
            "a repeat adds a record, and stays",
            &repeats,
            [1, 0],
            Lent::of(&[repeating, record(1, 3, 0, &[257])], &[]),
            Lent::of(
                &[repeating, record(1, 3, 0, &[257]), record(1, 3, 5, &[260])],
                &[],
            ),
        ),
        lone(
            "a compare goes on",
            &desk(&[(1, 0, &[END]), (2, 0, &[compare(2, 2), new(1), END])]),
            record(2, 2, 5, &[]),
            record(2, 3, 5, &[]),
        ),
        done(
            "on of a role that is not there",
            &roles,
            [1, 0],
            Lent::of(&[record(1, 1, 3, &[]); 2], &[]),
            Lent::of(&[record(1, 2, 7, &[]), record(1, 1, 3, &[])], &[]),
        ),
        done(
            "on of a role that is there",
            &roles,
            [2, 0],
            Lent::of(&[record(1, 1, 4, &[]); 2], &[]),
            Lent::of(&[record(1, 1, 4, &[]), record(1, 2, 4, &[])], &[]),
        ),
        done(
            "off",
            &roles,
            [1, 0],
            Lent::of(&[record(1, 2, 7, &[])], &[]),
            Lent::of(&[record(1, 3, 3, &[])], &[]),
        ),
    ]
    .into_iter()
    .chain(sends())
    .collect()
}

/// A send moves both threads.
fn sends() -> Vec<ChooseCase> {
    let plain = desk(&[
        (2, 0, &[receive(257), new(3), receive(257), END]),
        (3, 0, &[END]),
        (1, 0, &[send(257, 3), END]),
    ]);
    let (sender, idle) = (record(1, 6, 1, &[]), record(3, 5, 0, &[]));
    let sent = record(1, 7, 1, &[]);
    // A session sends what it holds, on a channel that it holds.
    let held = desk(&[(
        2,
        0,
        &[
            new(2),
            new(1),
            fork(6),
            send(512, 513),
            END,
            receive(512),
            compare(514, 513),
            END,
        ],
    )]);
    let holding = |node, mask, bound: &[u16]| record(2, node, mask, bound);
    vec![
        done(
            "a send to a later thread",
            &plain,
            [1, 3],
            Lent::of(&[sender, idle, record(2, 1, 2, &[])], &[]),
            Lent::of(&[sent, idle, record(2, 2, 2, &[3])], &[]),
        ),
        done(
            "a send to an earlier thread, which binds its third variable",
            &plain,
            [3, 1],
            Lent::of(&[record(2, 3, 6, &[1, 385]), idle, sender], &[[3, 3]]),
            Lent::of(&[record(2, 4, 6, &[1, 385, 3]), idle, sent], &[[3, 3]]),
        ),
        done(
            "a named and a made channel in variables bound by new",
            &held,
            [1, 2],
            Lent::of(
                &[
                    holding(4, 1, &[258, 386]),
                    holding(6, 2, &[258, 257]),
                    holding(4, 1, &[258, 260]),
                ],
                &[[1, 2], [3, 1]],
            ),
            Lent::of(
                &[
                    holding(5, 1, &[258, 386]),
                    holding(7, 2, &[258, 257, 386]),
                    holding(4, 1, &[258, 260]),
                ],
                &[[1, 2], [3, 1]],
            ),
        ),
    ]
}
