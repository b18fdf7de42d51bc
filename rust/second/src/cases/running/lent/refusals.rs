//! What is judged before what, and choices that no run comes to.

use super::super::{compare, desk, fork, new, off, on, receive, send};
use super::{record, refused, ChooseCase, Lent};
use crate::cases::END;
use crate::draft::Draft;

/// The file before the list, the list before the choice, and the choice.
pub fn cases() -> Vec<ChooseCase> {
    let file = desk(&[
        (1, 0, &[on(1), off(1), on(1), send(257, 3), off(1), END]),
        (2, 0, &[on(2), receive(257), off(2), END]),
        (3, 0, &[new(1), compare(512, 512), on(1), END]),
    ]);
    let sound = file.bytes();
    let mut odd = sound.clone();
    odd.push(0);
    // Wrong in all there is.
    let unfit = |threads: u16| Lent {
        counts: [threads, 65],
        ..Lent::of(&[record(9, 9, 9, &[9])], &[])
    };
    let few = |records| Lent {
        records,
        ..unfit(0)
    };
    let named = |nodes: &[[u16; 3]]| desk(&[(1, 0, nodes)]).bytes();
    let none = |name, choice| {
        let lent = Lent::of(&[], &[[1, 1]]);
        refused(name, sound.clone(), choice, lent, (18, 1))
    };
    let one = |name, thread, choice, number| {
        let lent = Lent::of(&[thread, record(2, 8, 2, &[])], &[]);
        refused(name, sound.clone(), choice, lent, (number, 1))
    };
    // The first thread can send to the third, and the second can put its role
    // on; only the first counts.
    let past_count = |name, choice| {
        let threads = [
            record(1, 4, 1, &[]),
            record(1, 1, 0, &[]),
            record(2, 8, 2, &[]),
        ];
        let lent = Lent {
            counts: [1, 0],
            ..Lent::of(&threads, &[])
        };
        refused(name, sound.clone(), choice, lent, (18, 1))
    };
    vec![
        refused("1 before 18", vec![1], [1, 0], unfit(65), (1, 0)),
        refused("1 before 18 for few records", odd, [1, 0], few(2), (1, 0)),
        refused("8 before 18", named(&[on(1)]), [0, 0], unfit(1), (8, 2)),
        refused(
            "9 before 18",
            named(&[on(1), on(4), END]),
            [0, 0],
            few(0),
            (9, 2),
        ),
        refused(
            "10 before 18",
            named(&[on(1), send(1, 1), END]),
            [1, 0],
            unfit(64),
            (10, 2),
        ),
        refused(
            "10 in the other branch of a fork",
            named(&[fork(3), END, compare(1, 257), END]),
            [1, 0],
            Lent::of(&[record(1, 2, 0, &[])], &[]),
            (10, 3),
        ),
        refused(
            "what is lent before thread 0",
            sound.clone(),
            [0, 0],
            unfit(1),
            (18, 0),
        ),
        refused(
            "a file without nodes has no threads",
            Draft::default().bytes(),
            [1, 0],
            Lent::of(&[record(0, 0, 0, &[])], &[]),
            (18, 0),
        ),
        refused(
            "a file without nodes",
            Draft::default().bytes(),
            [1, 0],
            Lent::of(&[], &[]),
            (18, 1),
        ),
        refused(
            "no threads, but a made channel of user 0",
            sound.clone(),
            [1, 0],
            Lent::of(&[], &[[1, 1], [0, 1]]),
            (18, 0),
        ),
        none("no threads, thread 1", [1, 0]),
        none("no threads, thread 0", [0, 0]),
        none("no threads, thread 65,535", [65_535, 65_535]),
        one("thread 3 of 2", record(1, 3, 0, &[]), [3, 0], 18),
        one(
            "off of a role that is not lent",
            record(1, 2, 6, &[]),
            [1, 0],
            12,
        ),
        one("a send without the role", record(1, 4, 6, &[]), [1, 2], 13),
        one("a send to itself", record(1, 4, 1, &[]), [1, 1], 18),
        one("a receive named first", record(1, 4, 1, &[]), [2, 1], 18),
        one("on with a partner", record(1, 1, 1, &[]), [1, 2], 18),
        one("18 before 11", record(3, 13, 0, &[257]), [1, 2], 18),
        one("11", record(3, 13, 0, &[257]), [1, 0], 11),
        past_count("a thread past the count", [2, 0]),
        past_count("a partner past the count", [1, 3]),
        refused(
            "a receive without the role",
            sound.clone(),
            [1, 2],
            Lent::of(&[record(1, 4, 1, &[]), record(2, 8, 5, &[])], &[]),
            (13, 1),
        ),
        refused(
            "a 65th channel",
            sound,
            [1, 0],
            Lent::of(&[record(3, 11, 0, &[])], &[[1, 1]; 64]),
            (20, 1),
        ),
    ]
}
