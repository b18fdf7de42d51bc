//! Steps that are done.

use super::{compare, desk, ends, fork, new, off, on, receive, send, thread, RunCase, REPEAT};
use crate::cases::END;
use crate::draft::Draft;
use crate::RUN_ROOM;
/// Steps that are done, each kind of them.
pub fn cases() -> Vec<RunCase> {
    // Both sessions have a channel of kind 1 made; session 2's goes to session
    // 1 over channel 2, and user 1's is never used.
    let passed_on = desk(&[
        (1, 2, &[new(1), END]),
        (2, 3, &[new(1), send(258, 512), receive(512), END]),
        (1, 1, &[new(2), END]),
        (2, 3, &[receive(258), send(512, 3), compare(512, 512), END]),
    ]);
    let passing = [[1, 0], [2, 0], [2, 4], [4, 2], [4, 0]];
    let passed = |first: &[u16], second: Vec<u16>, last: Vec<u16>| {
        let first = thread(1, 2, 2, 1, first);
        [first, second, thread(1, 7, 1, 1, &[]), last]
    };
    let made = [[1, 1], [2, 1]];
    let forks = desk(&[
        (1, 5, &[new(2), fork(5), new(3), END, fork(7), END, END]),
        (3, 0, &[END]),
    ]);
    let forked = [thread(1, 3, 5, 2, &[385]), thread(3, 8, 0, 0, &[])];
    let ending = desk(&[
        (1, 0, &[END]),
        (2, 1, &[compare(2, 2), END]),
        (3, 0, &[END]),
        (1, 4, &[END]),
    ]);
    let repeat = desk(&[(
        2,
        1,
        &[new(1), REPEAT, on(3), off(3), compare(512, 512), END],
    )]);
    let child = |node, mask, roles| thread(2, node, mask, roles, &[385]);
    let eight = desk(&[(1, 0, &[[new(17); 8].as_slice(), &[END]].concat())]);
    let made_eight: Vec<u16> = (385..=392).collect();
    vec![
        ends(
            "no sessions, no choices",
            &Draft::default(),
            &[],
            &[],
            &[],
            (0, 0),
        ),
        ends(
            "a made channel passed on",
            &passed_on,
            &passing[..3],
            &made,
            &passed(
                &[385],
                thread(2, 5, 3, 2, &[386]),
                thread(2, 10, 3, 2, &[386]),
            ),
            (4, 2),
        ),
        ends(
            "received on it by its maker",
            &passed_on,
            &passing,
            &made,
            &passed(
                &[385],
                thread(2, 6, 3, 2, &[386, 3]),
                thread(2, 12, 3, 2, &[386]),
            ),
            (0, 0),
        ),
        ends(
            "a fork gives both threads all they have",
            &forks,
            &[[1, 0], [1, 0]],
            &[[1, 2]],
            &[forked.to_vec(), vec![thread(1, 5, 5, 2, &[385])]].concat(),
            (0, 0),
        ),
        ends(
            "a fork's second thread forks, the first has its own variable",
            &forks,
            &[[1, 0], [1, 0], [3, 0], [1, 0]],
            &[[1, 2], [1, 3]],
            &[
                thread(1, 4, 5, 2, &[385, 386]),
                thread(3, 8, 0, 0, &[]),
                thread(1, 6, 5, 2, &[385]),
                thread(1, 7, 5, 2, &[385]),
            ],
            (0, 0),
        ),
        ends(
            "an end moves later threads down",
            &ending,
            &[[1, 0], [1, 0], [2, 0]],
            &[],
            &[thread(2, 3, 1, 1, &[]), thread(1, 5, 4, 1, &[])],
            (0, 0),
        ),
        ends(
            "all threads end",
            &ending,
            &[[4, 0], [2, 0], [3, 0], [1, 0], [1, 0]],
            &[],
            &[],
            (0, 0),
        ),
        ends(
            "a repeat stays, its children go on by themselves",
            &repeat,
            &[
                [1, 0],
                [1, 0],
                [2, 0],
                [1, 0],
                [1, 0],
                [2, 0],
                [2, 0],
                [3, 0],
            ],
            &[[2, 1]],
            &[
                child(2, 1, 1),
                child(6, 1, 1),
                child(4, 5, 2),
                child(3, 1, 1),
            ],
            (0, 0),
        ),
        ends(
            "eight variables",
            &eight,
            &[[1, 0]; 8],
            &[[1, 17]; 8],
            &[thread(1, 9, 0, 0, &made_eight)],
            (0, 0),
        ),
        ends(
            "on of an active role changes nothing",
            &desk(&[(1, 0, &[on(1), on(1), on(3), off(1), END])]),
            &[[1, 0]; 4],
            &[],
            &[thread(1, 5, 4, 1, &[])],
            (0, 0),
        ),
        ends(
            "one's own fork is met, on kind 17",
            &desk(&[(2, 3, &[fork(4), send(261, 3), END, receive(261), END])]),
            &[[1, 0], [1, 2]],
            &[],
            &[thread(2, 3, 3, 2, &[]), thread(2, 5, 3, 2, &[3])],
            (0, 0),
        ),
        ends(
            "a received user is compared",
            &desk(&[
                (1, 1, &[send(257, 3), END]),
                (2, 2, &[receive(257), compare(512, 3), END]),
            ]),
            &[[1, 2], [2, 0]],
            &[],
            &[thread(1, 2, 1, 1, &[]), thread(2, 5, 2, 1, &[3])],
            (0, 0),
        ),
        with_room(
            RUN_ROOM + 200,
            ends(
                "a longer output",
                &ending,
                &[[2, 0]],
                &[],
                &[
                    thread(1, 1, 0, 0, &[]),
                    thread(2, 3, 1, 1, &[]),
                    thread(3, 4, 0, 0, &[]),
                    thread(1, 5, 4, 1, &[]),
                ],
                (0, 0),
            ),
        ),
    ]
}

fn with_room(room: usize, case: RunCase) -> RunCase {
    RunCase { room, ..case }
}
