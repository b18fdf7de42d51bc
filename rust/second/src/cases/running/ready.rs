//! Ready pairs.

use super::{compare, desk, ends, receive, send, thread, RunCase, Session};
use crate::cases::END;
/// Ready pairs, each at the start of a run.
pub fn cases() -> Vec<RunCase> {
    let sends = |mask, channel| (1, mask, [send(channel, 3), END]);
    let receives = |mask, channel| (2, mask, [receive(channel), END]);
    let idle = (3, 0, [compare(1, 1), END]);
    let pair = |name, sessions: &[(u16, u16, [[u16; 3]; 2])], pair| {
        let trees: Vec<Session> = sessions.iter().map(|s| (s.0, s.1, &s.2[..])).collect();
        let threads: Vec<_> = (0..)
            .zip(&trees)
            .map(|(at, &(user, mask, _))| {
                let roles = mask.count_ones() as u16;
                thread(user, 2 * at + 1, mask, roles, &[])
            })
            .collect();
        ends(name, &desk(&trees), &[], &[], &threads, pair)
    };
    vec![
        pair(
            "the lowest receiver",
            &[
                idle,
                receives(2, 260),
                sends(1, 257),
                receives(2, 257),
                receives(2, 257),
            ],
            (3, 4),
        ),
        pair(
            "the lowest sender, though a lower receiver waits for the next",
            &[
                receives(2, 260),
                sends(1, 257),
                sends(1, 260),
                receives(2, 257),
            ],
            (2, 4),
        ),
        pair(
            "a sender with no receiver is passed over",
            &[sends(1, 261), sends(1, 257), receives(2, 257)],
            (2, 3),
        ),
        pair(
            "a sender with no role is passed over",
            &[
                sends(0, 257),
                sends(6, 257),
                sends(1, 257),
                receives(2, 257),
            ],
            (3, 4),
        ),
        pair(
            "a receiver with no role is passed over",
            &[
                receives(0, 257),
                receives(5, 257),
                receives(7, 257),
                sends(3, 257),
            ],
            (4, 3),
        ),
        pair(
            "two kinds, two roles",
            &[sends(2, 259), sends(4, 259), receives(4, 259)],
            (2, 3),
        ),
        pair(
            "channels of one kind alone",
            &[sends(1, 257), receives(2, 260)],
            (0, 0),
        ),
        pair("sends alone", &[sends(1, 257), sends(1, 257)], (0, 0)),
        pair("receives alone", &[receives(2, 257), idle], (0, 0)),
    ]
}
