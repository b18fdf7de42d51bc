//! Cases of refusals 9 to 13, on files that read clean.

use super::{case, checked, clinic, Case, BOOKING, CLEAN, END};
use crate::draft::{to_bytes, Draft};

/// The nodes of the booking once placed.
const PLACED: [[u16; 3]; 5] = [[7, 2, 0], [6, 257, 2], [6, 258, 2], [8, 2, 0], END];

fn booking(nodes: &[[u16; 3]]) -> Vec<u8> {
    let start = BOOKING[..32].to_vec();
    let mut words = [start, nodes.as_flattened().to_vec()].concat();
    words[6] = nodes.len() as u16;
    to_bytes(&words)
}

pub fn names() -> Vec<Case> {
    let one = |node: [u16; 3]| [node, END];
    let after_new = |kind: u16, node: [u16; 3]| [[3, kind, 0], node, END];
    let received = |node: [u16; 3]| [[7, 2, 0], [5, 258, 0], node, END];
    vec![
        checked("user above the count", &one([4, 3, 1]), (9, 1)),
        checked("channel above the count", &one([5, 260, 0]), (9, 1)),
        checked("operand 0", &one([4, 1, 0]), (9, 1)),
        checked("a made channel's number", &one([5, 385, 0]), (9, 1)),
        checked("a binder's own variable", &one([5, 512, 0]), (9, 1)),
        checked("new of kind 0", &one([3, 0, 0]), (9, 1)),
        checked("new of kind 3", &one([3, 3, 0]), (9, 1)),
        checked("on 0", &one([7, 0, 0]), (9, 1)),
        checked("off 3", &one([8, 3, 0]), (9, 1)),
        checked("9 before 10 at one node", &one([6, 1, 0]), (9, 1)),
        checked("10 before a later 9", &[[6, 1, 1], [7, 0, 0], END], (10, 1)),
        checked(
            "a 9 before an earlier 12",
            &[[8, 1, 0], [7, 0, 0], END],
            (9, 2),
        ),
        checked("send on a user", &one([6, 1, 1]), (10, 1)),
        checked(
            "a channel sent for a plain value",
            &one([6, 257, 257]),
            (10, 1),
        ),
        checked("receive on a user", &one([5, 1, 0]), (10, 1)),
        checked("receive on another's channel", &one([5, 259, 0]), (10, 1)),
        checked(
            "receive on a received channel",
            &received([5, 512, 0]),
            (10, 3),
        ),
        checked(
            "send on a received channel",
            &received([6, 512, 1]),
            (13, 3),
        ),
        checked(
            "send over a channel one made",
            &after_new(1, [6, 258, 512]),
            (13, 2),
        ),
        checked(
            "receive on a made channel",
            &after_new(1, [5, 512, 0]),
            (13, 2),
        ),
        checked("compare two plain values", &one([4, 1, 2]), CLEAN),
        checked("compare plain and channel", &one([4, 1, 257]), (10, 1)),
        checked("compare two kinds", &one([4, 257, 258]), (10, 1)),
        checked("compare one kind", &after_new(1, [4, 512, 259]), CLEAN),
    ]
}

pub fn roles() -> Vec<Case> {
    let bare = [[6, 257, 2], [6, 258, 2], END];
    let (on, off, send) = ([7, 1, 0], [8, 1, 0], [6, 257, 2]);
    let stranger = Draft {
        sessions: vec![[2, 0, 1]],
        ..clinic(&[on, END])
    };
    vec![
        case("the booking", booking(&bare), (13, 1)),
        case("the booking, placed", booking(&PLACED), CLEAN),
        checked("off from mask 0", &[off, END], (12, 1)),
        checked(
            "on 1, on 1, off 1, send",
            &[on, on, off, send, END],
            (13, 4),
        ),
        checked(
            "off in the first branch",
            &[on, [1, 5, 0], off, END, send, END],
            CLEAN,
        ),
        checked(
            "off in the second branch",
            &[on, [1, 5, 0], send, END, off, END],
            CLEAN,
        ),
        checked(
            "on in the first branch alone",
            &[[1, 4, 0], on, END, send, END],
            (13, 4),
        ),
        checked("the other role", &[[7, 2, 0], send, END], (13, 2)),
        case("on of a role not assigned", stranger.bytes(), (11, 1)),
    ]
}
