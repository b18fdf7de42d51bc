//! The booking, by two desks at once.

use super::{ends, halts, off, on, receive, send, thread, RunCase, REPEAT};
use crate::cases::{BOOKING, END};
use crate::draft::{to_bytes, Draft};
/// The booking for two desks: sessions of user 1 book with user 2, whose
/// session takes one booking after the other. Role 3, which may receive on
/// both kinds, is user 2's.
pub fn booking() -> Draft {
    let mut draft = Draft::of(&to_bytes(&BOOKING));
    let book = draft.nodes.clone();
    draft.users = vec![[3], [4]];
    draft.roles.push([0, 0, 3, 0]);
    draft.sessions = vec![[1, 0, 1], [1, 0, 4], [2, 0, 7]];
    draft.nodes = [&book[..], &book, &[REPEAT, receive(257), receive(258), END]].concat();
    draft
}

/// What placing makes of it.
pub fn placed_booking() -> Draft {
    let mut draft = booking();
    let book = [on(2), send(257, 2), send(258, 2), off(2), END];
    draft.sessions = vec![[1, 0, 1], [1, 0, 6], [2, 0, 11]];
    let take = [REPEAT, on(3), receive(257), receive(258), off(3), END];
    draft.nodes = [&book[..], &book, &take].concat();
    draft
}

/// The booking, by both desks at once.
pub fn cases() -> Vec<RunCase> {
    let file = placed_booking();
    // Both desks put their role on, and two takers are ready.
    let begun = [[1, 0], [2, 0], [3, 0], [3, 0], [4, 0], [5, 0]];
    let met = [[1, 4], [2, 5], [1, 4], [2, 5]];
    // Threads 1, 2, 4 and 5, and their ends.
    let over = [[1, 0], [2, 0], [4, 0], [5, 0], [1, 0], [1, 0], [2, 0]];
    let whole = [&begun[..], &met, &over, &[[2, 0]]].concat();
    let waiting = thread(2, 11, 0, 0, &[]);
    vec![
        ends(
            "the booking before its first choice",
            &file,
            &[],
            &[],
            &[
                thread(1, 1, 0, 0, &[]),
                thread(1, 6, 0, 0, &[]),
                waiting.clone(),
            ],
            (0, 0),
        ),
        ends(
            "the booking with all roles on",
            &file,
            &begun,
            &[],
            &[
                thread(1, 2, 2, 1, &[]),
                thread(1, 7, 2, 1, &[]),
                waiting.clone(),
                thread(2, 13, 4, 1, &[]),
                thread(2, 13, 4, 1, &[]),
            ],
            (1, 4),
        ),
        ends(
            "the booking of both desks",
            &file,
            &[&begun[..], &met].concat(),
            &[],
            &[
                thread(1, 4, 2, 1, &[]),
                thread(1, 9, 2, 1, &[]),
                waiting.clone(),
                thread(2, 15, 4, 1, &[2, 2]),
                thread(2, 15, 4, 1, &[2, 2]),
            ],
            (0, 0),
        ),
        ends(
            "the booking to its end",
            &file,
            &whole,
            &[],
            &[waiting],
            (0, 0),
        ),
        halts(
            "the booking that is not placed",
            &booking(),
            &[[3, 0], [1, 4]],
            (1, 13),
            &[],
            &[
                thread(1, 1, 0, 0, &[]),
                thread(1, 4, 0, 0, &[]),
                thread(2, 7, 0, 0, &[]),
                thread(2, 8, 0, 0, &[]),
            ],
        ),
    ]
}
