//! Who is waiting on what, after a list of choices.

use super::lent::spread;
use super::{compare, desk, flat, fork, new, off, on, placed_booking, receive, send, REPEAT};
use crate::cases::{clinic, END};
use crate::draft::{to_bytes, Draft};
use crate::{Totals, Verdict, MOST_CHOICES, TOTALS};

/// A file, a list of choices, and how many threads then wait on each kind.
pub struct TotalsCase {
    pub name: &'static str,
    pub file: Vec<u8>,
    pub choices: Vec<u16>,
    pub answer: (u16, u16),
    pub totals: [u16; TOTALS],
}

impl TotalsCase {
    /// Fails unless `totals` gives the answer that is due.
    pub fn demand(&self, who: &str, totals: impl Fn(&[u8], &[u16]) -> Totals) {
        let (number, place) = self.answer;
        let due = Totals::of(Verdict { number, place }, self.totals);
        let answer = totals(&self.file, &self.choices);
        assert_eq!(answer, due, "{who}: totals of {}", self.name);
    }
}

/// A list that is done, and the totals that aren't 0.
fn after(
    name: &'static str,
    file: &Draft,
    choices: &[[u16; 2]],
    totals: &[(u16, u16)],
) -> TotalsCase {
    stops(name, file, choices, (0, 0), totals)
}

/// A list that stops, and those of the state before.
fn stops(
    name: &'static str,
    file: &Draft,
    choices: &[[u16; 2]],
    answer: (u16, u16),
    totals: &[(u16, u16)],
) -> TotalsCase {
    TotalsCase {
        name,
        file: file.bytes(),
        choices: flat(choices),
        answer,
        totals: spread(totals),
    }
}

/// All of them.
pub fn cases() -> Vec<TotalsCase> {
    // What is refused before the first choice has no totals, whatever the output.
    let runs = super::cases().into_iter();
    let refused = runs.filter(|case| case.words.is_empty() && case.answer.0 != 17);
    let refused = refused.map(|case| TotalsCase {
        name: case.name,
        file: case.file,
        choices: case.choices,
        answer: case.answer,
        totals: [0; TOTALS],
    });
    let nothing = super::nothing::totals();
    [in_words(), states(), meetings(), halted(), lists(), nothing]
        .into_iter()
        .flatten()
        .chain(refused)
        .collect()
}

/// Word by word: user 1, without a role, has channels 1 (kind 1) and 2 (kind 2), and
/// three sessions that each receive once, on channels 2, 1 and 2.
fn in_words() -> Vec<TotalsCase> {
    let words = [
        1, 1, 0, 2, 2, 3, 6, 13, 14, 14, 16, 20, 29, // version, counts, offsets
        0,  // users
        0, 0, // kinds
        1, 1, 1, 2, // channels
        1, 0, 1, 1, 0, 3, 1, 0, 5, // sessions
        5, 258, 0, 0, 0, 0, 5, 257, 0, 0, 0, 0, 5, 258, 0, 0, 0, 0, // nodes
    ];
    let mut totals = [0; TOTALS];
    totals[..2].copy_from_slice(&[1, 2]);
    let of = |name, choices: &[u16], answer| TotalsCase {
        name,
        file: to_bytes(&words),
        choices: choices.to_vec(),
        answer,
        totals,
    };
    vec![
        of("three that wait, word by word", &[], (0, 0)),
        of("three that wait, and one is named", &[2, 0], (18, 1)),
    ]
}

/// Arrivals by every step, and starts.
fn states() -> Vec<TotalsCase> {
    let one = receive(257);
    let both = desk(&[(2, 0, &[fork(4), one, END, receive(261), END])]);
    let repeat = desk(&[(2, 0, &[REPEAT, receive(258), END])]);
    let made = desk(&[(1, 0, &[new(3), new(17), receive(513), END])]);
    let by_hand = desk(&[(2, 0, &[compare(1, 1), on(2), off(2), receive(260), END])]);
    let at_once = desk(&[
        (2, 0, &[one, END]),
        (2, 2, &[receive(261), END]),
        (2, 0, &[receive(260), END]),
        (3, 0, &[END]),
    ]);
    vec![
        after("no sessions", &Draft::default(), &[], &[]),
        after("who waits at the start", &at_once, &[], &[(1, 2), (17, 1)]),
        after(
            "an end behind them",
            &at_once,
            &[[4, 0]],
            &[(1, 2), (17, 1)],
        ),
        after("before the fork", &both, &[], &[]),
        after("both children wait", &both, &[[1, 0]], &[(1, 1), (17, 1)]),
        after("a repeat once", &repeat, &[[1, 0]], &[(2, 1)]),
        after("a repeat 63 times", &repeat, &[[1, 0]; 63], &[(2, 63)]),
        after("one is made", &made, &[[1, 0]], &[]),
        after(
            "on the second that is made",
            &made,
            &[[1, 0]; 2],
            &[(17, 1)],
        ),
        after("two lone steps", &by_hand, &[[1, 0]; 2], &[]),
        after("three lone steps", &by_hand, &[[1, 0]; 3], &[(1, 1)]),
        after(
            "compare",
            &desk(&[(2, 0, &[compare(1, 1), one, END])]),
            &[[1, 0]],
            &[(1, 1)],
        ),
        after(
            "on",
            &desk(&[(2, 0, &[on(1), one, END])]),
            &[[1, 0]],
            &[(1, 1)],
        ),
    ]
}

/// Both sides of a meeting.
fn meetings() -> Vec<TotalsCase> {
    let sends: &[[u16; 3]] = &[send(257, 3), END];
    let twice: &[[u16; 3]] = &[receive(257), receive(257), END];
    let other: &[[u16; 3]] = &[receive(257), receive(261), END];
    let back = desk(&[
        (2, 3, &[send(257, 3), receive(258), END]),
        (2, 2, &[receive(257), END]),
    ]);
    // Session 2 waits on the channel that it made and sent to session 4.
    let passed_on = desk(&[
        (1, 2, &[new(1), END]),
        (2, 3, &[new(1), send(258, 512), receive(512), END]),
        (1, 1, &[new(2), END]),
        (2, 3, &[receive(258), send(512, 3), compare(512, 512), END]),
    ]);
    let passing = [[1, 0], [2, 0], [2, 4], [4, 2]];
    let begun = [[1, 0], [2, 0], [3, 0], [3, 0], [4, 0], [5, 0]];
    let met = [[1, 4], [2, 5], [1, 4], [2, 5]];
    let booked = |count: usize| [&begun[..], &met[..count]].concat();
    let booking = placed_booking();
    vec![
        after(
            "a receive is left",
            &desk(&[(1, 1, sends), (2, 2, &[receive(257), END])]),
            &[[1, 2]],
            &[],
        ),
        after(
            "from one to the next of that kind",
            &desk(&[(1, 1, sends), (2, 2, twice)]),
            &[[1, 2]],
            &[(1, 1)],
        ),
        after(
            "from one to another kind",
            &desk(&[(1, 1, sends), (2, 2, other)]),
            &[[1, 2]],
            &[(17, 1)],
        ),
        after("the sender waits", &back, &[[1, 2]], &[(2, 1)]),
        after(
            "before a channel is sent",
            &passed_on,
            &passing[..2],
            &[(2, 1)],
        ),
        after("on a made channel", &passed_on, &passing[..3], &[(1, 1)]),
        after("received on it", &passed_on, &passing, &[]),
        after("the booking, both wait", &booking, &begun, &[(1, 2)]),
        after(
            "the booking, one is met",
            &booking,
            &booked(1),
            &[(1, 1), (2, 1)],
        ),
        after("the booking, both are met", &booking, &booked(2), &[(2, 2)]),
        after("the booking, one again", &booking, &booked(3), &[(2, 1)]),
        after("the booking, both again", &booking, &booked(4), &[]),
    ]
}

/// Lists that stop.
fn halted() -> Vec<TotalsCase> {
    let waits: &[[u16; 3]] = &[receive(257), END];
    let file = desk(&[
        (2, 0, waits),
        (1, 0, &[send(257, 3), END]),
        (2, 0, &[REPEAT, receive(258), END]),
        (3, 0, &[on(1), END]),
        (1, 0, &[off(1), END]),
        (1, 0, &[compare(1, 2), END]),
    ]);
    let halts = |name, choice, number| {
        let choices = [[3, 0], choice, [3, 0]];
        stops(name, &file, &choices, (number, 2), &[(1, 1), (2, 1)])
    };
    let full = [&[[3, 0]; 58][..], &[[3, 0], [1, 1]]].concat();
    vec![
        stops("at the first choice", &file, &[[1, 0]], (18, 1), &[(1, 1)]),
        halts("halted with 18", [1, 0], 18),
        halts("halted with 11", [4, 0], 11),
        halts("halted with 12", [5, 0], 12),
        halts("halted with 13, and both stay", [2, 1], 13),
        halts("halted with 19", [6, 0], 19),
        stops("halted with 20", &file, &full, (20, 59), &[(1, 1), (2, 58)]),
    ]
}

/// Lists as long as can be.
fn lists() -> Vec<TotalsCase> {
    let file = desk(&[(1, 0, &[REPEAT, END]), (2, 0, &[receive(257), END])]);
    let choices = |count| [[1, 0], [3, 0]].into_iter().cycle().take(count);
    let longest: Vec<_> = choices(MOST_CHOICES).collect();
    let more: Vec<_> = choices(MOST_CHOICES + 1).collect();
    let odd = |words: usize, file: Vec<u8>| TotalsCase {
        name: "an odd list",
        file,
        choices: [1, 0].into_iter().cycle().take(words).collect(),
        answer: (17, 0),
        totals: [0; TOTALS],
    };
    let bytes = || file.bytes();
    vec![
        after("65,535 choices", &file, &longest, &[(1, 1)]),
        stops("65,536 choices", &file, &more, (17, 0), &[]),
        odd(1, bytes()),
        odd(3, bytes()),
        odd(131_071, bytes()),
        odd(1, Vec::new()),
        TotalsCase {
            file: clinic(&[on(1)]).bytes(),
            answer: (8, 2),
            ..odd(0, bytes())
        },
    ]
}
