//! Rounds after a list of choices.

use super::juniors::seniors;
use super::{compare, desk, flat, fork, new, off, on, placed_booking, receive, send};
use super::{refused, state, thread, RunCase, REPEAT};
use crate::cases::{clinic, END};
use crate::draft::{set_word, Draft};
use crate::{Round, BEFORE_ROUND, RUN_ROOM};

/// A file, a list of choices, the length of the output, and what a round after
/// them answers and writes.
pub struct RoundCase {
    pub name: &'static str,
    pub file: Vec<u8>,
    pub choices: Vec<u16>,
    pub room: usize,
    pub answer: (u16, u16),
    /// The words that are written, if any are.
    pub words: Vec<u16>,
    /// The round's choices, without the zeros past the last.
    pub round: Vec<u16>,
}

impl RoundCase {
    /// Fails unless `round` gives the answer that is due and leaves the output
    /// as it should be, whatever that held before.
    pub fn demand(&self, who: &str, round: impl Fn(&[u8], &[u16], &mut [u8]) -> Round) {
        let name = self.name;
        let (number, place) = self.answer;
        let mut answer = Round::refused(number, place, 2 * self.words.len() as u16);
        answer.words[..self.round.len()].copy_from_slice(&self.round);
        for fill in [0, 0xa5] {
            let mut due = vec![fill; self.room];
            for (at, &word) in self.words.iter().enumerate() {
                set_word(&mut due, at, word);
            }
            let mut out = vec![fill; self.room];
            assert_eq!(
                round(&self.file, &self.choices, &mut out),
                answer,
                "{who}: a round: {name}"
            );
            let word = out.iter().zip(&due).position(|(byte, due)| byte != due);
            let word = word.map(|byte| byte / 2);
            assert_eq!(word, None, "{who}: a word of the output of {name}");
        }
    }
}

/// A round after a list that is done.
fn after(
    name: &'static str,
    file: &Draft,
    choices: &[[u16; 2]],
    round: &[[u16; 2]],
    made: &[[u16; 2]],
    threads: &[Vec<u16>],
) -> RoundCase {
    let done = choices.len() + round.len();
    RoundCase {
        name,
        file: file.bytes(),
        choices: flat(choices),
        room: RUN_ROOM,
        answer: (0, 0),
        words: state(done as u16, 0, made, threads),
        round: flat(round),
    }
}

/// A list that is refused, or that stops: there is no round.
fn without(case: RunCase) -> RoundCase {
    RoundCase {
        name: case.name,
        file: case.file,
        choices: case.choices,
        room: case.room,
        answer: case.answer,
        words: case.words,
        round: vec![],
    }
}

/// All of them.
pub fn cases() -> Vec<RoundCase> {
    // Runs that are refused or halted, with a list that a round can follow.
    let runs = super::cases().into_iter();
    let refused = runs.filter(|case| case.answer != (0, 0));
    let short = refused.filter(|case| case.choices.len() <= 2 * BEFORE_ROUND);
    let stopped = short.map(without).collect();
    let nothing = super::nothing::rounds();
    [
        lone(),
        meetings(),
        moved(),
        full(),
        lists(),
        stopped,
        nothing,
    ]
    .into_iter()
    .flatten()
    .collect()
}

/// Lone steps, done and refused.
fn lone() -> Vec<RoundCase> {
    let every_tag = desk(&[
        (1, 0, &[on(1), END]),
        (1, 1, &[off(1), END]),
        (1, 0, &[new(2), END]),
        (1, 0, &[compare(3, 3), END]),
        (1, 4, &[fork(11), END, END]),
        (2, 0, &[REPEAT, END]),
        (1, 0, &[END]),
    ]);
    let stuck = desk(&[
        (3, 0, &[on(1), END]),
        (1, 0, &[off(1), END]),
        (1, 0, &[compare(1, 2), END]),
        (1, 1, &[send(257, 3), END]),
        (2, 2, &[receive(260), END]),
    ]);
    let two_ends = desk(&[(1, 0, &[END]), (2, 0, &[END])]);
    vec![
        after("no sessions", &Draft::default(), &[], &[], &[], &[]),
        after(
            "no thread is left",
            &desk(&[(1, 0, &[END])]),
            &[[1, 0]],
            &[],
            &[],
            &[],
        ),
        after("two ends", &two_ends, &[], &[[1, 0], [1, 0]], &[], &[]),
        after(
            "a lone step of every tag; what is made waits",
            &every_tag,
            &[],
            &[[1, 0], [2, 0], [3, 0], [4, 0], [5, 0], [6, 0], [7, 0]],
            &[[1, 2]],
            &[
                thread(1, 2, 1, 1, &[]),
                thread(1, 4, 0, 0, &[]),
                thread(1, 6, 0, 0, &[385]),
                thread(1, 8, 0, 0, &[]),
                thread(1, 10, 4, 1, &[]),
                thread(2, 12, 0, 0, &[]),
                thread(1, 11, 4, 1, &[]),
                thread(2, 13, 0, 0, &[]),
            ],
        ),
        after(
            "11, 12 and 19, a send and a receive: nobody moves",
            &stuck,
            &[],
            &[],
            &[],
            &[
                thread(3, 1, 0, 0, &[]),
                thread(1, 3, 0, 0, &[]),
                thread(1, 5, 0, 0, &[]),
                thread(1, 7, 1, 1, &[]),
                thread(2, 9, 2, 1, &[]),
            ],
        ),
    ]
}

/// Who meets whom.
fn meetings() -> Vec<RoundCase> {
    let sends: &[[u16; 3]] = &[send(257, 3), END];
    let receives: &[[u16; 3]] = &[receive(257), END];
    let others: &[[u16; 3]] = &[receive(260), END];
    let passed_on = desk(&[
        (1, 2, &[new(1), END]),
        (2, 3, &[new(1), send(258, 512), receive(512), END]),
        (1, 1, &[new(2), END]),
        (2, 3, &[receive(258), send(512, 3), compare(512, 512), END]),
    ]);
    vec![
        after(
            "met, then steps",
            &desk(&[(1, 1, sends), (2, 2, &[receive(257), compare(512, 3), END])]),
            &[],
            &[[1, 2], [2, 0]],
            &[],
            &[thread(1, 2, 1, 1, &[]), thread(2, 5, 2, 1, &[3])],
        ),
        after(
            "met, then sends",
            &desk(&[
                (1, 1, sends),
                (2, 3, &[receive(257), send(260, 512), END]),
                (2, 2, &[receive(260), receive(260), END]),
            ]),
            &[],
            &[[1, 2], [2, 3]],
            &[],
            &[
                thread(1, 2, 1, 1, &[]),
                thread(2, 5, 3, 2, &[3]),
                thread(2, 7, 2, 1, &[3]),
            ],
        ),
        after(
            "met after an idle visit",
            &desk(&[(2, 2, receives), (1, 1, sends)]),
            &[],
            &[[2, 1]],
            &[],
            &[thread(2, 2, 2, 1, &[3]), thread(1, 4, 1, 1, &[])],
        ),
        after(
            "the first receiver from thread 1 on",
            &desk(&[(2, 2, receives), (1, 1, sends), (2, 2, receives)]),
            &[],
            &[[2, 1]],
            &[],
            &[
                thread(2, 2, 2, 1, &[3]),
                thread(1, 4, 1, 1, &[]),
                thread(2, 5, 2, 1, &[]),
            ],
        ),
        after(
            "13 of a receiver is passed over",
            &desk(&[(2, 0, receives), (2, 2, receives), (1, 1, sends)]),
            &[],
            &[[3, 2]],
            &[],
            &[
                thread(2, 1, 0, 0, &[]),
                thread(2, 4, 2, 1, &[3]),
                thread(1, 6, 1, 1, &[]),
            ],
        ),
        after(
            "19 is passed over",
            &desk(&[(2, 2, others), (2, 2, receives), (1, 1, sends)]),
            &[],
            &[[3, 2]],
            &[],
            &[
                thread(2, 1, 2, 1, &[]),
                thread(2, 4, 2, 1, &[3]),
                thread(1, 6, 1, 1, &[]),
            ],
        ),
        after(
            "a sender without a role",
            &desk(&[(1, 0, sends), (2, 2, receives)]),
            &[],
            &[],
            &[],
            &[thread(1, 1, 0, 0, &[]), thread(2, 3, 2, 1, &[])],
        ),
        after(
            "on a made channel, behind an end",
            &passed_on,
            &[[1, 0], [2, 0], [2, 4]],
            &[[1, 0], [2, 0], [3, 1]],
            &[[1, 1], [2, 1], [1, 2]],
            &[
                thread(2, 6, 3, 2, &[386, 3]),
                thread(1, 8, 1, 1, &[387]),
                thread(2, 11, 3, 2, &[386]),
            ],
        ),
        after(
            "one's own fork, in the next round",
            &desk(&[(2, 3, &[fork(4), send(261, 3), END, receive(261), END])]),
            &[[1, 0]],
            &[[1, 2], [2, 0]],
            &[],
            &[thread(2, 3, 3, 2, &[])],
        ),
        after(
            "by a chain of juniors, passed over without it",
            &seniors(true, &[(2, 1, receives), (1, 4, sends), (2, 4, receives)]),
            &[],
            &[[2, 3], [3, 0]],
            &[],
            &[thread(2, 1, 1, 1, &[]), thread(1, 4, 4, 1, &[])],
        ),
        after(
            "the booking of both desks",
            &placed_booking(),
            &[[1, 0], [2, 0], [3, 0], [3, 0], [4, 0], [5, 0]],
            &[[1, 4], [2, 5], [3, 0]],
            &[],
            &[
                thread(1, 3, 2, 1, &[]),
                thread(1, 8, 2, 1, &[]),
                thread(2, 11, 0, 0, &[]),
                thread(2, 14, 4, 1, &[2]),
                thread(2, 14, 4, 1, &[2]),
                thread(2, 12, 0, 0, &[]),
            ],
        ),
    ]
}

/// Who can't be met, having moved or been made in this round, and the numbers of
/// those behind an end.
fn moved() -> Vec<RoundCase> {
    let sends: &[[u16; 3]] = &[send(257, 3), END];
    vec![
        after(
            "onto a receive by a lone step",
            &desk(&[(2, 0, &[on(2), receive(257), END]), (1, 1, sends)]),
            &[],
            &[[1, 0]],
            &[],
            &[thread(2, 2, 2, 1, &[]), thread(1, 4, 1, 1, &[])],
        ),
        after(
            "onto a receive by a receive",
            &desk(&[
                (2, 2, &[receive(257), receive(257), END]),
                (1, 1, &[send(257, 1), END]),
                (1, 1, sends),
            ]),
            &[],
            &[[2, 1]],
            &[],
            &[
                thread(2, 2, 2, 1, &[1]),
                thread(1, 5, 1, 1, &[]),
                thread(1, 6, 1, 1, &[]),
            ],
        ),
        after(
            "onto a receive by a send",
            &desk(&[
                (2, 3, &[send(257, 3), receive(260), END]),
                (2, 2, &[receive(257), receive(260), END]),
                (1, 1, &[send(260, 1), END]),
            ]),
            &[],
            &[[1, 2]],
            &[],
            &[
                thread(2, 2, 3, 2, &[]),
                thread(2, 5, 2, 1, &[3]),
                thread(1, 7, 1, 1, &[]),
            ],
        ),
        after(
            "a made thread at a receive",
            &desk(&[(2, 2, &[fork(3), END, receive(257), END]), (1, 1, sends)]),
            &[],
            &[[1, 0]],
            &[],
            &[
                thread(2, 2, 2, 1, &[]),
                thread(1, 5, 1, 1, &[]),
                thread(2, 3, 2, 1, &[]),
            ],
        ),
        after(
            "an end before a send",
            &desk(&[
                (1, 0, &[END]),
                (1, 1, sends),
                (2, 2, &[receive(257), receive(257), END]),
            ]),
            &[],
            &[[1, 0], [1, 2]],
            &[],
            &[thread(1, 3, 1, 1, &[]), thread(2, 5, 2, 1, &[3])],
        ),
        after(
            "one that has moved, between two ends",
            &desk(&[
                (1, 0, &[END]),
                (2, 0, &[on(2), receive(257), END]),
                (1, 0, &[END]),
                (2, 2, &[receive(257), END]),
                (1, 1, sends),
            ]),
            &[],
            &[[1, 0], [1, 0], [2, 0], [3, 2]],
            &[],
            &[
                thread(2, 3, 2, 1, &[]),
                thread(2, 7, 2, 1, &[3]),
                thread(1, 9, 1, 1, &[]),
            ],
        ),
    ]
}

/// 64 threads, and 64 made channels.
fn full() -> Vec<RoundCase> {
    let repeat = desk(&[(1, 0, &[REPEAT, END])]);
    let room_first = desk(&[(1, 0, &[END]), (1, 0, &[REPEAT, END])]);
    let eight = [[new(1); 8].as_slice(), &[END]].concat();
    let ninth: &[[u16; 3]] = &[new(1), END];
    let channels = desk(&[&[(1, 0, &eight[..]); 8][..], &[(1, 0, ninth)]].concat());
    let making: Vec<_> = (1..=8).flat_map(|maker| [[maker, 0]; 8]).collect();
    vec![
        after(
            "20 at the 65th thread, though others end behind it",
            &repeat,
            &[[1, 0]; 63],
            &[[2, 0]; 63],
            &[],
            &[thread(1, 1, 0, 0, &[])],
        ),
        after(
            "64 choices: room by an end, and the made thread waits",
            &room_first,
            &[[2, 0]; 62],
            &[&[[1, 0]; 2][..], &[[2, 0]; 62]].concat(),
            &[],
            &[thread(1, 2, 0, 0, &[]), thread(1, 3, 0, 0, &[])],
        ),
        after(
            "20 at the 65th made channel",
            &channels,
            &making,
            &[[1, 0]; 8],
            &[[1, 1]; 64],
            &[thread(1, 73, 0, 0, &[])],
        ),
    ]
}

/// Lists as long as can be, and outputs.
fn lists() -> Vec<RoundCase> {
    let file = desk(&[(1, 0, &[REPEAT, END])]);
    let threads = [thread(1, 1, 0, 0, &[]), thread(1, 2, 0, 0, &[])];
    let choices = |count| [[1, 0], [2, 0]].into_iter().cycle().take(count);
    let longest: Vec<_> = choices(BEFORE_ROUND).collect();
    let refused = |name, file: &[u8], count: usize| {
        let list = flat(&choices(count).collect::<Vec<_>>());
        without(refused(name, file.to_vec(), list, (17, 0)))
    };
    let bytes = clinic(&[END]).bytes();
    let round = [[1, 0], [2, 0]];
    let odd = |words: usize| RoundCase {
        choices: [1, 0].into_iter().cycle().take(words).collect(),
        ..refused("an odd list", &bytes, 0)
    };
    let with_room = |room| RoundCase {
        room,
        ..after("a longer output", &file, &[[1, 0]], &round, &[], &threads)
    };
    vec![
        after("65,471 choices", &file, &longest, &round, &[], &threads),
        refused("65,472 choices", &bytes, 65_472),
        refused("65,472 choices before 1", &[], 65_472),
        refused("65,535 choices", &bytes, 65_535),
        refused("65,536 choices", &bytes, 65_536),
        odd(130_941),
        odd(130_943),
        with_room(RUN_ROOM + 1),
        with_room(RUN_ROOM + 200),
    ]
}
