//! Runs and rounds with seats.

use super::rounds::RoundCase;
use super::{compare, desk, flat, fork, off, on, receive, send, state, thread, REPEAT};
use crate::cases::END;
use crate::draft::{set_word, Draft};
use crate::{Round, Seats, Written, RUN_ROOM};

/// A file, a list of choices, a table of seats, the length of the output, and what a
/// run with them answers and writes, and what is read of the seats.
pub struct SeatCase {
    pub name: &'static str,
    pub file: Vec<u8>,
    pub choices: Vec<u16>,
    pub seats: Vec<u16>,
    pub room: usize,
    pub answer: (u16, u16),
    /// The words that are written, if any are.
    pub words: Vec<u16>,
    pub waited: u16,
    pub last: u16,
    /// How many sessions have each role, from 1 on, and who waits for it.
    pub taken: Vec<u16>,
    pub lines: Vec<Vec<u16>>,
}

impl SeatCase {
    /// Fails unless `run` gives the answer that is due and leaves the output as it
    /// should be, whatever that held before.
    pub fn demand(&self, who: &str, run: impl Fn(&[u8], &[u16], &[u16], &mut [u8]) -> Written) {
        let name = self.name;
        let (number, place) = self.answer;
        let answer = Written {
            number,
            place,
            length: 2 * self.words.len() as u16,
        };
        for fill in [0, 0xa5] {
            let mut due = vec![fill; self.room];
            for (at, &word) in self.words.iter().enumerate() {
                set_word(&mut due, at, word);
            }
            let mut out = vec![fill; self.room];
            let told = run(&self.file, &self.choices, &self.seats, &mut out);
            assert_eq!(told, answer, "{who}: with seats: {name}");
            let word = out.iter().zip(&due).position(|(byte, due)| byte != due);
            let word = word.map(|byte| byte / 2);
            assert_eq!(word, None, "{who}: a word of the output of {name}");
        }
    }

    /// Fails unless `seats` gives what is due, but for the totals of kinds.
    pub fn demand_seats(&self, who: &str, seats: impl Fn(&[u8], &[u16], &[u16]) -> Seats) {
        if self.room < RUN_ROOM {
            return;
        }
        let (number, place) = self.answer;
        let told = seats(&self.file, &self.choices, &self.seats);
        let mut due = Seats {
            waited: self.waited,
            last: self.last,
            totals: told.totals,
            ..Seats::refused(number, place)
        };
        due.taken[..self.taken.len()].copy_from_slice(&self.taken);
        for (role, line) in self.lines.iter().enumerate() {
            due.waiting[role] = line.len() as u16;
            due.line[32 * role..32 * role + line.len()].copy_from_slice(line);
        }
        assert_eq!(told, due, "{who}: the seats of {}", self.name);
    }
}

/// A round with a table of seats.
pub struct SeatedRoundCase {
    pub seats: Vec<u16>,
    pub round: RoundCase,
}

impl SeatedRoundCase {
    /// Fails unless `round` gives the answer that is due, and leaves the output so.
    pub fn demand(&self, who: &str, round: impl Fn(&[u8], &[u16], &[u16], &mut [u8]) -> Round) {
        self.round.demand(who, |file, choices, out| {
            round(file, choices, &self.seats, out)
        });
    }
}

const ONCE: &[[u16; 3]] = &[on(1), off(1), END];

/// One seat in role 1, no limit in the two others.
const ONE: [u16; 3] = [1, 0, 0];

/// How many choices were answered 26, and what the last done was answered.
type Waited = (u16, u16);

/// A run that is done, with these who wait for role 1.
fn after(
    name: &'static str,
    file: &Draft,
    choices: &[[u16; 2]],
    threads: &[Vec<u16>],
    (waited, last): Waited,
    taken: [u16; 3],
    line: &[u16],
) -> SeatCase {
    SeatCase {
        name,
        file: file.bytes(),
        choices: flat(choices),
        seats: ONE.to_vec(),
        room: RUN_ROOM,
        answer: (0, 0),
        words: state(choices.len() as u16, 0, &[], threads),
        waited,
        last,
        taken: taken.to_vec(),
        lines: vec![line.to_vec()],
    }
}

/// What is refused before the first choice.
fn refused(name: &'static str, file: &Draft, seats: &[u16], answer: (u16, u16)) -> SeatCase {
    SeatCase {
        seats: seats.to_vec(),
        answer,
        words: vec![],
        ..after(name, file, &[], &[], (0, 0), [0; 3], &[])
    }
}

/// All of them.
pub fn cases() -> Vec<SeatCase> {
    [waiting(), twins(), halted(), starts(), tables()]
        .into_iter()
        .flatten()
        .collect()
}

/// Seats that are had and waited for.
fn waiting() -> Vec<SeatCase> {
    let two = desk(&[(1, 0, ONCE), (2, 0, ONCE)]);
    let three = desk(&[(1, 0, ONCE), (2, 0, ONCE), (1, 0, ONCE)]);
    let [first, second, third] = [[1, 0], [2, 0], [3, 0]];
    vec![
        after(
            "a seat is free",
            &two,
            &[second],
            &[thread(1, 1, 0, 0, &[]), thread(2, 5, 1, 1, &[])],
            (0, 0),
            [1, 0, 0],
            &[],
        ),
        after(
            "none is free",
            &two,
            &[first, second],
            &[thread(1, 2, 1, 1, &[]), thread(2, 4, 0, 0, &[])],
            (1, 26),
            [1, 0, 0],
            &[2],
        ),
        after(
            "in line once",
            &two,
            &[first, second, second, second],
            &[thread(1, 2, 1, 1, &[]), thread(2, 4, 0, 0, &[])],
            (3, 26),
            [1, 0, 0],
            &[2],
        ),
        after(
            "a freed seat goes to nobody by itself",
            &two,
            &[first, second, first],
            &[thread(1, 3, 0, 0, &[]), thread(2, 4, 0, 0, &[])],
            (1, 0),
            [0, 0, 0],
            &[2],
        ),
        after(
            "the head gets it",
            &two,
            &[first, second, first, second],
            &[thread(1, 3, 0, 0, &[]), thread(2, 5, 1, 1, &[])],
            (1, 0),
            [1, 0, 0],
            &[],
        ),
        after(
            "one is free, and another is the head",
            &three,
            &[first, second, third, first, third],
            &[
                thread(1, 3, 0, 0, &[]),
                thread(2, 4, 0, 0, &[]),
                thread(1, 7, 0, 0, &[]),
            ],
            (3, 26),
            [0, 0, 0],
            &[2, 3],
        ),
        after(
            "those behind the head move up",
            &three,
            &[first, third, second, first, third],
            &[
                thread(1, 3, 0, 0, &[]),
                thread(2, 4, 0, 0, &[]),
                thread(1, 8, 1, 1, &[]),
            ],
            (2, 0),
            [1, 0, 0],
            &[2],
        ),
        SeatCase {
            seats: vec![2, 0, 0],
            ..after(
                "two seats",
                &three,
                &[third, first, second],
                &[
                    thread(1, 2, 1, 1, &[]),
                    thread(2, 4, 0, 0, &[]),
                    thread(1, 8, 1, 1, &[]),
                ],
                (1, 26),
                [2, 0, 0],
                &[2],
            )
        },
        SeatCase {
            seats: vec![0; 3],
            ..after(
                "no limit",
                &two,
                &[first, second],
                &[thread(1, 2, 1, 1, &[]), thread(2, 5, 1, 1, &[])],
                (0, 0),
                [2, 0, 0],
                &[],
            )
        },
        SeatCase {
            seats: vec![1, 1, 0],
            lines: vec![vec![2], vec![1]],
            ..after(
                "each has the other's role",
                &desk(&[(1, 0, &[on(1), on(2), END]), (2, 0, &[on(2), on(1), END])]),
                &[first, second, first, second],
                &[thread(1, 2, 1, 1, &[]), thread(2, 5, 2, 1, &[])],
                (2, 26),
                [1, 1, 0],
                &[],
            )
        },
    ]
}

/// Threads of one session.
fn twins() -> Vec<SeatCase> {
    let tree = &[fork(4), on(1), END, on(1), off(1), END];
    let file = desk(&[(1, 0, tree), (2, 0, ONCE)]);
    let held = [[1, 0], [1, 0], [2, 0], [3, 0]];
    let kept = [&held[..], &[[3, 0], [2, 0]]].concat();
    let ended = [&kept[..], &[[1, 0], [1, 0]]].concat();
    let repeats = desk(&[(1, 0, &[on(1), REPEAT, END]), (2, 0, ONCE)]);
    vec![
        after(
            "the seat is held by a twin, and the line not looked at",
            &file,
            &held,
            &[
                thread(1, 3, 1, 1, &[]),
                thread(2, 7, 0, 0, &[]),
                thread(1, 5, 1, 1, &[]),
            ],
            (1, 0),
            [1, 0, 0],
            &[2],
        ),
        after(
            "kept after one twin's off",
            &file,
            &kept,
            &[
                thread(1, 3, 1, 1, &[]),
                thread(2, 7, 0, 0, &[]),
                thread(1, 6, 0, 0, &[]),
            ],
            (2, 26),
            [1, 0, 0],
            &[2],
        ),
        after(
            "freed by an end, and had by the head, whose thread has another number",
            &file,
            &ended,
            &[thread(2, 8, 1, 1, &[]), thread(1, 6, 0, 0, &[])],
            (2, 0),
            [1, 0, 0],
            &[],
        ),
        after(
            "a new thread is its maker's",
            &repeats,
            &[[1, 0], [1, 0], [3, 0], [1, 0], [2, 0]],
            &[
                thread(1, 2, 1, 1, &[]),
                thread(2, 4, 0, 0, &[]),
                thread(1, 3, 1, 1, &[]),
            ],
            (1, 26),
            [1, 0, 0],
            &[2],
        ),
    ]
}

/// Lists that stop.
fn halted() -> Vec<SeatCase> {
    let stops = |case: SeatCase, done: u16, number: u16| {
        let mut words = case.words;
        (words[0], words[1]) = (done, number);
        SeatCase {
            answer: (number, done + 1),
            words,
            ..case
        }
    };
    let twice_off = desk(&[(1, 1, &[off(1), off(1), END]), (2, 0, ONCE)]);
    let no_role = desk(&[(1, 1, &[END]), (3, 0, &[on(1), END])]);
    let full = desk(&[(1, 1, &[END]), (2, 0, ONCE)]);
    let without = desk(&[
        (1, 0, &[on(1), send(257, 3), END]),
        (2, 1, &[receive(257), END]),
    ]);
    let unequal = desk(&[(1, 1, &[compare(1, 2), END]), (2, 0, ONCE)]);
    vec![
        stops(
            after(
                "12, and a line stays",
                &twice_off,
                &[[2, 0], [1, 0], [1, 0]],
                &[thread(1, 2, 0, 0, &[]), thread(2, 4, 0, 0, &[])],
                (1, 0),
                [0, 0, 0],
                &[2],
            ),
            2,
            12,
        ),
        stops(
            after(
                "11 before 26",
                &no_role,
                &[[2, 0]],
                &[thread(1, 1, 1, 1, &[]), thread(3, 2, 0, 0, &[])],
                (0, 0),
                [1, 0, 0],
                &[],
            ),
            0,
            11,
        ),
        stops(
            after(
                "18 before 26: an on with a partner",
                &full,
                &[[2, 0], [2, 1]],
                &[thread(1, 1, 1, 1, &[]), thread(2, 2, 0, 0, &[])],
                (1, 26),
                [1, 0, 0],
                &[2],
            ),
            1,
            18,
        ),
        stops(
            after(
                "18: no such thread",
                &full,
                &[[3, 0]],
                &[thread(1, 1, 1, 1, &[]), thread(2, 2, 0, 0, &[])],
                (0, 0),
                [1, 0, 0],
                &[],
            ),
            0,
            18,
        ),
        stops(
            after(
                "18: a thread that waits is still at its on",
                &without,
                &[[1, 0], [1, 2]],
                &[thread(1, 1, 0, 0, &[]), thread(2, 4, 1, 1, &[])],
                (1, 26),
                [1, 0, 0],
                &[1],
            ),
            1,
            18,
        ),
        stops(
            after(
                "19, and a seat is held for ever",
                &unequal,
                &[[2, 0], [1, 0]],
                &[thread(1, 1, 1, 1, &[]), thread(2, 3, 0, 0, &[])],
                (1, 26),
                [1, 0, 0],
                &[2],
            ),
            1,
            19,
        ),
    ]
}

/// 26 before the first choice.
fn starts() -> Vec<SeatCase> {
    let ends: &[[u16; 3]] = &[END];
    let both = desk(&[(1, 1, ends), (2, 1, ends)]);
    let late = desk(&[
        (1, 2, ends),
        (1, 1, ends),
        (2, 2, ends),
        (2, 3, ends),
        (1, 7, ends),
    ]);
    let fits = desk(&[(1, 3, ends), (2, 2, ends)]);
    vec![
        refused("two start in one seat", &both, &ONE, (26, 2)),
        refused(
            "the fourth session is one too many",
            &late,
            &[1, 32, 0],
            (26, 4),
        ),
        refused("the third is, in another role", &late, &[1, 1, 0], (26, 3)),
        refused("the fifth is", &late, &[2, 4, 0], (26, 5)),
        SeatCase {
            seats: vec![1, 2, 1],
            ..after(
                "as many as there are seats",
                &fits,
                &[],
                &[thread(1, 1, 3, 2, &[]), thread(2, 2, 2, 1, &[])],
                (0, 0),
                [1, 2, 0],
                &[],
            )
        },
    ]
}

/// Tables and outputs.
fn tables() -> Vec<SeatCase> {
    let ends: &[[u16; 3]] = &[END];
    let file = desk(&[(1, 1, ends), (2, 1, ends)]);
    let mut wrong = file.clone();
    wrong.nodes[0] = [9, 0, 0];
    let mut none = desk(&[]);
    (none.roles, none.users) = (vec![], vec![[0]]);
    none.channels.clear();
    let short = SeatCase {
        room: RUN_ROOM - 1,
        ..refused("an output that is too short", &file, &[0; 3], (17, 0))
    };
    let odd = SeatCase {
        choices: vec![1],
        ..refused("an odd list before the table", &file, &[33], (17, 0))
    };
    vec![
        refused("a word short", &file, &[0, 0], (17, 0)),
        refused("no words", &file, &[], (17, 0)),
        refused("a word long", &file, &[0; 4], (17, 0)),
        refused("33 seats", &file, &[0, 33, 0], (17, 0)),
        refused("17 before 26", &file, &[1, 65_535, 0], (17, 0)),
        refused("8 before 17 for the table", &wrong, &[33], (8, 1)),
        refused("no roles, and a word", &none, &[0], (17, 0)),
        refused("no bytes, and a word", &Draft::default(), &[0], (17, 0)),
        short,
        odd,
        SeatCase {
            seats: vec![],
            ..after("no roles", &none, &[], &[], (0, 0), [0; 3], &[])
        },
        SeatCase {
            seats: vec![32; 3],
            room: RUN_ROOM + 77,
            ..after(
                "32 seats",
                &file,
                &[],
                &[thread(1, 1, 1, 1, &[]), thread(2, 2, 1, 1, &[])],
                (0, 0),
                [2, 0, 0],
                &[],
            )
        },
    ]
}

/// Rounds with seats.
pub fn round_cases() -> Vec<SeatedRoundCase> {
    let two = desk(&[(1, 0, ONCE), (2, 0, ONCE)]);
    let of = |name, choices: &[[u16; 2]], round: &[[u16; 2]], threads: &[Vec<u16>]| {
        let done = (choices.len() + round.len()) as u16;
        SeatedRoundCase {
            seats: ONE.to_vec(),
            round: RoundCase {
                name,
                file: two.bytes(),
                choices: flat(choices),
                room: RUN_ROOM,
                answer: (0, 0),
                words: state(done, 0, &[], threads),
                round: flat(round),
            },
        }
    };
    let refused = |name, choices: &[u16], seats: &[u16]| SeatedRoundCase {
        seats: seats.to_vec(),
        round: RoundCase {
            choices: choices.to_vec(),
            answer: (17, 0),
            words: vec![],
            ..of(name, &[], &[], &[]).round
        },
    };
    let both = [[1, 0], [2, 0]];
    let overfull = desk(&[(1, 1, ONCE), (2, 1, ONCE)]);
    vec![
        of(
            "a visit that gets no seat",
            &[],
            &both,
            &[thread(1, 2, 1, 1, &[]), thread(2, 4, 0, 0, &[])],
        ),
        of(
            "the seat is freed before the head's visit",
            &both,
            &both,
            &[thread(1, 3, 0, 0, &[]), thread(2, 5, 1, 1, &[])],
        ),
        of(
            "behind an end",
            &[[1, 0], [2, 0], [1, 0]],
            &[[1, 0], [1, 0]],
            &[thread(2, 5, 1, 1, &[])],
        ),
        refused("a table that is too short", &[], &[1]),
        refused("33 seats before a round", &[], &[33, 0, 0]),
        refused("an odd list before a round", &[1], &ONE),
        SeatedRoundCase {
            seats: ONE.to_vec(),
            round: RoundCase {
                file: overfull.bytes(),
                answer: (26, 2),
                words: vec![],
                ..of("26 before a round", &[], &[], &[]).round
            },
        },
        SeatedRoundCase {
            seats: ONE.to_vec(),
            round: RoundCase {
                answer: (18, 2),
                words: state(
                    1,
                    18,
                    &[],
                    &[thread(1, 2, 1, 1, &[]), thread(2, 4, 0, 0, &[])],
                ),
                ..of("a stopped list with seats", &[[1, 0], [3, 0]], &[], &[]).round
            },
        },
    ]
}
