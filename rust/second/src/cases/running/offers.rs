//! What is offered in a lent state.

use super::certificates::row;
use super::{desk, fork, new, off, on, receive, send, thread, REPEAT};
use crate::cases::END;
use crate::draft::Draft;
use crate::Offers;

/// A file, a table of seats, the words of a state, the length of the output, and what is
/// offered.
#[derive(Clone)]
pub struct OffersCase {
    pub name: &'static str,
    pub file: Vec<u8>,
    pub seats: Vec<u16>,
    pub state: Vec<u16>,
    pub room: usize,
    pub answer: Offers,
    /// The words that are written, if any are.
    pub words: Vec<u16>,
}

impl OffersCase {
    /// Fails unless `offers` gives the answer that is due and leaves the output as it
    /// should be, whatever that held before.
    pub fn demand(&self, who: &str, offers: impl Fn(&[u8], &[u16], &[u16], &mut [u16]) -> Offers) {
        for fill in [0, 0xa5a5] {
            let mut due = vec![fill; self.room];
            due[..self.words.len()].copy_from_slice(&self.words);
            let mut out = vec![fill; self.room];
            let answer = offers(&self.file, &self.seats, &self.state, &mut out);
            assert_eq!(answer, self.answer, "{who}: {}", self.name);
            assert_eq!(out, due, "{who}: output of {}", self.name);
        }
    }

    /// The same with other words of the state, which is refused.
    fn unfit(&self, name: &'static str, change: impl FnOnce(&mut Vec<u16>)) -> OffersCase {
        let mut case = OffersCase {
            name,
            answer: Offers::refused(18, 0),
            words: vec![],
            ..self.clone()
        };
        change(&mut case.state);
        case
    }
}

/// A choice that is done: thread and partner, what it is answered, and the next state.
type Offer = ([u16; 2], u16, Vec<u16>);

fn words_of(offers: &[Offer]) -> Vec<u16> {
    let of_one = |([thread, partner], answer, row): &Offer| {
        let head = [*thread, *partner, *answer, row.len() as u16];
        [&head[..], row].concat()
    };
    offers.iter().flat_map(of_one).collect()
}

/// All that is offered, in some words of output more than needed.
fn all(
    name: &'static str,
    file: &Draft,
    seats: &[u16],
    state: Vec<u16>,
    offers: &[Offer],
) -> OffersCase {
    let words = words_of(offers);
    OffersCase {
        name,
        file: file.bytes(),
        seats: seats.to_vec(),
        state,
        room: words.len() + 5,
        answer: Offers {
            number: 0,
            place: 0,
            count: offers.len() as u16,
            length: words.len() as u32,
        },
        words,
    }
}

/// All of them.
pub fn cases() -> Vec<OffersCase> {
    [
        steps(),
        meetings(),
        seats(),
        rooms(),
        unfit(),
        no_states(),
        refused(),
    ]
    .into_iter()
    .flatten()
    .collect()
}

/// A thread of user 1 with its roles.
fn one(node: u16, mask: u16) -> Vec<u16> {
    thread(1, node, mask, mask.count_ones() as u16, &[])
}

const FREE: [u16; 3] = [0; 3];

/// Steps that a thread takes alone.
fn steps() -> Vec<OffersCase> {
    let empty = || row(&[], &[], &[]);
    let lone = |tree: &[[u16; 3]]| desk(&[(1, 0, tree)]);
    let two = desk(&[(1, 0, &[END]), (1, 0, &[END])]);
    let mut made = row(&[thread(1, 2, 0, 0, &[385])], &[1], &[]);
    made[1] = 1;
    made.splice(2..2, [1, 17]);
    let mut made_again = row(&[thread(1, 3, 0, 0, &[385, 386])], &[1], &[]);
    made_again[1] = 2;
    made_again.splice(2..2, [1, 17, 1, 1]);
    vec![
        all("nothing planned", &Draft::default(), &[], vec![0, 0], &[]),
        all("all have ended", &lone(&[END]), &FREE, empty(), &[]),
        all(
            "a thread that ends",
            &lone(&[END]),
            &FREE,
            row(&[one(1, 0)], &[1], &[]),
            &[([1, 0], 0, empty())],
        ),
        all(
            "two that end",
            &two,
            &FREE,
            row(&[one(1, 0), one(2, 0)], &[1, 2], &[]),
            &[
                ([1, 0], 0, row(&[one(2, 0)], &[2], &[])),
                ([2, 0], 0, row(&[one(1, 0)], &[1], &[])),
            ],
        ),
        all(
            "a fork, of the second session",
            &desk(&[(1, 0, &[END]), (1, 0, &[fork(4), END, END])]),
            &FREE,
            row(&[one(2, 0)], &[2], &[]),
            &[([1, 0], 0, row(&[one(3, 0), one(4, 0)], &[2, 2], &[]))],
        ),
        all(
            "a repeat",
            &lone(&[REPEAT, END]),
            &FREE,
            row(&[one(1, 0)], &[1], &[]),
            &[([1, 0], 0, row(&[one(1, 0), one(2, 0)], &[1, 1], &[]))],
        ),
        all(
            "a made channel",
            &lone(&[new(17), new(1), END]),
            &FREE,
            row(&[one(1, 0)], &[1], &[]),
            &[([1, 0], 0, made.clone())],
        ),
        all(
            "another",
            &lone(&[new(17), new(1), END]),
            &FREE,
            made,
            &[([1, 0], 0, made_again)],
        ),
        all(
            "an off, and one that is refused",
            &desk(&[(1, 4, &[off(3), END]), (1, 0, &[off(3), END])]),
            &FREE,
            row(&[one(1, 4), one(3, 0)], &[1, 2], &[]),
            &[([1, 0], 0, row(&[one(2, 0), one(3, 0)], &[1, 2], &[]))],
        ),
    ]
}

/// A sender and two receivers, one before it and one behind it.
fn meetings() -> Vec<OffersCase> {
    let receiver: &[_] = &[receive(257), END];
    let file = desk(&[
        (2, 2, receiver),
        (1, 1, &[send(257, 3), END]),
        (2, 2, receiver),
    ]);
    let at = |node, value: &[u16]| thread(2, node, 2, 1, value);
    let state = row(&[at(1, &[]), one(3, 1), at(5, &[])], &[1, 2, 3], &[]);
    let of_first = row(&[at(2, &[3]), one(4, 1), at(5, &[])], &[1, 2, 3], &[]);
    let of_last = row(&[at(1, &[]), one(4, 1), at(6, &[3])], &[1, 2, 3], &[]);
    let both = [([2, 1], 0, of_first), ([2, 3], 0, of_last)];
    vec![all("one sends to two", &file, &FREE, state, &both)]
}

/// Two sessions, each with one role to put on, role 1.
fn two_ons() -> Draft {
    let tree: &[_] = &[on(1), END];
    desk(&[(1, 0, tree), (1, 0, tree)])
}

/// Session 1 has the seat, and session 2 may have to wait.
fn taken(line: &[u16]) -> Vec<u16> {
    row(&[one(2, 1), one(3, 0)], &[1, 2], line)
}

fn with_line() -> OffersCase {
    let ended = row(&[one(3, 0)], &[2], &[2]);
    let offers = [([1, 0], 0, ended), ([2, 0], 26, taken(&[2]))];
    let (file, table) = (two_ons(), [1, 0, 0]);
    all("who waits asks again", &file, &table, taken(&[2]), &offers)
}

fn seats() -> Vec<OffersCase> {
    let file = two_ons();
    let start = || row(&[one(1, 0), one(3, 0)], &[1, 2], &[]);
    let first = || row(&[one(2, 1), one(3, 0)], &[1, 2], &[]);
    let second = || row(&[one(1, 0), one(4, 1)], &[1, 2], &[]);
    let both = || row(&[one(2, 1), one(4, 1)], &[1, 2], &[]);
    let head = row(&[one(3, 0)], &[2], &[2]);
    let waits = row(&[one(1, 0), one(3, 0)], &[1, 2], &[2]);
    let behind = row(&[one(1, 0), one(3, 0)], &[1, 2], &[2, 1]);
    vec![
        all(
            "either gets the seat",
            &file,
            &[1, 0, 0],
            start(),
            &[([1, 0], 0, first()), ([2, 0], 0, second())],
        ),
        all(
            "the seat is taken",
            &file,
            &[1, 0, 0],
            taken(&[]),
            &[
                ([1, 0], 0, row(&[one(3, 0)], &[2], &[])),
                ([2, 0], 26, taken(&[2])),
            ],
        ),
        with_line(),
        all(
            "the head gets the seat",
            &file,
            &[1, 0, 0],
            head,
            &[([1, 0], 0, row(&[one(4, 1)], &[2], &[]))],
        ),
        all(
            "who isn't the head waits behind it",
            &file,
            &[1, 0, 0],
            waits,
            &[([1, 0], 26, behind), ([2, 0], 0, second())],
        ),
        all(
            "two seats",
            &file,
            &[2, 0, 0],
            taken(&[]),
            &[
                ([1, 0], 0, row(&[one(3, 0)], &[2], &[])),
                ([2, 0], 0, both()),
            ],
        ),
    ]
}

/// One output after the other, each a word longer, for two offers.
fn rooms() -> Vec<OffersCase> {
    let both = with_line();
    let first = 4 + 19;
    let whole = both.words.len();
    assert_eq!((both.words[3], whole), (19, first + 4 + 32));
    let cut = |name, room| {
        let (count, length) = match room {
            room if room >= whole => (2, whole),
            room if room >= first => (1, first),
            _ => (0, 0),
        };
        OffersCase {
            name,
            room,
            answer: Offers {
                number: if count == 2 { 0 } else { 17 },
                place: 0,
                count,
                length: length as u32,
            },
            words: both.words[..length].to_vec(),
            ..both.clone()
        }
    };
    let mut cases: Vec<_> = (0..=whole + 1)
        .map(|room| cut("a word more", room))
        .collect();
    cases.push(OffersCase {
        name: "no room needed",
        file: vec![],
        seats: vec![],
        state: vec![0, 0],
        room: 0,
        answer: Offers::refused(0, 0),
        words: vec![],
    });
    cases
}

/// Words that are no state in order.
fn unfit() -> Vec<OffersCase> {
    let fine = with_line();
    let (owners, line) = (2 + 2 * 12, 2 + 2 * 12 + 2);
    let mut cases: Vec<_> = (0..fine.state.len())
        .map(|end| fine.unfit("words are missing", |state| state.truncate(end)))
        .collect();
    cases.extend([
        fine.unfit("a word more", |state| state.push(0)),
        fine.unfit("65 threads", |state| state[0] = 65),
        fine.unfit("65 made channels", |state| state[1] = 65),
        fine.unfit("65 threads with all their words", |state| {
            *state = row(&vec![one(1, 0); 65], &[1; 65], &[]);
        }),
        fine.unfit("65 made channels with all their words", |state| {
            state[1] = 65;
            state.splice(2..2, [1; 130]);
        }),
        fine.unfit("a thread less", |state| state[0] = 1),
        fine.unfit("a role too many", |state| state[2 + 3] = 2),
        fine.unfit("none where there is one", |state| state[2 + 3] = 0),
        fine.unfit("one where there is none", |state| state[2 + 12 + 3] = 1),
        fine.unfit("session 0", |state| state[owners] = 0),
        fine.unfit("session 3 of 2", |state| state[owners + 1] = 3),
        fine.unfit("session 33", |state| state[owners + 1] = 33),
        fine.unfit("both in one seat", |state| {
            *state = row(&[one(2, 1), one(4, 1)], &[1, 2], &[]);
        }),
        fine.unfit("who has the role waits", |state| state[line + 1] = 1),
        fine.unfit("session 3 waits", |state| state[line + 1] = 3),
        fine.unfit("session 0 waits", |state| state[line + 1] = 0),
        fine.unfit("one waits twice", |state| *state = taken(&[2, 2])),
        fine.unfit("33 wait", |state| *state = taken(&[2; 33])),
        fine.unfit("a line without limit", |state| {
            state.truncate(line);
            state.extend([1, 2, 0, 1, 2]);
        }),
        OffersCase {
            room: 0,
            ..fine.unfit("no state, and no room", |state| state.push(0))
        },
        OffersCase {
            seats: FREE.to_vec(),
            ..fine.unfit("a line, and no limit at all", |_| ())
        },
        OffersCase {
            file: vec![],
            seats: vec![],
            ..fine.unfit("nothing planned, no words", Vec::clear)
        },
    ]);
    cases
}

/// States in order that no run comes to: what the file doesn't have can't be done.
fn no_states() -> Vec<OffersCase> {
    let ends = desk(&[(1, 0, &[END])]);
    let alone = |node| row(&[one(node, 0)], &[1], &[]);
    let of_three = |user, node, mask: u16, bound: &[u16]| {
        thread(user, node, mask, mask.count_ones() as u16, bound)
    };
    let meets = desk(&[(1, 0, &[send(257, 3), END]), (2, 0, &[receive(257), END])]);
    let full = [9, 8, 7, 6, 5, 4, 3, 2];
    let gap = [9, 0, 7];
    let passes = |name, before: &[u16], after: &[u16]| {
        let receiver = |node, bound| of_three(2, node, 2, bound);
        let state = row(&[one(1, 1), receiver(3, before)], &[1, 2], &[]);
        let next = row(&[one(2, 1), receiver(4, after)], &[1, 2], &[]);
        all(name, &meets, &FREE, state, &[([1, 2], 0, next)])
    };
    let variable = desk(&[(1, 0, &[new(17), send(512, 3), END])]);
    let sends = |name, made: &[u16], value| {
        let mut state = row(&[of_three(1, 2, 1, &[value])], &[1], &[]);
        state[1] = made.len() as u16 / 2;
        state.splice(2..2, made.iter().copied());
        all(name, &variable, &FREE, state, &[])
    };
    vec![
        all("node 0", &ends, &FREE, alone(0), &[]),
        all("node 2 of 1", &ends, &FREE, alone(2), &[]),
        all("node 65,535", &ends, &FREE, alone(65_535), &[]),
        all(
            "two of one session, with roles that the file hasn't",
            &ends,
            &FREE,
            row(&[one(1, 0xfff8), one(9, 0)], &[1, 1], &[]),
            &[([1, 0], 0, row(&[one(9, 0)], &[1], &[]))],
        ),
        all(
            "an on of nobody's",
            &two_ons(),
            &[1, 0, 0],
            row(
                &[of_three(0, 1, 0, &[]), of_three(4, 3, 0, &[])],
                &[1, 2],
                &[],
            ),
            &[],
        ),
        all(
            "a receiver at no node",
            &meets,
            &FREE,
            row(&[one(1, 1), of_three(2, 5, 2, &[])], &[1, 2], &[]),
            &[],
        ),
        passes("a receiver with a value", &[9], &[9, 3]),
        passes("all eight have one", &full, &full),
        passes("the first that is free", &gap, &[9, 3, 7]),
        sends("a send on nothing", &[], 0),
        sends("on a user", &[], 3),
        sends("on 256", &[], 256),
        sends("on channel 6 of 5", &[], 262),
        sends("on made channel 2 of 1", &[1, 17], 386),
        sends("on one of kind 0", &[1, 0], 385),
        sends("on one of kind 18 of 17", &[1, 18], 385),
        sends("on one of kind 65,535", &[0, 65_535], 385),
    ]
}

/// What is refused before the state is looked at.
fn refused() -> Vec<OffersCase> {
    let file = &desk(&[(1, 1, &[END]), (1, 1, &[END])]).bytes();
    let both = row(&[one(1, 1), one(2, 1)], &[1, 2], &[]);
    let mut cases = Vec::new();
    for (state, room) in [(both.clone(), 99), (both, 0), (vec![], 99)] {
        let of = |name, file: &[u8], seats: &[u16], (number, place)| OffersCase {
            name,
            file: file.to_vec(),
            seats: seats.to_vec(),
            state: state.clone(),
            room,
            answer: Offers::refused(number, place),
            words: vec![],
        };
        cases.extend([
            of("one byte", &[0], &FREE, (1, 0)),
            of("one byte and a long table", &[0], &[40; 17], (1, 0)),
            of("nothing planned, a seat", &[], &[0], (17, 0)),
            of("too few seats", file, &[1, 0], (17, 0)),
            of("too many seats", file, &[1, 0, 0, 0], (17, 0)),
            of("33 seats", file, &[1, 0, 33], (17, 0)),
            of("two start in one seat", file, &[1, 0, 0], (26, 2)),
        ]);
    }
    cases
}
