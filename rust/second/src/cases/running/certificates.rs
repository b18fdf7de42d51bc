//! Certificates for all lists of choices.

use super::{desk, new, on, receive, send, thread};
use crate::cases::END;
use crate::draft::Draft;
use crate::{Certificate, Closing};

/// A file, a table of seats, a certificate, and what is said of it.
#[derive(Clone)]
pub struct ClosingCase {
    pub name: &'static str,
    pub file: Vec<u8>,
    pub seats: Vec<u16>,
    pub certificate: Certificate,
    pub answer: Closing,
    /// Whether it is the one that a search finds.
    pub found: bool,
}

impl ClosingCase {
    /// Fails unless `closing` gives the answer that is due.
    pub fn demand(
        &self,
        who: &str,
        closing: impl Fn(&[u8], &[u16], &[u16], &[u32], &[u32]) -> Closing,
    ) {
        let Certificate {
            states,
            places,
            next,
        } = &self.certificate;
        let answer = closing(&self.file, &self.seats, states, places, next);
        assert_eq!(answer, self.answer, "{who}: {}", self.name);
    }

    /// The same but for the certificate, which is changed.
    fn with(
        &self,
        name: &'static str,
        answer: Closing,
        change: impl FnOnce(&mut Certificate),
    ) -> ClosingCase {
        let mut certificate = self.certificate.clone();
        change(&mut certificate);
        ClosingCase {
            name,
            certificate,
            answer,
            found: false,
            ..self.clone()
        }
    }

    /// The same with another file and other seats.
    fn of(
        &self,
        name: &'static str,
        file: Vec<u8>,
        seats: &[u16],
        (number, place): (u16, u16),
    ) -> ClosingCase {
        ClosingCase {
            file,
            seats: seats.to_vec(),
            ..self.with(name, Closing::refused(number, place), |_| ())
        }
    }
}

/// A certificate with these rows, one behind the other.
fn certificate(rows: &[Vec<u16>], next: &[u32]) -> Certificate {
    let mut places = vec![0];
    places.extend(rows.iter().scan(0, |place, row| {
        *place += row.len() as u32;
        Some(*place)
    }));
    places.pop();
    Certificate {
        states: rows.concat(),
        places,
        next: next.to_vec(),
    }
}

/// The state of these threads, with no made channel, their sessions, and the line of role
/// 1 of three.
pub(super) fn row(threads: &[Vec<u16>], sessions: &[u16], line: &[u16]) -> Vec<u16> {
    let mut words = vec![threads.len() as u16, 0];
    words.extend(threads.concat());
    words.extend(sessions);
    words.push(line.len() as u16);
    words.extend(line);
    words.extend([0, 0]);
    words
}

fn found(
    name: &'static str,
    file: Vec<u8>,
    seats: &[u16],
    rows: &[Vec<u16>],
    next: &[u32],
) -> ClosingCase {
    ClosingCase {
        name,
        file,
        seats: seats.to_vec(),
        certificate: certificate(rows, next),
        answer: Closing::CLEAN,
        found: true,
    }
}

/// All of them.
pub fn cases() -> Vec<ClosingCase> {
    [nothing(), one(), two(), meetings(), seats(), refused()]
        .into_iter()
        .flatten()
        .collect()
}

/// One state, in which there is nothing.
fn nothing() -> Vec<ClosingCase> {
    let all = found("nothing planned", vec![], &[], &[vec![0, 0]], &[]);
    let (fine, first) = (Closing::CLEAN, Closing::at(1));
    vec![
        all.of("an empty file", Draft::default().bytes(), &[], (0, 0)),
        all.with("words that nobody asks for", fine, |it| {
            it.next = vec![7, 0];
            it.states.push(9);
        }),
        all.with("a row further on", fine, |it| {
            it.states = vec![5, 0, 0];
            it.places = vec![1];
        }),
        all.with("no words", first, |it| it.states = vec![]),
        all.with("half a row", first, |it| it.states = vec![0]),
        all.with("a row that begins late", first, |it| it.places = vec![1]),
        all.with("at the last word", first, |it| it.places = vec![2]),
        all.with("past the words", first, |it| it.places = vec![3]),
        all.with("far past them", first, |it| it.places = vec![u32::MAX]),
        all.with("a thread", first, |it| it.states = vec![1, 0]),
        all.with("a made channel", first, |it| it.states = vec![0, 1]),
        all.with("the row again", Closing::at(2), |it| it.places = vec![0, 0]),
        all,
    ]
}

/// One thread that ends.
fn one() -> Vec<ClosingCase> {
    let start = row(&[thread(1, 1, 0, 0, &[])], &[1], &[]);
    let rows = [start, row(&[], &[], &[])];
    let file = desk(&[(1, 0, &[END])]).bytes();
    let all = found("one thread that ends", file, &[0; 3], &rows, &[1]);
    let (fine, first) = (Closing::CLEAN, Closing::at(1));
    vec![
        all.with("a row in another", fine, |it| it.places[1] = 6),
        all.with("no word", first, |it| it.next.clear()),
        all.with("the row itself", first, |it| it.next = vec![0]),
        all.with("a row that isn't there", first, |it| it.next = vec![2]),
        all.with("the highest number", first, |it| it.next = vec![u32::MAX]),
        all.with("one row alone", first, |it| {
            it.places.pop();
        }),
        all.with("a row with a role", first, |it| it.states[5] = 1),
        all.with("another session", first, |it| it.states[14] = 2),
        all.with("a line", first, |it| it.states[15] = 1),
        all.with("a line's count is missing", first, |it| {
            it.states.pop();
        }),
        all.with("not the start", first, |it| it.places = vec![18, 18]),
        all,
    ]
}

/// Two threads that end, one before the other or behind it.
pub(super) fn two_that_end() -> ClosingCase {
    let [one, other] = [1, 2].map(|node| thread(1, node, 0, 0, &[]));
    let rows = [
        row(&[one.clone(), other.clone()], &[1, 2], &[]),
        row(&[other], &[2], &[]),
        row(&[one], &[1], &[]),
        row(&[], &[], &[]),
    ];
    let file = desk(&[(1, 0, &[END]), (1, 0, &[END])]).bytes();
    let next = [1, 2, 3, 3];
    found("two threads that end", file, &[0; 3], &rows, &next)
}

fn two() -> Vec<ClosingCase> {
    let all = two_that_end();
    let (fine, at) = (Closing::CLEAN, Closing::at);
    let renumbered = |it: &mut Certificate| {
        it.places.swap(1, 2);
        it.next = vec![2, 1, 3, 3];
    };
    let last = all.certificate.places[3];
    vec![
        all.with("a state in two rows", fine, |it| {
            it.places.push(last);
            it.next = vec![1, 2, 3, 4];
        }),
        all.with("rows in another order", at(1), renumbered),
        all.with("rows in each other's place", at(1), |it| {
            it.places.swap(1, 2)
        }),
        all.with("a row that isn't known yet", at(1), |it| it.next[0] = 2),
        all.with("another row", at(1), |it| it.next[1] = 1),
        all.with("back to the start", at(2), |it| it.next[2] = 0),
        all.with("cut short by one", at(3), |it| {
            it.next.pop();
        }),
        all.with("a row that nothing comes to", at(5), |it| it.places.push(0)),
        all.with("two of them", at(5), |it| it.places.extend([0, 0])),
        all.with("the last row left out", at(2), |it| {
            it.places.pop();
        }),
        all.with("a word of the last row", at(2), |it| {
            it.states[last as usize] = 1
        }),
        all.with("that row begins past the words", at(2), |it| {
            it.places[3] = u32::MAX
        }),
        all,
    ]
}

/// A sender and a receiver, whichever comes first, and a made channel.
fn meetings() -> Vec<ClosingCase> {
    let sender: &[_] = &[send(257, 3), END];
    let receiver: &[_] = &[receive(257), END];
    let next = [1, 2, 3, 4, 4];
    let rows = |before: [Vec<u16>; 2], [one, other]: [Vec<u16>; 2]| {
        [
            row(&before, &[1, 2], &[]),
            row(&[one.clone(), other.clone()], &[1, 2], &[]),
            row(&[other], &[2], &[]),
            row(&[one], &[1], &[]),
            row(&[], &[], &[]),
        ]
    };
    let behind = found(
        "a receiver behind its sender",
        desk(&[(1, 1, sender), (2, 2, receiver)]).bytes(),
        &[0; 3],
        &rows(
            [thread(1, 1, 1, 1, &[]), thread(2, 3, 2, 1, &[])],
            [thread(1, 2, 1, 1, &[]), thread(2, 4, 2, 1, &[3])],
        ),
        &next,
    );
    let before = found(
        "a receiver before its sender",
        desk(&[(2, 2, receiver), (1, 1, sender)]).bytes(),
        &[0; 3],
        &rows(
            [thread(2, 1, 2, 1, &[]), thread(1, 3, 1, 1, &[])],
            [thread(2, 2, 2, 1, &[3]), thread(1, 4, 1, 1, &[])],
        ),
        &next,
    );
    let made = |threads: &[Vec<u16>], sessions: &[u16]| {
        let mut words = row(threads, sessions, &[]);
        words[1] = 1;
        words.splice(2..2, [1, 17]);
        words
    };
    let start = row(&[thread(1, 1, 0, 0, &[])], &[1], &[]);
    let rows = [
        start,
        made(&[thread(1, 2, 0, 0, &[385])], &[1]),
        made(&[], &[]),
    ];
    let file = desk(&[(1, 0, &[new(17), END])]).bytes();
    let makes = found("a made channel of kind 17", file, &[0; 3], &rows, &[1, 2]);
    let owner = makes.certificate.places[2] as usize + 2;
    let at = Closing::at;
    vec![
        behind.with("the value isn't received", at(1), |it| it.states[49] = 0),
        makes.with("of another's", at(2), |it| it.states[owner] = 2),
        makes.with("of another kind", at(2), |it| it.states[owner + 1] = 1),
        makes.with("forgotten", at(2), |it| {
            it.states.drain(owner..owner + 2);
            it.states[owner - 1] = 0;
        }),
        behind,
        before,
        makes,
    ]
}

/// Two sessions want one seat.
pub(super) fn one_seat() -> ClosingCase {
    let one = |node, mask| thread(1, node, mask, mask, &[]);
    let (first, second) = ([1, 2], [3, 4]);
    let both = |at: usize, to: usize, line: &[u16]| {
        let threads = [one(first[at], at as u16), one(second[to], to as u16)];
        row(&threads, &[1, 2], line)
    };
    let alone = |session: u16, at: usize, line: &[u16]| {
        let node = [first, second][usize::from(session) - 1][at];
        row(&[one(node, at as u16)], &[session], line)
    };
    let rows = [
        both(0, 0, &[]),
        both(1, 0, &[]),
        both(0, 1, &[]),
        alone(2, 0, &[]),
        both(1, 0, &[2]),
        both(0, 1, &[1]),
        alone(1, 0, &[]),
        alone(2, 1, &[]),
        alone(2, 0, &[2]),
        alone(1, 0, &[1]),
        alone(1, 1, &[]),
        row(&[], &[], &[]),
    ];
    let next = [1, 2, 3, 4, 5, 6, 7, 8, 4, 5, 9, 10, 11, 7, 10, 11];
    let tree = &[on(1), END];
    let file = desk(&[(1, 0, tree), (1, 0, tree)]).bytes();
    found("one seat for two", file, &[1, 0, 0], &rows, &next)
}

fn seats() -> Vec<ClosingCase> {
    let all = one_seat();
    let waits = all.certificate.places[4] as usize;
    let count = waits + 2 + 2 * 12 + 2;
    assert_eq!(all.certificate.states[count..count + 2], [1, 2]);
    let at = Closing::at;
    let free = ClosingCase {
        seats: vec![2, 0, 0],
        ..all.with("two seats", at(2), |_| ())
    };
    vec![
        all.with("the other in line", at(2), |it| it.states[count + 1] = 1),
        all.with("nobody in line", at(2), |it| it.states[count] = 0),
        all.with("a wait that changes nothing", at(5), |it| it.next[8] = 1),
        all.with("its line is forgotten", at(9), |it| it.next[13] = 8),
        free,
        all,
    ]
}

/// What is refused before the first row is looked at.
fn refused() -> Vec<ClosingCase> {
    let file = desk(&[(1, 1, &[END]), (1, 1, &[END])]).bytes();
    let rows = [vec![0, 0]];
    let any = found("", vec![], &[], &rows, &[]);
    let none = |name, file| {
        let case = any.of(name, file, &[9], (17, 0));
        case.with(name, Closing::refused(17, 0), |it| it.places.clear())
    };
    vec![
        none("no row", file.clone()),
        none("no row of a refused file", vec![0]),
        any.of("one byte", vec![0], &[], (1, 0)),
        any.of("one byte and a long table", vec![0], &[40; 17], (1, 0)),
        any.of("nothing planned, a seat", vec![], &[0], (17, 0)),
        any.of("too few seats", file.clone(), &[1, 0], (17, 0)),
        any.of("too many seats", file.clone(), &[1, 0, 0, 0], (17, 0)),
        any.of("33 seats", file.clone(), &[1, 0, 33], (17, 0)),
        any.of("two start in one seat", file, &[1, 0, 0], (26, 2)),
    ]
}
