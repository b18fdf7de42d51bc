//! Parts of certificates.

use super::certificates::{one_seat, two_that_end, ClosingCase};
use super::desk;
use crate::cases::END;
use crate::{Certificate, Closing};
use std::ops::Range;

/// A file, a table of seats, a certificate, some of its rows, from 0 on, the numbers in
/// `next` that their choices should have, and what is said of this part.
#[derive(Clone)]
pub struct ClosingPartCase {
    pub name: &'static str,
    pub file: Vec<u8>,
    pub seats: Vec<u16>,
    pub certificate: Certificate,
    pub rows: Range<usize>,
    pub numbers: Range<usize>,
    pub answer: Closing,
}

impl ClosingPartCase {
    /// Fails unless `closing` gives the answer that is due.
    pub fn demand(
        &self,
        who: &str,
        closing: impl Fn(&[u8], &[u16], &[u16], &[u32], &[u32], Range<usize>, Range<usize>) -> Closing,
    ) {
        let Certificate {
            states,
            places,
            next,
        } = &self.certificate;
        let (rows, numbers) = (self.rows.clone(), self.numbers.clone());
        let answer = closing(&self.file, &self.seats, states, places, next, rows, numbers);
        assert_eq!(answer, self.answer, "{who}: {}", self.name);
    }

    /// The same but for the certificate, which is changed.
    fn with(
        self,
        name: &'static str,
        answer: Closing,
        change: impl FnOnce(&mut Certificate),
    ) -> ClosingPartCase {
        let mut part = ClosingPartCase {
            name,
            answer,
            ..self
        };
        change(&mut part.certificate);
        part
    }
}

/// Some rows and numbers of a certificate.
fn part(
    name: &'static str,
    of: &ClosingCase,
    rows: Range<usize>,
    numbers: Range<usize>,
    answer: Closing,
) -> ClosingPartCase {
    ClosingPartCase {
        name,
        file: of.file.clone(),
        seats: of.seats.clone(),
        certificate: of.certificate.clone(),
        rows,
        numbers,
        answer,
    }
}

const FINE: Closing = Closing::CLEAN;

const fn at(row: u32) -> Closing {
    Closing::at(row)
}

/// All of them.
pub fn cases() -> Vec<ClosingPartCase> {
    [whole(), cuts(), bounds(), order(), places(), refused()]
        .into_iter()
        .flatten()
        .collect()
}

/// Parts of a certificate that holds: two sessions want one seat. Rows 0 to 10 have 2, 2, 2,
/// 1, 2, 2, 1, 1, 1, 1 and 1 choices, row 11 has none.
fn whole() -> Vec<ClosingPartCase> {
    let all = &one_seat();
    vec![
        part("all rows", all, 0..12, 0..16, FINE),
        part("the first five", all, 0..5, 0..9, FINE),
        part("the others", all, 5..12, 9..16, FINE),
        part("the start", all, 0..1, 0..2, FINE),
        part("one row", all, 4..5, 7..9, FINE),
        part("a row without choices", all, 11..12, 16..16, FINE),
    ]
}

/// Numbers of the same certificate that aren't those of the rows.
fn cuts() -> Vec<ClosingPartCase> {
    let all = &one_seat();
    vec![
        part("a number less", all, 0..5, 0..8, at(5)),
        part("a number more", all, 0..5, 0..10, at(5)),
        part("a row less", all, 0..4, 0..9, at(4)),
        part("a row more", all, 0..6, 0..9, at(6)),
        part("no number", all, 4..5, 7..7, at(5)),
        part("of the last row one", all, 11..12, 15..16, at(12)),
        part("a number late", all, 1..3, 3..6, at(2)),
        part("a number early", all, 1..3, 1..6, at(2)),
        part("a row that isn't known yet", all, 4..5, 0..2, at(5)),
        part("the numbers of the row before", all, 2..3, 2..4, at(3)),
        part("the numbers of another row", all, 8..9, 14..15, at(9)),
    ]
}

/// Rows and numbers that aren't there: 17, whatever the file.
fn bounds() -> Vec<ClosingPartCase> {
    let all = &one_seat();
    let none = Closing::refused(17, 0);
    let most = usize::MAX;
    let back = |start: usize, end: usize| start..end;
    let mut cases = vec![
        part("no rows", all, 3..3, 6..6, none),
        part("no rows at the start", all, 0..0, 0..0, none),
        part(
            "rows that end before they begin",
            all,
            back(5, 4),
            9..9,
            none,
        ),
        part("a row past the last", all, 11..13, 16..16, none),
        part("rows far past the last", all, 0..most, 0..16, none),
        part("from there on", all, most..most, 16..16, none),
        part("from there back", all, most..0, 0..0, none),
        part(
            "numbers that end before they begin",
            all,
            4..5,
            back(9, 7),
            none,
        ),
        part("a number past the last", all, 11..12, 16..17, none),
        part("numbers past the last", all, 11..12, 17..17, none),
        part("numbers far past the last", all, 0..12, 0..most, none),
        part("from these back", all, 0..12, most..16, none),
        part("without rows", all, 0..1, 0..2, none).with("without rows", none, |it| {
            it.places.clear();
        }),
    ];
    let refused: Vec<_> = cases
        .iter()
        .map(|case| ClosingPartCase {
            file: vec![0],
            ..case.clone()
        })
        .collect();
    cases.extend(refused);
    cases
}

/// Row 4, in which session 1 has the seat and session 2 waits for it, by itself.
fn order() -> Vec<ClosingPartCase> {
    let all = &one_seat();
    let begins = all.certificate.places[4] as usize;
    let (first, second) = (begins + 2, begins + 2 + 12);
    let owners = second + 12;
    let line = owners + 2;
    let states = &all.certificate.states;
    assert_eq!(states[first..first + 4], [1, 2, 1, 1]);
    assert_eq!(states[second..second + 4], [1, 3, 0, 0]);
    assert_eq!(states[owners..line + 4], [1, 2, 1, 2, 0, 0]);
    let row = || part("", all, 4..5, 7..9, FINE);
    let before = || part("", all, 1..2, 2..4, FINE);
    let set = |name, word: usize, value| row().with(name, at(5), |it| it.states[word] = value);
    // The row anew at the end of the table, with other words for its lines.
    let lined = |name, answer, lines: &[u16]| {
        row().with(name, answer, |it| {
            let before = it.states[begins..line].to_vec();
            it.places[4] = it.states.len() as u32;
            it.states.extend(before);
            it.states.extend(lines);
        })
    };
    let unlined = lined("", FINE, &[0, 0, 0]);
    vec![
        set("65 threads", begins, 65),
        set("65,535 threads", begins, 65_535),
        set("65 made channels", begins + 1, 65),
        set("a thread more", begins, 3),
        set("a thread less", begins, 1),
        set("session 0", owners, 0),
        set("session 3 of 2", owners + 1, 3),
        set("session 65,535", owners + 1, 65_535),
        set("who has the role waits", line + 1, 1),
        set("session 3 waits", line + 1, 3),
        set("session 0 waits", line + 1, 0),
        set("33 wait", line, 33),
        set("65,535 wait", line, 65_535),
        unlined.with("both in one seat", at(5), |it| {
            let mask = it.places[4] as usize + second + 2 - begins;
            it.states[mask] = 1;
        }),
        lined("the row elsewhere", FINE, &[1, 2, 0, 0]),
        lined("one waits twice", at(5), &[2, 2, 2, 0, 0]),
        lined("a line without limit", at(5), &[1, 2, 0, 1, 2]),
        lined("without the last count", at(5), &[1, 2, 0]),
        lined("without the last who waits", at(5), &[1, 2, 0, 1]),
        row().with("a variable that stays", FINE, |it| it.states[first + 4] = 5),
        before().with("it isn't there before", at(2), |it| {
            it.states[first + 4] = 5;
        }),
        set("a node that isn't there", first + 1, 99),
    ]
}

/// Two threads that end: rows that a part doesn't look at, and rows at the end of the words.
fn places() -> Vec<ClosingPartCase> {
    let all = &two_that_end();
    let first = || part("", all, 0..2, 0..3, FINE);
    let others = || part("", all, 2..4, 3..4, FINE);
    let one = || part("", all, 1..2, 2..3, FINE);
    let node = all.certificate.places[1] as usize + 3;
    let alone = |name, numbers, answer| {
        part(name, all, 1..2, numbers, answer).with(name, answer, |it| it.states[node] = 99)
    };
    vec![
        first().with("the first rows", FINE, |_| ()),
        others().with("the other rows", FINE, |_| ()),
        first().with("another start", at(1), |it| it.states[3] = 2),
        others().with("it isn't looked at", FINE, |it| it.states[3] = 2),
        one().with("nor is it there", FINE, |it| it.states[3] = 2),
        first().with("the start past the words", at(1), |it| {
            it.places[0] = u32::MAX;
        }),
        one().with("that isn't seen", FINE, |it| it.places[0] = u32::MAX),
        one().with("a row past the words", at(2), |it| it.places[1] = u32::MAX),
        one().with("next past the words", at(2), |it| it.places[3] = u32::MAX),
        one().with("next is no row", at(2), |it| it.next[2] = 4),
        one().with("next isn't known yet", at(2), |it| {
            it.next[..2].copy_from_slice(&[1, 1]);
        }),
        one().with("all is known before", FINE, |it| it.next[0] = u32::MAX),
        one().with("next is another row", at(2), |it| it.next[2] = 2),
        part("", all, 2..5, 3..4, FINE).with("a row that isn't reached", at(5), |it| {
            it.places.push(0);
        }),
        one().with("how many roles isn't looked at", FINE, |it| {
            it.states[node + 2] = 7;
        }),
        first().with("but where the row is come to", at(1), |it| {
            it.states[node + 2] = 7;
        }),
        alone("a thread at no node", 2..3, at(2)),
        alone("it has no choice", 2..2, FINE),
    ]
}

/// What is refused before the first row is looked at.
fn refused() -> Vec<ClosingPartCase> {
    let of = |name, file: &[u8], seats: &[u16], (number, place)| ClosingPartCase {
        file: file.to_vec(),
        seats: seats.to_vec(),
        ..part(
            name,
            &two_that_end(),
            2..4,
            3..4,
            Closing::refused(number, place),
        )
    };
    let file = &desk(&[(1, 1, &[END]), (1, 1, &[END])]).bytes();
    vec![
        of("one byte", &[0], &[0; 3], (1, 0)),
        of("one byte and a long table", &[0], &[40; 17], (1, 0)),
        of("too few seats", file, &[1, 0], (17, 0)),
        of("too many seats", file, &[1, 0, 0, 0], (17, 0)),
        of("33 seats", file, &[1, 0, 33], (17, 0)),
        of("two start in one seat", file, &[1, 0, 0], (26, 2)),
    ]
}
