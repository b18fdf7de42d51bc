//! Certificates for all lists of choices, by both implementations: compared, damaged and
//! counted.

mod damage;
mod promise;
mod search;
mod tally;

pub use search::{search, Found};
pub use tally::CertificateTally;

pub(crate) use damage::anything;
pub(crate) use promise::list_to;

use crate::columns::row_file;
use crate::rng::Rng;
use crate::seats::{deal_seated, Seated};
use second::draft::Draft;
use second::{Certificate, Closing, Version};
use std::fmt::Display;

/// A file, a table of seats, and a certificate.
#[derive(Clone)]
pub struct Certified {
    pub file: Vec<u8>,
    pub seats: Vec<u16>,
    pub certificate: Certificate,
}

/// The engine's answer, in the second implementation's form.
pub fn engine_closing(
    file: &[u8],
    seats: &[u16],
    states: &[u16],
    places: &[u32],
    next: &[u32],
) -> Closing {
    let closing = pilzdamo::closed(file, seats, states, places, next);
    Closing {
        number: closing.number,
        place: closing.place,
        row: closing.row,
    }
}

impl Certified {
    /// What one of the two answers.
    pub fn asked(
        &self,
        closing: impl Fn(&[u8], &[u16], &[u16], &[u32], &[u32]) -> Closing,
    ) -> Closing {
        let Certificate {
            states,
            places,
            next,
        } = &self.certificate;
        closing(&self.file, &self.seats, states, places, next)
    }
}

/// What both answer. Panics where they differ.
pub fn agreed_closing(certified: &Certified, origin: impl Display) -> Closing {
    let engine = certified.asked(engine_closing);
    let second = certified.asked(second::closing);
    assert!(
        engine == second,
        "the answer differs at {origin}: engine {engine:?}, second {second:?}, seats {:?}, \
         {:?}, on {} bytes, to be had back by `xxd -r -p`:\n{}",
        certified.seats,
        certified.certificate,
        certified.file.len(),
        certified
            .file
            .iter()
            .map(|byte| format!("{byte:02x}"))
            .collect::<String>()
    );
    engine
}

/// The most rows of a search: few mostly, so that there are many searches.
pub(crate) fn most_rows(rng: &mut Rng) -> usize {
    *rng.of(&[20, 20, 60, 60, 60, 60, 60, 60, 60, 200, 200, 200, 2_000])
}

/// The file with its first sessions alone, so many of them.
fn cut(file: &[u8], sessions: usize) -> Draft {
    let mut draft = Draft::of(file);
    if let Some([_, _, root]) = draft.sessions.get(sessions) {
        draft.nodes.truncate(usize::from(*root) - 1);
        draft.sessions.truncate(sessions);
    }
    draft
}

/// Adds sessions that do nothing but send user 1 on a channel, or receive on it, and end;
/// those of the others that send on it find a partner too.
fn add_meetings(rng: &mut Rng, draft: &mut Draft) {
    let channel = 256 + rng.from(1, draft.channels.len() as u16);
    let send = [[6, channel, 1], [0, 0, 0]];
    let receive = [[5, channel, 0], [0, 0, 0]];
    let orders: [&[_]; 4] = [
        &[send, receive],
        &[receive, send],
        &[receive, send, receive],
        &[receive, receive],
    ];
    for tree in *rng.of(&orders) {
        let any = rng.below(draft.users.len());
        let user = *rng.of(&[0, 0, 0, any]);
        let [assigned] = draft.users[user];
        let root = draft.nodes.len() as u16 + 1;
        draft.sessions.push([user as u16 + 1, assigned, root]);
        draft.nodes.extend(tree);
    }
}

/// A file, a table of seats and a list of choices, as they are dealt.
pub(crate) struct Routine<'a> {
    pub rng: &'a mut Rng,
    pub file: &'a [u8],
    pub seats: &'a [u16],
    pub choices: &'a [u16],
    pub origin: &'a str,
}

/// Deals `inputs` files of a version and tables of seats, and has each visited. Those that
/// can be run and have too many states, where the visit answers false, are visited again with
/// two sessions, and all that can be run with one or none and some that meet.
pub(crate) fn each_routine(
    version: Version,
    seed: u64,
    inputs: u64,
    mut visit: impl FnMut(Routine) -> bool,
) {
    for index in 0..inputs {
        let rng = &mut Rng::new(seed.rotate_left(32), index);
        let Seated { dealt, seats } = deal_seated(version, seed, index);
        let (file, choices) = (dealt.file, dealt.choices);
        let origin = format!("trials::deal_seated(Version::{version:?}, {seed}, {index})");
        let mut visit_one = |rng: &mut Rng, file: &[u8], seats: &[u16], origin: &str| {
            visit(Routine {
                rng,
                file,
                seats,
                choices: &choices,
                origin,
            })
        };
        let runs = |file: &[u8], seats: &[u16]| second::begin_seated(file, seats).is_ok();
        let visited = visit_one(rng, &file, &seats, &origin);
        if !runs(&file, &seats) {
            continue;
        }
        if !visited {
            let file = cut(&file, 2).bytes();
            visit_one(rng, &file, &seats, &format!("two sessions of {origin}"));
        }
        let mut draft = cut(&file, rng.below(2));
        if draft.channels.is_empty() {
            continue;
        }
        add_meetings(rng, &mut draft);
        let file = draft.bytes();
        let free = vec![0; seats.len()];
        let seats = if runs(&file, &seats) { seats } else { free };
        if runs(&file, &seats) {
            visit_one(rng, &file, &seats, &format!("meetings of {origin}"));
        }
    }
}

/// Deals routines, searches them, gives both the certificates, damaged too, and panics at the
/// first difference.
pub fn compare_certificates(version: Version, seed: u64, inputs: u64) -> CertificateTally {
    let mut tally = CertificateTally::new(version);
    each_routine(version, seed, inputs, |routine| {
        let Routine {
            rng,
            file,
            seats,
            choices,
            origin,
        } = routine;
        if second::begin_seated(file, seats).is_err() {
            let refused = Certified {
                certificate: damage::anything(rng),
                file: file.to_vec(),
                seats: seats.to_vec(),
            };
            let answer = agreed_closing(&refused, origin);
            assert!(answer.number != 0 && answer.row == 0, "{origin}");
            tally.count("refused before the rows", answer);
            return true;
        }
        compare_one(rng, file, seats, choices, origin, &mut tally)
    });
    tally
}

/// Searches a file that can be run, and asks both about what is found, damaged too. False
/// where there are too many states.
fn compare_one(
    rng: &mut Rng,
    file: &[u8],
    seats: &[u16],
    choices: &[u16],
    origin: &str,
    tally: &mut CertificateTally,
) -> bool {
    let start = second::begin_seated(file, seats).expect("it can be run");
    let certified = |certificate: &Certificate| Certified {
        file: file.to_vec(),
        seats: seats.to_vec(),
        certificate: certificate.clone(),
    };
    let most = most_rows(rng);
    let found = search(start.clone(), most, |_| false);
    let holds = certified(&found.certificate);
    let answer = agreed_closing(&holds, origin);
    if !found.is_whole() {
        assert!(answer.number == 18 && answer.row > 0, "{origin}");
        tally.count("a search that isn't at its end", answer);
        return false;
    }
    assert_eq!(answer, Closing::CLEAN, "{origin}");
    tally.count("found", answer);
    tally.note_states(&found, seats);
    let rows = found.certificate.places.len();
    let by_second = second::search(file, seats, rows);
    assert!(by_second.as_ref() == Some(&found.certificate), "{origin}");
    assert_eq!(second::search(file, seats, rows - 1), None, "{origin}");
    if let Some(rows) = row_file(file) {
        let by_row = Certified {
            file: rows,
            ..holds.clone()
        };
        assert_eq!(agreed_closing(&by_row, origin), answer, "by row: {origin}");
    }
    promise::assert_rows_are_reached(rng, &holds, &found, origin);
    promise::assert_lists_end_in_rows(rng, &holds, choices, origin);
    damage::damage_all(rng, holds, &found, origin, tally);
    let mut twins = 3;
    let twice = search(start, 2 * most, |rows| {
        let twin = twins > 0 && rows < most && rng.once_in(4);
        twins -= u32::from(twin);
        twin
    });
    if twice.is_whole() && twins < 3 {
        let answer = agreed_closing(&certified(&twice.certificate), origin);
        assert_eq!(answer, Closing::CLEAN, "{origin}");
        tally.count("a state in two rows", answer);
    }
    true
}
