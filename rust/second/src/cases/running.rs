//! Cases of runs.

mod booking;
mod certificates;
mod halts;
mod juniors;
mod lent;
mod nothing;
mod offers;
mod parts;
mod ready;
mod refusals;
mod rounds;
mod seats;
mod steps;
mod totals;

pub use booking::{booking, placed_booking};
pub use certificates::{cases as closing_cases, ClosingCase};
pub use lent::{cases as choose_cases, start_cases, ChooseCase, Lent, StartCase};
pub use offers::{cases as offers_cases, OffersCase};
pub use parts::{cases as closing_part_cases, ClosingPartCase};
pub use rounds::{cases as round_cases, RoundCase};
pub use seats::{cases as seat_cases, round_cases as seated_round_cases};
pub use seats::{SeatCase, SeatedRoundCase};
pub use totals::{cases as totals_cases, TotalsCase};

use crate::draft::{set_word, Draft};
use crate::{Ready, Verdict, RUN_ROOM};

/// A file, a list of choices, the length of the output, and what a run does
/// with them. `ready` is the answer after the same list.
pub struct RunCase {
    pub name: &'static str,
    pub file: Vec<u8>,
    pub choices: Vec<u16>,
    pub room: usize,
    pub answer: (u16, u16),
    /// The words that are written, if any are.
    pub words: Vec<u16>,
    pub ready: Ready,
}

impl RunCase {
    /// Fails unless `run` gives the answer that is due and leaves the output
    /// as it should be, whatever that held before.
    pub fn demand(&self, who: &str, run: impl Fn(&[u8], &[u16], &mut [u8]) -> Verdict) {
        let name = self.name;
        let (number, place) = self.answer;
        for fill in [0, 0xa5] {
            let mut due = vec![fill; self.room];
            for (at, &word) in self.words.iter().enumerate() {
                set_word(&mut due, at, word);
            }
            let mut out = vec![fill; self.room];
            let answer = run(&self.file, &self.choices, &mut out);
            assert_eq!(answer, Verdict { number, place }, "{who}: {name}");
            let word = out.iter().zip(&due).position(|(byte, due)| byte != due);
            let word = word.map(|byte| byte / 2);
            assert_eq!(word, None, "{who}: a word of the output of {name}");
        }
    }

    /// Fails unless `ready` gives the answer that is due.
    pub fn demand_ready(&self, who: &str, ready: impl Fn(&[u8], &[u16]) -> Ready) {
        let answer = ready(&self.file, &self.choices);
        assert_eq!(answer, self.ready, "{who}: ready pair of {}", self.name);
    }
}

const REPEAT: [u16; 3] = [2, 0, 0];

const fn fork(second: u16) -> [u16; 3] {
    [1, second, 0]
}

const fn new(kind: u16) -> [u16; 3] {
    [3, kind, 0]
}

const fn compare(one: u16, other: u16) -> [u16; 3] {
    [4, one, other]
}

const fn receive(channel: u16) -> [u16; 3] {
    [5, channel, 0]
}

const fn send(channel: u16, value: u16) -> [u16; 3] {
    [6, channel, value]
}

const fn on(role: u16) -> [u16; 3] {
    [7, role, 0]
}

const fn off(role: u16) -> [u16; 3] {
    [8, role, 0]
}

/// A session: its user, its starting mask, and its tree.
type Session<'a> = (u16, u16, &'a [[u16; 3]]);

/// Role 1 may send on kinds 1, 2 and 17, role 2 may receive on them; role 3
/// may do both on kind 3. Kind 2 carries channels of kind 1, the others plain
/// values. Users 1 and 2 have all three roles, user 3 has none. Channel 1 is of
/// kind 1, 2 of kind 2, 3 of kind 3, 4 of kind 1 and 5 of kind 17, all of them user
/// 2's.
fn desk(sessions: &[Session]) -> Draft {
    let mut kinds = vec![[0]; 17];
    kinds[1] = [1];
    let mut draft = Draft {
        users: vec![[7], [7], [0]],
        roles: vec![[3, 1, 0, 0], [0, 0, 3, 1], [4, 0, 4, 0]],
        kinds,
        channels: vec![[2, 1], [2, 2], [2, 3], [2, 1], [2, 17]],
        ..Draft::default()
    };
    for &(user, mask, tree) in sessions {
        let root = draft.nodes.len() as u16 + 1;
        draft.sessions.push([user, mask, root]);
        draft.nodes.extend(tree);
    }
    draft
}

/// A thread's twelve words: user, node and mask, how many roles that is, and
/// the variables that are bound.
fn thread(user: u16, node: u16, mask: u16, roles: u16, bound: &[u16]) -> Vec<u16> {
    let mut words = vec![user, node, mask, roles];
    words.extend(bound);
    words.resize(12, 0);
    words
}

/// The state's words: choices done, refusal, and the records with their counts.
fn state(done: u16, refusal: u16, made: &[[u16; 2]], threads: &[Vec<u16>]) -> Vec<u16> {
    let mut words = vec![done, refusal, threads.len() as u16, made.len() as u16];
    words.extend(made.as_flattened());
    words.extend(threads.concat());
    words
}

fn flat(choices: &[[u16; 2]]) -> Vec<u16> {
    choices.as_flattened().to_vec()
}

/// A run to the end of its list.
fn ends(
    name: &'static str,
    file: &Draft,
    choices: &[[u16; 2]],
    made: &[[u16; 2]],
    threads: &[Vec<u16>],
    (sender, receiver): (u16, u16),
) -> RunCase {
    RunCase {
        name,
        file: file.bytes(),
        choices: flat(choices),
        room: RUN_ROOM,
        answer: (0, 0),
        words: state(choices.len() as u16, 0, made, threads),
        ready: Ready::pair(sender, receiver),
    }
}

/// A run that halts after `done` choices.
fn halts(
    name: &'static str,
    file: &Draft,
    choices: &[[u16; 2]],
    (done, number): (u16, u16),
    made: &[[u16; 2]],
    threads: &[Vec<u16>],
) -> RunCase {
    RunCase {
        name,
        file: file.bytes(),
        choices: flat(choices),
        room: RUN_ROOM,
        answer: (number, done + 1),
        words: state(done, number, made, threads),
        ready: Ready::refused(number, done + 1),
    }
}

/// A refusal before the first choice.
fn refused(name: &'static str, file: Vec<u8>, choices: Vec<u16>, answer: (u16, u16)) -> RunCase {
    RunCase {
        name,
        file,
        choices,
        room: RUN_ROOM,
        answer,
        words: vec![],
        ready: Ready::refused(answer.0, answer.1),
    }
}

/// All of them.
pub fn cases() -> Vec<RunCase> {
    [
        booking::cases(),
        steps::cases(),
        halts::cases(),
        halts::at_full(),
        ready::cases(),
        refusals::cases(),
        juniors::runs(),
        nothing::runs(),
    ]
    .into_iter()
    .flatten()
    .collect()
}
