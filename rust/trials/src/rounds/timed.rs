//! The rounds that are timed.

use super::choices_of;
use super::desk::{add_fork, forks, SESSIONS};
use crate::schedule::typical_run;
use second::draft::Draft;
use second::RUN_ROOM;

const END: [u16; 3] = [0, 0, 0];
const COMPARE: [u16; 3] = [4, 1, 1];

/// A file of 32 sessions that fork at their root in these two branches, and the
/// choices that have them do so.
fn forked(branches: impl Fn(u16) -> [Vec<[u16; 3]>; 2]) -> (Vec<u8>, Vec<u16>) {
    let mut draft = Draft {
        users: vec![[1]],
        roles: vec![[1, 0, 1, 0]],
        kinds: vec![[0]],
        channels: vec![[1, 1]; SESSIONS.into()],
        ..Draft::default()
    };
    for session in 1..=SESSIONS {
        let [one, other] = branches(session);
        add_fork(&mut draft, 1, &one, &other);
    }
    (draft.bytes(), forks())
}

/// A file, and choices that lead to 32 threads that send, followed by 32 that
/// receive, the last of these from the first of those, and then step.
pub fn meeting_round() -> (Vec<u8>, Vec<u16>) {
    forked(|session| {
        let receive = [5, 257 + SESSIONS - session, 0];
        [
            vec![[6, 256 + session, 1], END],
            vec![receive, COMPARE, END],
        ]
    })
}

/// A file, and choices that lead to 64 threads that each have a lone step to do.
pub fn lone_round() -> (Vec<u8>, Vec<u16>) {
    forked(|_| [vec![COMPARE, END], vec![COMPARE, END]])
}

/// A file of 40 nodes, and choices after which a round has at least four, among
/// them a send. They are the start of a typical run's.
pub fn typical_round(seed: u64) -> (Vec<u8>, Vec<u16>) {
    let found = (seed..).find_map(|seed| {
        let (file, choices) = typical_run(seed);
        let will_do = |&words: &usize| {
            let round = second::round(&file, &choices[..words], &mut [0; RUN_ROOM]);
            let made = choices_of(&round);
            made.len() >= 4 && made.iter().any(|[_, partner]| *partner != 0)
        };
        let words = (0..choices.len()).step_by(2).find(will_do)?;
        Some((file, choices[..words].to_vec()))
    });
    found.expect("some file will do")
}
