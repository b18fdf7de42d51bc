//! Placed files, dispatched round by round.

use super::{agreed_round, choices_of, look_into};
use crate::bare::lively_bare;
use crate::rng::Rng;
use crate::running::Dealt;
use second::{Version, ROOM, RUN_ROOM};

/// The most rounds of a file.
const ROUNDS: usize = 16;

/// What came up over the rounds of placed files.
#[derive(Debug, Default)]
pub struct Dispatched {
    pub files: u64,
    /// Those of them that came to an empty round.
    pub idle: u64,
    pub rounds: u64,
    pub choices: u64,
    pub meetings: u64,
}

/// Goes through `files` files of a version, as far as they can be placed, round by
/// round up to one that is empty.
pub fn dispatch_placed(version: Version, seed: u64, files: u64) -> Dispatched {
    let mut came_up = Dispatched::default();
    for index in 0..files {
        let rng = &mut Rng::new(seed.rotate_left(9), index);
        let mut out = [0; ROOM];
        let placed = second::place(&lively_bare(rng, version).bytes(), &mut out);
        if placed.number != 0 {
            continue;
        }
        came_up.files += 1;
        let mut dealt = Dealt {
            file: out[..placed.length.into()].to_vec(),
            choices: Vec::new(),
            before: vec![index as u8; RUN_ROOM],
        };
        for turn in 1..=ROUNDS {
            let origin = format!("placed file {index} of {version:?}, round {turn}");
            let (round, out) = agreed_round(&dealt, &origin);
            assert_eq!(round.number, 0, "{origin}");
            let came = look_into(&dealt, &round, &out, index % 20 == 0, &origin);
            came_up.meetings += came
                .and_then(|came| came.get("meetings").copied())
                .unwrap_or(0);
            let made = choices_of(&round);
            if made.is_empty() {
                came_up.idle += 1;
                break;
            }
            came_up.rounds += 1;
            came_up.choices += made.len() as u64;
            dealt.choices.extend(made.as_flattened());
        }
    }
    came_up
}
