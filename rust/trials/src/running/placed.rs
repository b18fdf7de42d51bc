//! Runs of placed files, which no role stops.

use super::replay::Replay;
use super::{agreed_run, Dealt};
use crate::bare::lively_bare;
use crate::hours::{agreed_placing_at, grant_more, with_hours};
use crate::placing::agreed_placing;
use crate::rng::Rng;
use crate::schedule::{any_choice, halt_of, schedule, Goal, Steer};
use second::draft::Draft;
use second::{Halt, Run, Version, ROOM, RUN_ROOM};

/// What came up over the runs of placed files.
#[derive(Debug, Default)]
pub struct PlacedRuns {
    pub files: u64,
    /// Those of them that were placed for a minute, with roles that have hours.
    pub at_a_minute: u64,
    pub runs: u64,
    pub sends: u64,
    /// Choices tried one by one in the states of these runs.
    pub tried: u64,
}

/// Places `files` files of a version by both, half of them for a minute, and runs what
/// can be placed on several lists. Panics if a run is stopped for a role.
pub fn run_placed(version: Version, seed: u64, files: u64) -> PlacedRuns {
    let mut came_up = PlacedRuns::default();
    for index in 0..files {
        let rng = &mut Rng::new(seed.rotate_left(2), index);
        let mut bare = lively_bare(rng, version);
        let with_table = index % 2 == 1;
        let (placed, out) = if with_table {
            grant_more(rng, &mut bare);
            let at = with_hours(rng, bare.bytes());
            agreed_placing_at(&at, &[0; ROOM], index)
        } else {
            agreed_placing(&bare.bytes(), &[0; ROOM], index)
        };
        if placed.number != 0 {
            continue;
        }
        came_up.at_a_minute += u64::from(with_table);
        let file = out[..placed.length.into()].to_vec();
        came_up.files += 1;
        for turn in 0..6 {
            let choices = list_for_placed(rng, &file, turn);
            let dealt = Dealt {
                file: file.clone(),
                choices,
                before: vec![turn; RUN_ROOM],
            };
            let origin = format!("placed file {index} of {version:?}, list {turn}");
            let (verdict, _) = agreed_run(&dealt, &origin);
            let for_a_role = matches!(verdict.number, 11..=13);
            assert!(
                !for_a_role,
                "{origin}: {verdict:?}, {draft:?}",
                draft = Draft::of(&file)
            );
            came_up.runs += 1;
            let mut replay = Replay::start(&file);
            came_up.sends += replay.sends_in(&dealt.choices, |_, _| {});
            came_up.tried += try_all(&replay.run, &origin);
        }
    }
    came_up
}

/// A list for a placed file: random words, or steps that are done and then
/// one that is to be refused, if it can be, for a role.
fn list_for_placed(rng: &mut Rng, file: &[u8], turn: u8) -> Vec<u16> {
    let threads = Draft::of(file).sessions.len();
    let mut choices = Vec::new();
    if turn == 0 {
        choices.extend((0..30).flat_map(|_| any_choice(rng, threads)));
        return choices;
    }
    let halts = [
        Halt::OnNotAssigned,
        Halt::OffNotActive,
        Halt::SenderNotAllowed,
        Halt::ReceiverNotAllowed,
    ];
    let goal = Goal {
        steer: *rng.of(&[Steer::Any, Steer::Meet, Steer::Meet, Steer::Grow]),
        most: 20 + rng.below(120),
        halt: rng.once_in(2).then(|| *rng.of(&halts)),
    };
    choices = schedule(rng, file, goal);
    choices.extend((0..10).flat_map(|_| any_choice(rng, threads)));
    choices
}

/// Tries every choice in a state of a placed file, and says how many there
/// are.
fn try_all(run: &Run, origin: &str) -> u64 {
    let threads = run.threads().len() as u16;
    let mut tried = 0;
    for thread in 1..=threads {
        for partner in 0..=threads {
            let number = halt_of(run, [thread, partner]).map_or(0, Halt::number);
            let for_a_role = matches!(number, 11..=13);
            assert!(!for_a_role, "{origin}: {number} at {thread}, {partner}");
            tried += 1;
        }
    }
    tried
}
