//! The runs of the trials, by index.

use super::replay::{Meeting, Replay};
use super::Dealt;
use crate::bare::filled;
use crate::desk::{deal_desk, Use};
use crate::rng::Rng;
use crate::schedule::{any_choice, schedule, Goal, Steer, MOST_CHOICES};
use second::{Halt, Version, RUN_ROOM};

/// Run `index` under `seed`, of a file of this version; some damaged files have
/// another.
pub fn deal_run(version: Version, seed: u64, index: u64) -> Dealt {
    let rng = &mut Rng::new(seed.rotate_left(1), index);
    // The rarest are tried for twice as often.
    let mut halts = Halt::all();
    halts.extend([Halt::OnNotAssigned, Halt::ChannelsFull]);
    let halt = rng.once_in(2).then(|| *rng.of(&halts));
    let good_for = match halt.map(Halt::number) {
        Some(11 | 12) => Use::Roles,
        Some(13) => Use::Permission,
        Some(20) => Use::Crowd,
        _ => Use::Any,
    };
    let file = deal_desk(rng, version, good_for);
    let goal = Goal::of(rng, halt);
    let mut choices = schedule(rng, &file, goal);
    change_list(rng, &mut choices);
    let room = room(rng);
    let before = filled(rng, room);
    Dealt {
        file,
        choices,
        before,
    }
}

/// A file and a list of choices that are all done. Most lists end where threads
/// can meet, and many of these where a lower send or receive is passed over, if
/// they come by such a state.
pub fn deal_state(version: Version, seed: u64, index: u64) -> (Vec<u8>, Vec<u16>) {
    let rng = &mut Rng::new(seed.rotate_left(3), index);
    let good_for = *rng.of(&[Use::Any, Use::Permission]);
    let file = deal_desk(rng, version, good_for);
    let goal = Goal {
        steer: *rng.of(&[Steer::Any, Steer::Meet, Steer::Grow, Steer::Make]),
        most: rng.below(50),
        halt: None,
    };
    let mut choices = schedule(rng, &file, goal);
    if second::begin(&file).is_ok() {
        let states = meetings(&file, &choices);
        let wish = rng.below(4);
        let wished = |meeting: &Meeting| match wish {
            0 => false,
            1 => meeting.ready,
            2 => meeting.past_send,
            _ => meeting.past_receive,
        };
        let found = rng.find(&states, wished);
        let ready = |meeting: &Meeting| wish > 0 && meeting.ready;
        if let Some(done) = found.or_else(|| rng.find(&states, ready)) {
            choices.truncate(2 * done);
        }
    }
    (file, choices)
}

/// What can be said of the ready pairs of all states of a run, from its start
/// on.
fn meetings(file: &[u8], choices: &[u16]) -> Vec<Meeting> {
    let mut replay = Replay::start(file);
    let mut meetings = vec![replay.meeting()];
    for &[thread, partner] in choices.as_chunks().0 {
        replay.run.choose(thread, partner).expect("it is done");
        meetings.push(replay.meeting());
    }
    meetings
}

/// Leaves most lists as they are. Others go on with any choices, have other
/// words, are odd, or are as long as can be, and longer.
fn change_list(rng: &mut Rng, choices: &mut Vec<u16>) {
    let length = choices.len();
    match rng.below(200) {
        0..=29 => choices.extend((0..5).flat_map(|_| any_choice(rng, 6))),
        30..=39 => {
            for _ in 0..=rng.below(3) {
                if length > 0 {
                    choices[rng.below(length)] = *rng.of(&[0, 1, 2, 3, 4, 9]);
                }
            }
        }
        40..=45 => choices.fill_with(|| rng.word()),
        46..=51 => choices.push(rng.word()),
        52..=53 => choices.resize(2 * MOST_CHOICES + 2 + rng.below(5), 1),
        54 => choices.resize(2 * MOST_CHOICES, 1),
        55 => choices.resize(2 * MOST_CHOICES - 1, 0),
        _ => {}
    }
}

/// The length of an output: mostly long enough, and then mostly just so.
pub fn room(rng: &mut Rng) -> usize {
    match rng.below(300) {
        0 => 0,
        1..=3 => RUN_ROOM - 1,
        4..=6 => rng.below(RUN_ROOM),
        7 => *rng.of(&[65_536, 65_537, 65_536 + RUN_ROOM]),
        8..=50 => RUN_ROOM + 1 + rng.below(200),
        51..=60 => RUN_ROOM + 1 + rng.below(8_000),
        _ => RUN_ROOM,
    }
}
