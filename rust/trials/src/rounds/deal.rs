//! The rounds of the trials, by index.

use super::desk::{full_of_channels, full_of_threads, of_64, relay};
use crate::bare::filled;
use crate::change;
use crate::deal::deal;
use crate::desk::{add_session, deal_desk, Use};
use crate::rng::Rng;
use crate::running::{deal_run, room, Dealt};
use crate::schedule::{any_choice, refused, schedule, Goal, Steer};
use second::draft::Draft;
use second::{Halt, Version, BEFORE_ROUND, RUN_ROOM};

/// A list of 65,471 choices, and one of 65,472, once in so many.
const LONG: u64 = 125;

/// Round `index` under `seed`, of a file of this version; some damaged files have
/// another.
pub fn deal_round(version: Version, seed: u64, index: u64) -> Dealt {
    let rng = &mut Rng::new(seed.rotate_left(8), index);
    let (file, choices) = match index % LONG {
        0 => as_long_as_can_be(rng, version, BEFORE_ROUND),
        1 => as_long_as_can_be(rng, version, BEFORE_ROUND + 1),
        _ => {
            let (file, mut choices) = any(rng, version);
            change_list(rng, &file, &mut choices);
            (file, choices)
        }
    };
    let room = room(rng);
    let before = filled(rng, room);
    Dealt {
        file,
        choices,
        before,
    }
}

fn any(rng: &mut Rng, version: Version) -> (Vec<u8>, Vec<u16>) {
    let (draft, mut choices) = match rng.below(32) {
        0..=12 => {
            let most = *rng.of(&[4, 8, 8, 16]);
            (relay(rng, version, most), Vec::new())
        }
        13..=15 => full_of_threads(rng, version),
        16..=17 => full_of_channels(rng, version),
        18..=19 => of_64(rng, version),
        20 => {
            let mut file = relay(rng, version, 8).bytes();
            if rng.once_in(2) {
                change::one_word(rng, &mut file);
            } else {
                change::any_bytes(rng, &mut file);
            }
            return (file, few(rng));
        }
        21..=22 => return (deal(version, rng.number(), rng.number()), few(rng)),
        23..=27 => {
            let use_of = [Use::Any, Use::Any, Use::Permission, Use::Roles];
            let good_for = *rng.of(&use_of);
            let file = deal_desk(rng, version, good_for);
            let goal = Goal {
                steer: *rng.of(&[Steer::Any, Steer::Meet, Steer::Grow, Steer::Drain]),
                most: rng.below(30),
                halt: None,
            };
            let choices = schedule(rng, &file, goal);
            return (file, choices);
        }
        _ => {
            let Dealt { file, choices, .. } = deal_run(version, rng.number(), rng.number());
            return (file, choices);
        }
    };
    let file = draft.bytes();
    let rounds = match rng.below(8) {
        0..=3 => 0,
        4..=6 => rng.below(6),
        _ => 30,
    };
    go_on(&file, &mut choices, rounds);
    (file, choices)
}

/// A few choices of any words.
fn few(rng: &mut Rng) -> Vec<u16> {
    let count = rng.below(6);
    (0..count).flat_map(|_| any_choice(rng, 4)).collect()
}

/// Goes on by so many rounds, as far as there are any.
fn go_on(file: &[u8], choices: &mut Vec<u16>, rounds: usize) {
    for _ in 0..rounds {
        let round = second::round(file, choices, &mut [0; RUN_ROOM]);
        let made = super::choices_of(&round);
        if made.is_empty() {
            break;
        }
        choices.extend(made.as_flattened());
    }
}

/// A relay with one session more, whose thread repeats and whose new thread then
/// ends, before anything else and as often as it takes to so many choices.
fn as_long_as_can_be(rng: &mut Rng, version: Version, count: usize) -> (Vec<u8>, Vec<u16>) {
    let mut draft = relay(rng, version, 8);
    add_session(&mut draft, 1, &[[2, 0, 0], [0, 0, 0]]);
    let last = draft.sessions.len() as u16;
    let file = draft.bytes();
    let mut choices = Vec::new();
    let rounds = 1 + rng.below(4);
    go_on(&file, &mut choices, rounds);
    if (count - choices.len() / 2) % 2 == 1 {
        choices.truncate(choices.len() - 2);
    }
    let before = (count - choices.len() / 2) / 2;
    let idle = [last, 0, last + 1, 0].repeat(before);
    (file, [idle, choices].concat())
}

/// Has the list stop for a cause that is drawn, if there is such a choice, with
/// others after it or none.
fn stop(rng: &mut Rng, file: &[u8], choices: &mut Vec<u16>) {
    let Ok(mut run) = second::begin(file) else {
        return;
    };
    let done = |[thread, partner]: &[u16; 2]| run.choose(*thread, *partner).is_ok();
    if !choices.as_chunks().0.iter().all(done) {
        return;
    }
    let nodes = Draft::of(file).nodes;
    let halt = *rng.of(&[
        Halt::OnNotAssigned,
        Halt::OffNotActive,
        Halt::SenderNotAllowed,
        Halt::ReceiverNotAllowed,
        Halt::CompareUnequal,
        Halt::ChannelsDiffer,
        Halt::ThreadsFullAtFork,
        Halt::ThreadsFullAtRepeat,
        Halt::ChannelsFull,
    ]);
    if let Some(choice) = refused(rng, &run, &nodes, halt) {
        choices.extend(choice);
        let behind = 2 * rng.below(3);
        choices.resize(choices.len() + behind, 1);
    }
}

/// Leaves most lists as they are. Others go on with any choices, have other
/// words, are odd, or are as long as can be, and longer.
fn change_list(rng: &mut Rng, file: &[u8], choices: &mut Vec<u16>) {
    let length = choices.len();
    match rng.below(200) {
        0..=4 => choices.extend(any_choice(rng, 6)),
        5..=14 => stop(rng, file, choices),
        15 => {
            for _ in 0..=rng.below(3) {
                if length > 0 {
                    choices[rng.below(length)] = *rng.of(&[0, 1, 2, 3, 4, 9]);
                }
            }
        }
        16..=18 => choices.fill_with(|| rng.word()),
        19..=22 => choices.push(rng.word()),
        23 => choices.resize(2 * BEFORE_ROUND - 2 + rng.below(6), 1),
        24 => choices.resize(2 * BEFORE_ROUND + rng.below(300), 1),
        _ => {}
    }
}
