//! The inputs of the trials with seats, by index.

use super::ward::{add_takers, ward, ward_without_roles};
use super::Seated;
use crate::bare::filled;
use crate::change;
use crate::deal::deal;
use crate::desk::{deal_desk, Use};
use crate::rng::Rng;
use crate::running::{deal_run, room, Dealt};
use crate::schedule::any_choice;
use second::draft::{word_at, Draft};
use second::{Answer, SeatedRun, Version, BEFORE_ROUND, MOST_CHOICES};

const SEND: u16 = 6;
const RECEIVE: u16 = 5;
const OFF: u16 = 8;

/// Input `index` under `seed`, of a file of this version; some damaged files have
/// another.
pub fn deal_seated(version: Version, seed: u64, index: u64) -> Seated {
    let rng = &mut Rng::new(seed.rotate_left(24), index);
    let (file, given) = any(rng, version);
    let seats = table(rng, &file);
    let mut choices = given.unwrap_or_else(|| walk(rng, &file, &seats));
    change_list(rng, &mut choices);
    let seats = change_table(rng, seats);
    let room = room(rng);
    let before = filled(rng, room);
    let dealt = Dealt {
        file,
        choices,
        before,
    };
    Seated { dealt, seats }
}

/// A file, and its choices if it has some already.
fn any(rng: &mut Rng, version: Version) -> (Vec<u8>, Option<Vec<u16>>) {
    let file = match rng.below(40) {
        0..=23 => ward(rng, version).bytes(),
        24..=28 => {
            let mut draft = ward(rng, version);
            add_takers(&mut draft);
            draft.bytes()
        }
        29 => ward_without_roles(rng, version).bytes(),
        30..=34 => {
            let use_of = [Use::Any, Use::Roles, Use::Permission, Use::Crowd];
            let good_for = *rng.of(&use_of);
            deal_desk(rng, version, good_for)
        }
        35..=36 => {
            let Dealt { file, choices, .. } = deal_run(version, rng.number(), rng.number());
            return (file, Some(choices));
        }
        37 => {
            let mut file = ward(rng, version).bytes();
            if rng.once_in(2) {
                change::one_word(rng, &mut file);
            } else {
                change::any_bytes(rng, &mut file);
            }
            file
        }
        38 => deal(version, rng.number(), rng.number()),
        _ if rng.once_in(2) => Vec::new(),
        _ => Draft::default().bytes(),
    };
    (file, None)
}

/// Seats for as many roles as the file's head says: mostly few, and no limit in some.
fn table(rng: &mut Rng, file: &[u8]) -> Vec<u16> {
    let roles = match file.len() {
        6.. => word_at(file, 2).min(20),
        _ => 0,
    };
    let few: &[u16] = match rng.below(12) {
        0 => &[0],
        1..=3 => &[1],
        4 => &[1, 32],
        5..=6 => &[0, 1, 2],
        7 => &[0, 1, 2, 3, 5, 31, 32],
        _ => &[0, 1, 1, 1, 2],
    };
    (0..roles).map(|_| *rng.of(few)).collect()
}

/// Leaves most tables as they are. Others are short or long, or have a word above 32.
fn change_table(rng: &mut Rng, mut seats: Vec<u16>) -> Vec<u16> {
    match rng.below(60) {
        0 => {
            seats.pop();
        }
        1 => seats.push(*rng.of(&[0, 0, 1, 33])),
        2..=20 if seats.is_empty() => seats.push(*rng.of(&[0, 1])),
        2..=3 if !seats.is_empty() => {
            let at = rng.index(seats.len());
            let any = rng.word().max(33);
            seats[at] = *rng.of(&[33, 33, 33, 64, 256, any]);
        }
        4 if rng.once_in(4) => seats.resize(*rng.of(&[0, 1, 16, 17, 65_536 + seats.len()]), 1),
        _ => {}
    }
    seats
}

/// Choices from the file's start with these seats, all of them done or answered 26.
fn walk(rng: &mut Rng, file: &[u8], seats: &[u16]) -> Vec<u16> {
    let mut choices = Vec::new();
    let Ok(mut run) = second::begin_seated(file, seats) else {
        choices.resize_with(2 * rng.below(6), || rng.from(0, 4));
        return choices;
    };
    let nodes = Draft::of(file).nodes;
    let tries = *rng.of(&[6, 15, 30, 30, 60, 200]);
    let keep_on = rng.once_in(2);
    for _ in 0..tries {
        let Some(choice) = draw(rng, &run, &nodes, keep_on) else {
            continue;
        };
        if run.choose(choice[0], choice[1]).is_ok() {
            choices.extend(choice);
        }
    }
    if rng.once_in(8) {
        choices.extend(refused(&run).into_iter().flatten());
    }
    if tries == 200 && rng.once_in(60) {
        ask_for_ever(rng, &run, &mut choices);
    }
    choices
}

/// Any thread, with a partner where it sends. Threads at an off are passed over often
/// where roles are to be kept on.
fn draw(rng: &mut Rng, run: &SeatedRun, nodes: &[[u16; 3]], keep_on: bool) -> Option<[u16; 2]> {
    let threads = run.run().threads();
    let tag = |at: usize| nodes[usize::from(threads[at].node) - 1][0];
    if threads.is_empty() {
        return None;
    }
    let at = rng.below(threads.len());
    let partner = match tag(at) {
        SEND => (0..threads.len()).find(|&at| tag(at) == RECEIVE)? as u16 + 1,
        RECEIVE => return None,
        OFF if keep_on && !rng.once_in(3) => return None,
        _ => 0,
    };
    Some([at as u16 + 1, partner])
}

/// A choice that is refused, but not with 18, if there is one.
fn refused(run: &SeatedRun) -> Option<[u16; 2]> {
    let threads = run.run().threads().len() as u16;
    let halts = |thread: u16, partner: u16| {
        let halt = run.clone().choose(thread, partner).err();
        halt.is_some_and(|halt| halt.number() != 18)
    };
    let all = (1..=threads).flat_map(|thread| (0..=threads).map(move |to| [thread, to]));
    all.take(100)
        .find(|&[thread, partner]| halts(thread, partner))
}

/// Repeats a choice that gets no seat, as often as a list has room for, or up to two times
/// less.
fn ask_for_ever(rng: &mut Rng, run: &SeatedRun, choices: &mut Vec<u16>) {
    let threads = 1..=run.run().threads().len() as u16;
    let mut waits = threads.filter(|&thread| {
        let mut next = run.clone();
        next.choose(thread, 0) == Ok(Answer::NoSeat)
    });
    if let Some(thread) = waits.next() {
        let most = *rng.of(&[
            MOST_CHOICES,
            MOST_CHOICES - 1,
            BEFORE_ROUND,
            BEFORE_ROUND + 1,
        ]);
        while choices.len() < 2 * most {
            choices.extend([thread, 0]);
        }
    }
}

/// Leaves most lists as they are. Others go on with any choices, have other words, are
/// odd, or are too long.
fn change_list(rng: &mut Rng, choices: &mut Vec<u16>) {
    let length = choices.len();
    match rng.below(200) {
        0..=12 => choices.extend((0..3).flat_map(|_| any_choice(rng, 6))),
        13..=19 => choices.extend((1..=3).flat_map(|_| [rng.from(1, 5), 0])),
        20..=27 if length > 0 => choices[rng.below(length)] = *rng.of(&[0, 1, 2, 3, 4, 9]),
        28..=30 => choices.fill_with(|| rng.word()),
        31..=34 => choices.push(rng.word()),
        35 => choices.resize(2 * MOST_CHOICES + 2 + rng.below(5), 1),
        36 => choices.resize(2 * BEFORE_ROUND + rng.below(100), 1),
        _ => {}
    }
}
