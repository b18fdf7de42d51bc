//! The lent lists of the trials, by the index of their file.

use super::aim::Aim;
use super::fit::{any_thread, Clinic, Sort};
use super::Lent;
use crate::aim::at_draft;
use crate::change;
use crate::deal::{largest, typical};
use crate::desk::{deal_desk, Use};
use crate::lists::Lists;
use crate::rng::Rng;
use crate::schedule::{any_choice, enabled, refused, schedule, Goal, Steer};
use second::draft::Draft;
use second::{Cause, Halt, Run, Thread, Unfit, Version};
use second::{BEFORE_TOTALS, BESIDE, RECORDS};

/// How many lists there are for a file that 1 to 10 leave clean, and for one
/// that they refuse.
const LISTS: usize = 16;
const LISTS_OF_REFUSED: usize = 2;

/// The causes for which choices are refused most seldom.
const RARE: [Halt; 4] = [
    Halt::OnNotAssigned,
    Halt::SenderNotAllowed,
    Halt::ReceiverNotAllowed,
    Halt::ChannelsDiffer,
];

/// The causes of 18 at place 0 that an aim misses most often.
const MISSED: [Unfit; 4] = [
    Unfit::Nothing,
    Unfit::PlainForChannel,
    Unfit::ChannelForPlain,
    Unfit::OtherKind,
];

/// Those in which the totals come in: each of them can be wrong in several ways.
const OF_TOTALS: [Unfit; 4] = [Unfit::Total, Unfit::Total, Unfit::TotalAbove, Unfit::Beside];

/// What is lent with file `index` of this version under `seed`; some damaged
/// files have another.
pub fn deal_lent(version: Version, seed: u64, index: u64) -> Vec<Lent> {
    let rng = &mut Rng::new(seed.rotate_left(4), index);
    let good_for = *rng.of(&[
        Use::Any,
        Use::Any,
        Use::Any,
        Use::Roles,
        Use::Permission,
        Use::Crowd,
    ]);
    let mut file = deal_desk(rng, version, good_for);
    if second::begin(&file).is_err() {
        let lent = |_| of_any_words(rng, file.clone());
        return (0..LISTS_OF_REFUSED).map(lent).collect();
    }
    if good_for == Use::Roles {
        file = with_fewer_roles(rng, &file);
    }
    if rng.once_in(6) {
        file = with_high_kinds(&file);
    }
    let clinic = Clinic::of(&file);
    // Some go on until all threads or channels are there.
    let halt = match rng.below(12) {
        0 => Some(Halt::ThreadsFullAtFork),
        1 => Some(Halt::ChannelsFull),
        _ => None,
    };
    let goal = Goal {
        halt: None,
        ..Goal::of(rng, halt)
    };
    let choices = schedule(rng, &file, goal);
    let lent = |_| match rng.below(24) {
        0 => of_any_words(rng, file.clone()),
        1..=13 => {
            let sort = sort(rng);
            let lists = clinic.lists_for(rng, sort);
            changed(rng, &clinic, &file, lists, sort)
        }
        _ => {
            let sort = sort(rng);
            let lists = state_in(rng, &clinic, &file, &choices);
            changed(rng, &clinic, &file, lists, sort)
        }
    };
    (0..LISTS).map(lent).collect()
}

/// Takes roles from the users, and so from the sessions' starts.
fn with_fewer_roles(rng: &mut Rng, file: &[u8]) -> Vec<u8> {
    let mut draft = Draft::of(file);
    for [mask] in &mut draft.users {
        *mask &= rng.word();
    }
    for [user, start, _] in &mut draft.sessions {
        *start &= draft.users[usize::from(*user) - 1][0];
    }
    draft.bytes()
}

/// Gives a role a junior that is not lower, in version 2.
fn with_wrong_junior(rng: &mut Rng, draft: &Draft) -> Vec<u8> {
    let causes = [Cause::JuniorItself, Cause::JuniorHigher, Cause::JuniorAbove];
    let mut draft = draft.clone();
    let cause = *rng.of(&causes);
    at_draft(rng, &mut draft, cause);
    draft.bytes()
}

/// Puts sixteen kinds before the others, if there is room for them.
fn with_high_kinds(file: &[u8]) -> Vec<u8> {
    let mut draft = Draft::of(file);
    if draft.kinds.len() > 16 {
        return file.to_vec();
    }
    let carried = draft.kinds.iter_mut().filter(|kind| **kind != [0]);
    let carried = carried.map(|kind| &mut kind[0]);
    let of_channels = draft.channels.iter_mut().map(|channel| &mut channel[1]);
    let made = draft.nodes.iter_mut().filter(|node| node[0] == 3);
    let made = made.map(|node| &mut node[1]);
    for kind in carried.chain(of_channels).chain(made) {
        *kind += 16;
    }
    draft.kinds.splice(0..0, [[0]; 16]);
    for [sends, high_sends, receives, high_receives] in &mut draft.roles {
        (*high_sends, *high_receives) = (*sends, *receives);
        (*sends, *receives) = (!*sends, !*receives);
    }
    draft.bytes()
}

/// What is to become of a choice.
fn sort(rng: &mut Rng) -> Sort {
    match rng.below(10) {
        0 => Sort::Any,
        1 => Sort::Refused(*rng.of(&RARE)),
        2..=5 => Sort::Refused(*rng.of(&Halt::all())),
        _ => Sort::Done(*rng.of(&[0, 1, 2, 3, 4, 6, 6, 6, 6, 7, 8])),
    }
}

/// A state that a run through these choices comes to, often the last.
fn state_in(rng: &mut Rng, clinic: &Clinic, file: &[u8], choices: &[u16]) -> Lists {
    let all = choices.len() / 2;
    let done = if rng.once_in(3) {
        all
    } else {
        rng.below(all + 1)
    };
    let mut run = second::begin(file).expect("1 to 10 leave it clean");
    for &[thread, partner] in &choices.as_chunks().0[..done] {
        run.choose(thread, partner).expect("it is done");
    }
    clinic.with_rest(rng, run.threads(), run.made())
}

/// A choice in lists that fit the file. Then, for many, the lists are changed,
/// and for some the file.
fn changed(rng: &mut Rng, clinic: &Clinic, file: &[u8], mut lists: Lists, sort: Sort) -> Lent {
    let Lists { threads, beside } = &lists;
    let run = second::resume(file, threads, beside).expect("nothing is wrong with it");
    let choice = choice(rng, clinic, &run, sort);
    let mut aim = Aim {
        rng,
        clinic,
        lists: &mut lists,
    };
    let times = match aim.rng.below(20) {
        0..=9 => 0,
        10..=12 => {
            aim.one_word();
            0
        }
        13..=18 => 1,
        _ => 1 + aim.rng.below(3),
    };
    for _ in 0..times {
        let unfit = match aim.rng.below(10) {
            0..=1 => *aim.rng.of(&MISSED),
            2..=3 => *aim.rng.of(&OF_TOTALS),
            _ => *aim.rng.of(&Unfit::ALL),
        };
        aim.at(unfit);
    }
    let mut file = file.to_vec();
    match rng.below(30) {
        0..=1 => change::one_word(rng, &mut file),
        2 => change::any_bytes(rng, &mut file),
        3..=4 => file = with_wrong_junior(rng, &clinic.draft),
        _ => {}
    }
    Lent {
        file,
        lists,
        choice,
    }
}

/// A choice of this sort, if there is one, else any.
fn choice(rng: &mut Rng, clinic: &Clinic, run: &Run, sort: Sort) -> [u16; 2] {
    let nodes = &clinic.draft.nodes;
    let threads = run.threads().len();
    let next = threads as u16 + 1;
    let found = match sort {
        Sort::Any => None,
        Sort::Refused(Halt::ThreadAbove) => Some([next, 0]),
        Sort::Refused(halt) => refused(rng, run, nodes, halt),
        Sort::Done(6) => enabled(rng, run, nodes, Steer::Meet),
        Sort::Done(tag) => {
            let lone = |thread: &Thread| clinic.tag(thread) == tag;
            let found = rng.find(run.threads(), lone);
            found.map(|at| [at as u16 + 1, 0])
        }
    };
    let found = match found {
        None if rng.once_in(2) => enabled(rng, run, nodes, Steer::Any),
        found => found,
    };
    found.unwrap_or_else(|| any_choice(rng, threads))
}

/// Lists of any words, or of small ones, with counts that are mostly such as
/// can be.
fn of_any_words(rng: &mut Rng, file: Vec<u8>) -> Lent {
    let mut threads = Vec::new();
    threads.resize_with(RECORDS, || any_thread(rng));
    let mut beside = Vec::new();
    beside.resize_with(BESIDE, || rng.word());
    let most = *rng.of(&[1, 1, 2, 70]);
    beside[0] = rng.below(most + 1) as u16;
    beside[1] = rng.below(most + 1) as u16;
    if rng.once_in(2) {
        for thread in &mut threads {
            thread.user %= 4;
            thread.node %= 40;
            thread.mask %= 4;
            for value in &mut thread.variables {
                *value = *rng.of(&[0, 0, 0, 1, 257, 385]);
            }
        }
        for word in &mut beside[2..] {
            *word %= 4;
        }
    }
    if !rng.once_in(4) {
        beside[BEFORE_TOTALS..].fill(0);
    }
    if rng.once_in(10) {
        threads.truncate(rng.below(RECORDS));
    }
    if rng.once_in(10) {
        beside.truncate(rng.below(BESIDE));
    }
    Lent {
        file,
        lists: Lists { threads, beside },
        choice: any_choice(rng, 3),
    }
}

/// A largest file, with 64 threads that each have seven variables or eight, 64
/// made channels, and a send that is done.
pub fn full_lent(seed: u64) -> Lent {
    with_send(seed, |seed| largest(Version::One, seed), RECORDS, 7)
}

/// A file of 40 nodes, with a few threads and made channels, and a send that is
/// done.
pub fn typical_lent(seed: u64) -> Lent {
    with_send(seed, |seed| typical(Version::One, seed), 5, 1)
}

/// A file of this sort with so many threads and made channels, so many variables
/// to each thread at the least, and a send that is done. It is the first for
/// which these are found, from the seed on.
fn with_send(seed: u64, file: fn(u64) -> Vec<u8>, count: usize, least: usize) -> Lent {
    (seed..)
        .find_map(|seed| send_in(seed, file(seed), count, least))
        .expect("some file will do")
}

fn send_in(seed: u64, file: Vec<u8>, count: usize, least: usize) -> Option<Lent> {
    let clinic = Clinic::of(&file);
    let (lists, choice) = (0..100).find_map(|index| {
        let lists = clinic.crowd(&mut Rng::new(seed, index), count, least)?;
        let run = second::resume(&file, &lists.threads, &lists.beside);
        let (sender, receiver) = run.expect("nothing is wrong with it").ready();
        (sender != 0).then_some((lists, [sender, receiver]))
    })?;
    Some(Lent {
        file,
        lists,
        choice,
    })
}
