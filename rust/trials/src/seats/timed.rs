//! The runs with seats that are timed.

use crate::rng::Rng;
use crate::schedule::{largest_run, typical_run, MOST_CHOICES};
use second::draft::Draft;
use second::{Answer, SeatedRun, RECORDS};

const REPEAT: u16 = 2;
const RECEIVE: u16 = 5;
const SEND: u16 = 6;
const ON: u16 = 7;

/// A file, a list of choices, and a table of seats.
pub type SeatedList = (Vec<u8>, Vec<u16>, Vec<u16>);

/// How many sessions of the largest file are at work: a sender, its receiver, and so on.
const BUSY: u16 = 20;

/// The largest file, and as many choices as a list can have, with seven seats in the role
/// that ten sessions send in, and in that in which ten receive: the others wait.
pub fn largest_seated(seed: u64) -> SeatedList {
    let (file, _) = largest_run(seed);
    let mut seats = vec![0; Draft::of(&file).roles.len()];
    seats[..3].copy_from_slice(&[7, 7, 8]);
    let choices = busy_walk(seed, &file, &seats);
    (file, choices, seats)
}

/// In turns, new threads by the repeats of some senders and their receivers, as far as
/// there is room, and then what can be done.
fn busy_walk(seed: u64, file: &[u8], seats: &[u16]) -> Vec<u16> {
    let rng = &mut Rng::new(seed, 1);
    let nodes = Draft::of(file).nodes;
    let mut run = second::begin_seated(file, seats).expect("nothing is refused");
    let (mut choices, mut repeats, mut idle) = (Vec::new(), Vec::new(), 0);
    for _ in 0..100 * MOST_CHOICES {
        if choices.len() == 2 * MOST_CHOICES {
            break;
        }
        if idle > 200 && repeats.is_empty() {
            let room = (RECORDS - run.run().threads().len()) / 2;
            for _ in 0..rng.below(room + 1) {
                let sender = 1 + 2 * rng.from(0, BUSY / 2 - 1);
                repeats.extend([sender, sender + 1]);
            }
            idle = 0;
        }
        let choice = match repeats.pop() {
            Some(thread) => Some([thread, 0]),
            None => drawn(rng, &run, &nodes, false),
        };
        idle += 1;
        let Some([thread, partner]) = choice else {
            continue;
        };
        let answer = run.choose(thread, partner);
        if answer == Ok(Answer::Done) {
            idle = 0;
        }
        if answer.is_ok() {
            choices.extend([thread, partner]);
        }
    }
    choices
}

/// A file of 40 nodes and 40 choices, with one seat in each role.
pub fn typical_seated(seed: u64) -> SeatedList {
    let found = (seed..).find_map(|seed| {
        let (file, _) = typical_run(seed);
        let seats = vec![1; Draft::of(&file).roles.len()];
        second::begin_seated(&file, &seats).ok()?;
        let choices = walk(seed, &file, &seats, 40);
        let told = second::seats(&file, &choices, &seats);
        let will_do = choices.len() == 80 && (2..20).contains(&told.waited);
        will_do.then_some((file, choices, seats))
    });
    found.expect("some file will do")
}

/// Choices of any threads that are done or answered 26, at most so many.
fn walk(seed: u64, file: &[u8], seats: &[u16], most: usize) -> Vec<u16> {
    let rng = &mut Rng::new(seed, 1);
    let nodes = Draft::of(file).nodes;
    let mut run = second::begin_seated(file, seats).expect("nothing is refused");
    let mut choices = Vec::new();
    for _ in 0..100 * most {
        if choices.len() == 2 * most {
            break;
        }
        let choice = drawn(rng, &run, &nodes, true);
        let choice = choice.filter(|choice| run.choose(choice[0], choice[1]).is_ok());
        choices.extend(choice.into_iter().flatten());
    }
    choices
}

/// Any thread but one at a receive, or also at a repeat, with any partner where it sends.
fn drawn(rng: &mut Rng, run: &SeatedRun, nodes: &[[u16; 3]], repeats: bool) -> Option<[u16; 2]> {
    let threads = run.run().threads();
    if threads.is_empty() {
        return None;
    }
    let at = rng.below(threads.len());
    let partner = match nodes[usize::from(threads[at].node) - 1][0] {
        RECEIVE => return None,
        REPEAT if !repeats => return None,
        ON if !repeats && !rng.once_in(8) => return None,
        SEND => rng.below(threads.len()) as u16 + 1,
        _ => 0,
    };
    Some([at as u16 + 1, partner])
}
