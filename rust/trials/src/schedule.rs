//! Lists of choices for a file: mostly choices that can be done, up to a choice that is
//! to be refused.

use crate::deal::typical;
use crate::desk::{busy_desk, crowded_desk, fill_up};
use crate::rng::Rng;
use crate::running::sends_in;
use second::draft::Draft;
use second::{Halt, Run, Version, RECORDS};

/// The most choices of a list.
pub const MOST_CHOICES: usize = 65_535;

const RECEIVE: u16 = 5;
const SEND: u16 = 6;

/// Which of the choices that would be done are preferred.
#[derive(Clone, Copy)]
pub enum Steer {
    /// None.
    Any,
    /// Sends.
    Meet,
    /// Those that add threads.
    Grow,
    /// Those that make channels.
    Make,
    /// All but repeats.
    Drain,
}

impl Steer {
    fn weight(self, tag: u16, threads: usize) -> usize {
        match (self, tag) {
            (Steer::Any, 0) => 1,
            (Steer::Any, _) => 2,
            (Steer::Meet, SEND) => 40,
            (Steer::Meet, 0 | 2) => 1,
            (Steer::Meet, _) => 8,
            (Steer::Grow, 1 | 2) => 60,
            (Steer::Grow, 0) => 1,
            (Steer::Grow, _) => 6,
            (Steer::Make, 3) => 100,
            (Steer::Make, 1 | 2) if threads > 50 => 1,
            (Steer::Make, _) => 10,
            (Steer::Drain, 2) => 0,
            (Steer::Drain, _) => 1,
        }
    }
}

/// What a list of choices is to come to.
#[derive(Clone, Copy)]
pub struct Goal {
    pub steer: Steer,
    /// The most choices before the list ends, or is refused.
    pub most: usize,
    /// Why the last of them is refused, if it can be brought about.
    pub halt: Option<Halt>,
}

impl Goal {
    /// A goal that may well come to this halt.
    pub fn of(rng: &mut Rng, halt: Option<Halt>) -> Goal {
        let (steer, most) = match halt {
            Some(Halt::ThreadsFullAtFork | Halt::ThreadsFullAtRepeat) => (Steer::Grow, 200),
            Some(Halt::ChannelsFull) => (Steer::Make, 400),
            _ => {
                let any = [
                    Steer::Any,
                    Steer::Meet,
                    Steer::Meet,
                    Steer::Grow,
                    Steer::Make,
                ];
                let most = *rng.of(&[10, 30, 60, 60, 150]);
                (*rng.of(&any), rng.below(most + 1))
            }
        };
        Goal { steer, most, halt }
    }
}

/// Why a choice would be refused, if it would.
pub fn halt_of(run: &Run, [thread, partner]: [u16; 2]) -> Option<Halt> {
    run.clone().choose(thread, partner).err()
}

/// The tag of each thread's node.
fn tags(run: &Run, nodes: &[[u16; 3]]) -> Vec<u16> {
    let tag = |thread: &second::Thread| nodes[usize::from(thread.node) - 1][0];
    run.threads().iter().map(tag).collect()
}

/// Threads of the tag, by their numbers.
fn of_tag(tags: &[u16], tag: u16) -> Vec<u16> {
    (1..)
        .zip(tags)
        .filter(|(_, found)| **found == tag)
        .map(|(number, _)| number)
        .collect()
}

/// A choice that would be done, if there is one.
pub fn enabled(rng: &mut Rng, run: &Run, nodes: &[[u16; 3]], steer: Steer) -> Option<[u16; 2]> {
    let tags = tags(run, nodes);
    let receivers = of_tag(&tags, RECEIVE);
    let mut found = Vec::new();
    let mut sum = 0;
    for (thread, &tag) in (1..).zip(&tags) {
        let partners = if tag == SEND { &receivers[..] } else { &[0] };
        for &partner in partners {
            if halt_of(run, [thread, partner]).is_none() {
                sum += steer.weight(tag, tags.len());
                found.push(([thread, partner], sum));
            }
        }
    }
    let drawn = rng.below(sum.max(1));
    let drawn = found.into_iter().find(|(_, up_to)| drawn < *up_to);
    drawn.map(|(choice, _)| choice)
}

/// A choice that is refused for this cause now, if one is found.
pub fn refused(rng: &mut Rng, run: &Run, nodes: &[[u16; 3]], due: Halt) -> Option<[u16; 2]> {
    let tags = tags(run, nodes);
    let mut found: Vec<[u16; 2]> = (0..20).map(|_| any_choice(rng, tags.len())).collect();
    match due {
        Halt::SenderNotAllowed | Halt::ReceiverNotAllowed | Halt::ChannelsDiffer => {
            let receivers = of_tag(&tags, RECEIVE);
            for sender in of_tag(&tags, SEND) {
                found.extend(receivers.iter().map(|&receiver| [sender, receiver]));
            }
        }
        Halt::PartnerOfLone { .. } | Halt::SendPartnerAbove | Halt::PartnerNotReceiving { .. } => {
            for thread in 1..=tags.len() as u16 {
                let [_, partner] = any_choice(rng, tags.len());
                found.extend([[thread, partner], [thread, thread]]);
                found.push([thread, tags.len() as u16 + 1]);
            }
        }
        _ => found.extend((1..=tags.len() as u16).map(|thread| [thread, 0])),
    }
    let at = rng.find(&found, |&choice| halt_of(run, choice) == Some(due))?;
    Some(found[at])
}

/// A choice of any words, near the numbers of so many threads.
pub fn any_choice(rng: &mut Rng, threads: usize) -> [u16; 2] {
    let most = threads as u16;
    let mut number = || match rng.below(12) {
        0 => 0,
        1 => most + 1,
        2 => rng.word(),
        3 => *rng.of(&[64, 65, u16::MAX, 256 + most.min(1)]),
        _ => rng.from(most.min(1), most),
    };
    [number(), number()]
}

/// Choices from the file's start that can be done, as many as the goal wants, then one
/// that is refused as it wants, if there is such a one.
pub fn schedule(rng: &mut Rng, file: &[u8], goal: Goal) -> Vec<u16> {
    let mut choices = Vec::new();
    let Ok(mut run) = second::begin(file) else {
        choices.resize_with(2 * rng.below(20), || rng.word());
        return choices;
    };
    let nodes = Draft::of(file).nodes;
    for left in (0..=goal.most).rev() {
        if let Some(halt) = goal.halt.filter(|_| left == 0 || rng.once_in(4)) {
            if let Some(choice) = refused(rng, &run, &nodes, halt) {
                choices.extend(choice);
                break;
            }
        }
        let ready = run.ready();
        let choice = if ready != (0, 0) && rng.once_in(4) {
            Some([ready.0, ready.1])
        } else {
            enabled(rng, &run, &nodes, goal.steer)
        };
        let Some(choice) = choice.filter(|_| left > 0) else {
            break;
        };
        run.choose(choice[0], choice[1]).expect("it is done");
        choices.extend(choice);
    }
    choices
}

/// A busy file, and as many choices as a list can have, which are all done.
pub fn busy(seed: u64) -> (Vec<u8>, Vec<u16>) {
    let draft = busy_desk();
    let sessions = draft.sessions.len();
    (draft.bytes(), busy_choices(seed, &draft, sessions))
}

/// The same with every count of the file at its largest.
pub fn largest_run(seed: u64) -> (Vec<u8>, Vec<u16>) {
    let mut draft = busy_desk();
    let sessions = draft.sessions.len();
    fill_up(&mut draft);
    (draft.bytes(), busy_choices(seed, &draft, sessions))
}

/// As many choices as a list can have, for a file whose first sessions are those
/// of a busy one, while the others do nothing: in turns, new threads by the
/// repeats, and then all that these can do.
fn busy_choices(seed: u64, draft: &Draft, busy: usize) -> Vec<u16> {
    let rng = &mut Rng::new(seed, 0);
    let file = draft.bytes();
    let mut run = second::begin(&file).expect("1 to 10 leave it clean");
    let most_pairs = (RECORDS - draft.sessions.len()) / 2;
    let mut repeats = Vec::new();
    let mut choices = Vec::new();
    while choices.len() < 2 * MOST_CHOICES {
        let choice = match enabled(rng, &run, &draft.nodes, Steer::Drain) {
            Some(choice) if repeats.is_empty() => choice,
            _ => match repeats.pop() {
                Some(thread) => [thread, 0],
                None => {
                    // A sender and its receiver, several times.
                    for _ in 0..1 + rng.below(most_pairs) {
                        let sender = 1 + 2 * rng.from(0, busy as u16 / 2 - 1);
                        repeats.extend([sender, sender + 1]);
                    }
                    continue;
                }
            },
        };
        run.choose(choice[0], choice[1]).expect("it is done");
        choices.extend(choice);
    }
    choices
}

/// A file of 40 nodes, and 40 choices that are all done, several of them sends.
/// It is the first for which these are found, from the seed on.
pub fn typical_run(seed: u64) -> (Vec<u8>, Vec<u16>) {
    let goal = Goal {
        steer: Steer::Meet,
        most: 40,
        halt: None,
    };
    let found = (seed..).find_map(|seed| {
        let file = typical(Version::One, seed);
        let choices = schedule(&mut Rng::new(seed, 0), &file, goal);
        let will_do = choices.len() == 80 && sends_in(&file, &choices) >= 4;
        will_do.then_some((file, choices))
    });
    found.expect("some file will do")
}

/// A file, and choices that lead to 64 threads of which no two can meet.
pub fn crowded() -> (Vec<u8>, Vec<u16>) {
    let choices = (1..=32).flat_map(|thread| [thread, 0]).collect();
    (crowded_desk().bytes(), choices)
}
