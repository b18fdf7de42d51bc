//! The lists of the trials of totals, by index.

use crate::change;
use crate::deal::deal;
use crate::rng::Rng;
use crate::rounds::choices_of;
use crate::running::{deal_run, Dealt};
use crate::schedule::{any_choice, MOST_CHOICES};
use second::draft::Draft;
use second::{Version, RUN_ROOM};

const END: [u16; 3] = [0, 0, 0];
const REPEAT: [u16; 3] = [2, 0, 0];

/// The most variables on a path.
const VARIABLES: usize = 8;

/// List `index` under `seed`, with a file of this version; some damaged files have
/// another.
pub fn deal_totals(version: Version, seed: u64, index: u64) -> (Vec<u8>, Vec<u16>) {
    let rng = &mut Rng::new(seed.rotate_left(9), index);
    let (file, mut choices) = match rng.below(20) {
        0..=13 => {
            let file = lounge(rng, version).bytes();
            let choices = rounds(rng, &file);
            (file, choices)
        }
        14..=16 => {
            let Dealt { file, choices, .. } = deal_run(version, rng.number(), rng.number());
            (file, choices)
        }
        17 => {
            let mut file = lounge(rng, version).bytes();
            if rng.once_in(2) {
                change::one_word(rng, &mut file);
            } else {
                change::any_bytes(rng, &mut file);
            }
            let choices = rounds(rng, &file);
            (file, choices)
        }
        _ => {
            let file = deal(version, rng.number(), rng.number());
            let choices = rounds(rng, &file);
            (file, choices)
        }
    };
    change_list(rng, &mut choices);
    (file, choices)
}

/// The choices of a few rounds, or the first of them.
fn rounds(rng: &mut Rng, file: &[u8]) -> Vec<u16> {
    let mut choices = Vec::new();
    for _ in 0..rng.below(7) {
        let round = second::round(file, &choices, &mut [0; RUN_ROOM]);
        if choices_of(&round).is_empty() {
            break;
        }
        choices.extend(choices_of(&round).as_flattened());
    }
    if rng.once_in(2) {
        let left = rng.below(choices.len() / 2 + 1);
        choices.truncate(2 * left);
    }
    choices
}

/// Leaves most lists as they are. Others go on with any choices, are odd, or are
/// longer than can be.
fn change_list(rng: &mut Rng, choices: &mut Vec<u16>) {
    match rng.below(200) {
        0..=29 => choices.extend((0..3).flat_map(|_| any_choice(rng, 6))),
        30..=32 => choices.fill_with(|| rng.word()),
        33..=36 => choices.push(rng.word()),
        37..=38 => choices.resize(2 * MOST_CHOICES + 2 + rng.below(5), 1),
        39 => choices.resize(2 * MOST_CHOICES, 1),
        _ => {}
    }
}

/// A variable: the kind of its channel, 0 for a plain value, and whether it was made.
#[derive(Clone, Copy)]
struct Variable {
    kind: u16,
    made: bool,
}

/// A session on the way.
#[derive(Clone)]
struct Path {
    user: u16,
    variables: Vec<Variable>,
    forks: usize,
}

/// Sessions that mostly come to a receive with their next step, whatever it is, on
/// few channels and on such as they make. Role 1 may do everything; user 1 has both
/// roles and most channels. Some kinds carry channels of kind 1, such as channel 1.
fn lounge(rng: &mut Rng, version: Version) -> Draft {
    let kinds = *rng.of(&[1, 2, 2, 3, 4, 20, 32]);
    let all = (1u64 << kinds) - 1;
    let [low, high] = [all as u16, (all >> 16) as u16];
    let mut draft = Draft {
        users: vec![[3], [1]],
        roles: vec![[low, high, low, high], [0; 4]],
        juniors: version.has_juniors().then(|| vec![[0], [*rng.of(&[0, 1])]]),
        by_column: version == Version::Three,
        kinds: vec![[0]; kinds],
        channels: vec![[1, 1]],
        ..Draft::default()
    };
    for kind in &mut draft.kinds[1..] {
        *kind = [*rng.of(&[0, 0, 1])];
    }
    for _ in 0..rng.below(4) {
        let owner = *rng.of(&[1, 1, 1, 2]);
        draft.channels.push([owner, rng.from(1, kinds as u16)]);
    }
    for _ in 0..rng.from(1, 8) {
        let user = *rng.of(&[1, 1, 1, 2]);
        let mask = *rng.of(&[1, 1, 1, 0]);
        let root = draft.nodes.len() as u16 + 1;
        draft.sessions.push([user, mask, root]);
        let mut path = Path {
            user,
            variables: Vec::new(),
            forks: 2,
        };
        let steps = rng.below(7);
        grow(rng, &mut draft, &mut path, steps);
    }
    draft
}

/// A tree of about so many steps.
fn grow(rng: &mut Rng, draft: &mut Draft, path: &mut Path, steps: usize) {
    for left in (0..steps).rev() {
        match rng.below(16) {
            0..=3 => receive(rng, draft, path),
            4..=7 => send(rng, draft, path),
            8 => draft.nodes.push([4, 1, 1]),
            9 => draft.nodes.push([7, rng.from(1, 2), 0]),
            10 => draft.nodes.push([8, 1, 0]),
            11..=12 if path.variables.len() < VARIABLES => {
                let kind = rng.from(1, draft.kinds.len() as u16);
                draft.nodes.push([3, kind, 0]);
                path.variables.push(Variable { kind, made: true });
            }
            13 => draft.nodes.push(REPEAT),
            14..=15 if path.forks > 0 => {
                path.forks -= 1;
                let fork = draft.nodes.len();
                draft.nodes.push([1, 0, 0]);
                let first = rng.below(left + 1);
                branch(rng, draft, &mut path.clone(), first);
                draft.nodes[fork][1] = draft.nodes.len() as u16 + 1;
                return branch(rng, draft, path, left);
            }
            _ => {}
        }
        if !rng.once_in(3) {
            receive(rng, draft, path);
        }
    }
    draft.nodes.push(END);
}

/// A branch of a fork, which mostly begins with a receive.
fn branch(rng: &mut Rng, draft: &mut Draft, path: &mut Path, steps: usize) {
    if !rng.once_in(3) {
        receive(rng, draft, path);
    }
    grow(rng, draft, path, steps);
}

/// A receive on a channel of the user's or on one that was made, if there is one and
/// another variable can be bound.
fn receive(rng: &mut Rng, draft: &mut Draft, path: &mut Path) {
    if path.variables.len() == VARIABLES {
        return;
    }
    let made = rng.find(&path.variables, |variable| variable.made);
    let own = rng.find(&draft.channels, |&[owner, _]| owner == path.user);
    let (operand, kind) = match (made, own) {
        (Some(at), _) if rng.once_in(2) => (512 + at as u16, path.variables[at].kind),
        (_, Some(at)) => (257 + at as u16, draft.channels[at][1]),
        _ => return,
    };
    draft.nodes.push([5, operand, 0]);
    let [kind] = draft.kinds[usize::from(kind) - 1];
    path.variables.push(Variable { kind, made: false });
}

/// A send on any channel, of user 2 or of channel 1.
fn send(rng: &mut Rng, draft: &mut Draft, path: &mut Path) {
    let held = rng.find(&path.variables, |variable| variable.kind != 0);
    let (operand, kind) = match held {
        Some(at) if rng.once_in(3) => (512 + at as u16, path.variables[at].kind),
        _ => {
            let at = rng.below(draft.channels.len());
            (257 + at as u16, draft.channels[at][1])
        }
    };
    let value = match draft.kinds[usize::from(kind) - 1] {
        [0] => 2,
        _ => 257,
    };
    draft.nodes.push([6, operand, value]);
}
