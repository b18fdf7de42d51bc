//! Files to be turned, by index.

use crate::aim;
use crate::bare::filled;
use crate::change;
use crate::deal::deal;
use crate::grow::{grow, Bent, Heed};
use crate::rng::Rng;
use crate::schema::{schema, Size};
use second::cases::Turn;
use second::draft::Draft;
use second::{Cause, Section, Version, TURNED_ROOM};

/// A file, which way it is to be turned, and an output with what it holds beforehand.
#[derive(Clone)]
pub struct Turned {
    pub turn: Turn,
    pub file: Vec<u8>,
    pub before: Vec<u8>,
}

/// File `index` under `seed`: sound and damaged ones, mostly of the version that is
/// turned.
pub fn deal_turn(seed: u64, index: u64) -> Turned {
    let rng = &mut Rng::new(seed.rotate_left(14), index);
    let turn = Turn::ALL[(index % 2) as usize];
    let version = turn.from();
    let file = match rng.below(24) {
        0..=5 => deal(version, rng.number(), rng.number()),
        6..=8 => any_nodes(rng, version),
        9 => deal(*rng.of(&Version::ALL), rng.number(), rng.number()),
        10 if rng.once_in(2) => vec![],
        10 => change::noise(rng, version),
        11 => {
            let mut file = sound(rng, version).bytes();
            change::any_bytes(rng, &mut file);
            file
        }
        12 => {
            let causes = [(); 2].map(|()| *rng.of(&causes(version)));
            aimed(rng, version, &causes)
        }
        // Another version, and mostly something else.
        13 => {
            let other = Cause::OtherVersion(*rng.of(&Version::ALL));
            let short = *rng.of(&[Cause::Short, Cause::Odd, Cause::ShortForSecond]);
            let any = *rng.of(&causes(version));
            let second = *rng.of(&[short, any]);
            aimed(rng, version, &[other, second])
        }
        _ => {
            let cause = *rng.of(&causes(version));
            aimed(rng, version, &[cause])
        }
    };
    let room = room(rng, file.len());
    Turned {
        turn,
        before: filled(rng, room),
        file,
    }
}

/// The causes for which a file of this version, or of another, isn't turned.
pub fn causes(version: Version) -> Vec<Cause> {
    let mut causes = Cause::all();
    causes.retain(|cause| matches!(cause.number(), 1..=5));
    let others = Version::ALL.into_iter().filter(|other| *other != version);
    causes.extend(others.map(Cause::OtherVersion));
    causes
}

fn sound(rng: &mut Rng, version: Version) -> Draft {
    let size = match rng.below(8) {
        0 => Size::FULL,
        1 => Size::edge(rng),
        _ => Size::middle(rng),
    };
    let mut draft = schema(rng, version, size);
    let bent = Bent::any(rng);
    grow(rng, &mut draft, size.nodes, bent, Heed::Active, None);
    draft
}

/// Nodes of any words, often as few or as many as can be: only the head is judged.
fn any_nodes(rng: &mut Rng, version: Version) -> Vec<u8> {
    let mut draft = sound(rng, version);
    let most = Section::Nodes.most();
    let (any, few) = (rng.from(0, most), rng.from(2, 9));
    let count = *rng.of(&[0, 1, 1, most, few, any]);
    draft.nodes = (0..count).map(|_| [(); 3].map(|()| rng.word())).collect();
    draft.bytes()
}

/// A file in which all these causes are aimed at.
fn aimed(rng: &mut Rng, version: Version, causes: &[Cause]) -> Vec<u8> {
    let mut draft = sound(rng, version);
    for cause in causes {
        if let &Cause::OtherVersion(other) = cause {
            draft.by_column = other == Version::Three;
            draft.juniors = match other.has_juniors() {
                true => Some(vec![[0]; draft.roles.len()]),
                false => None,
            };
        }
    }
    let mut file = draft.bytes();
    for &cause in causes {
        if file.len() >= 2 * Version::claimed(&file).header() {
            aim::at_bytes(rng, &mut file, cause);
        }
    }
    file
}

/// The length of an output: mostly just long enough.
fn room(rng: &mut Rng, length: usize) -> usize {
    match rng.below(40) {
        0 => TURNED_ROOM - 1,
        1 => *rng.of(&[0, length.min(TURNED_ROOM - 1), 6_874]),
        2 => rng.below(TURNED_ROOM),
        3..=8 => TURNED_ROOM + 1 + rng.below(300),
        9 => *rng.of(&[65_536, 65_536 + TURNED_ROOM]),
        _ => TURNED_ROOM,
    }
}
