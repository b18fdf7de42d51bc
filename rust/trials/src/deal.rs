//! The files of the trials, by index.

use crate::aim;
use crate::change;
use crate::grow::{grow, Bent, Heed};
use crate::rng::Rng;
use crate::schema::{schema, Size};
use crate::wild::Wild;
use second::draft::Draft;
use second::{is_of_reading, Cause, Version};

/// How many families of files take turns.
const FAMILIES: u64 = 27;

/// File `index` of this version under `seed`; some damaged ones have another.
pub fn deal(version: Version, seed: u64, index: u64) -> Vec<u8> {
    let rng = &mut Rng::new(seed, index);
    match index % FAMILIES {
        0..=2 => any(rng, version, None).bytes(),
        3..=4 => any(rng, version, Some(Wild::Names)).bytes(),
        5..=7 => any(rng, version, Some(Wild::Kinds)).bytes(),
        8..=11 => any(rng, version, Some(Wild::Roles)).bytes(),
        12 => {
            let size = Size::lean(rng);
            sound(rng, version, size, None).bytes()
        }
        13..=15 => few_words(rng, version, 1),
        16 => {
            let times = 1 + rng.below(5);
            few_words(rng, version, times)
        }
        17..=18 => {
            let mut draft = any(rng, version, None);
            if rng.once_in(2) {
                change::any_fields(rng, &mut draft);
            } else {
                change::few_tags(rng, &mut draft);
            }
            draft.bytes()
        }
        19 => {
            let mut file = any(rng, version, None).bytes();
            change::any_bytes(rng, &mut file);
            file
        }
        20 if rng.once_in(3) => change::noise(rng, version),
        20 => {
            let mut draft = match rng.below(2) {
                0 => change::blank(rng, version),
                _ => any(rng, version, None),
            };
            change::any_words(rng, &mut draft);
            draft.bytes()
        }
        21 => {
            let causes = reading(version);
            let mut several: Vec<Cause> = (0..2 + rng.below(3)).map(|_| *rng.of(&causes)).collect();
            if version.has_juniors() && rng.once_in(2) {
                several = at_neighbours(rng, &causes);
            }
            aimed(rng, version, &several)
        }
        _ => {
            let cause = *rng.of(&reading(version));
            aimed(rng, version, &[cause])
        }
    }
}

/// The largest file, which passes the check.
pub fn largest(version: Version, seed: u64) -> Vec<u8> {
    usual(version, seed, Size::FULL)
}

/// A file of so many roles and nodes that passes the check, with 32 nodes to a
/// session and everything else at its largest.
pub fn sized(seed: u64, roles: u16, nodes: u16) -> Vec<u8> {
    usual(
        Version::One,
        seed,
        Size {
            roles,
            sessions: nodes / 32,
            nodes,
            ..Size::FULL
        },
    )
}

/// A file of 40 nodes that passes the check.
pub fn typical(version: Version, seed: u64) -> Vec<u8> {
    usual(version, seed, Size::TYPICAL)
}

fn usual(version: Version, seed: u64, size: Size) -> Vec<u8> {
    let rng = &mut Rng::new(seed, 0);
    let mut draft = schema(rng, version, size);
    grow(rng, &mut draft, size.nodes, Bent::USUAL, Heed::Active, None);
    draft.bytes()
}

fn sound(rng: &mut Rng, version: Version, size: Size, wild: Option<Wild>) -> Draft {
    let mut draft = schema(rng, version, size);
    let bent = Bent::any(rng);
    grow(rng, &mut draft, size.nodes, bent, Heed::Active, wild);
    draft
}

fn any(rng: &mut Rng, version: Version, wild: Option<Wild>) -> Draft {
    let size = Size::any(rng);
    sound(rng, version, size, wild)
}

fn few_words(rng: &mut Rng, version: Version, times: usize) -> Vec<u8> {
    let mut file = any(rng, version, None).bytes();
    for _ in 0..times {
        change::one_word(rng, &mut file);
    }
    file
}

/// The causes of 1 to 8.
fn reading(version: Version) -> Vec<Cause> {
    let mut causes = Cause::all();
    causes.retain(|cause| is_of_reading(cause.number()));
    causes.retain(|cause| cause.is_of(version) || *cause == Cause::Version);
    causes
}

/// A cause of 21 beside one of 6 or 7, or of both.
fn at_neighbours(rng: &mut Rng, causes: &[Cause]) -> Vec<Cause> {
    let mut of = |numbers: &[u16]| {
        let found = rng.find(causes, |cause| numbers.contains(&cause.number()));
        causes[found.expect("a cause of each number")]
    };
    let (junior, six, seven) = (of(&[21]), of(&[6]), of(&[7]));
    rng.of(&[
        [junior, six, six],
        [junior, seven, seven],
        [junior, six, seven],
    ])
    .to_vec()
}

/// A file in which all these causes are aimed at.
fn aimed(rng: &mut Rng, version: Version, causes: &[Cause]) -> Vec<u8> {
    let size = match rng.below(20) {
        0 => Size::FULL,
        1..=6 => Size::edge(rng),
        _ => Size::middle(rng),
    };
    let mut draft = sound(rng, version, size, None);
    for &cause in causes {
        aim::at_draft(rng, &mut draft, cause);
    }
    let mut file = draft.bytes();
    for &cause in causes {
        if file.len() >= 2 * Version::claimed(&file).header() {
            aim::at_bytes(rng, &mut file, cause);
        }
    }
    file
}
