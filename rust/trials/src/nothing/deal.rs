//! Files that hold next to nothing, with all that a call can be lent beside them.

use crate::bare::filled;
use crate::change;
use crate::choosing::any_thread;
use crate::hours::At;
use crate::lists::Lists;
use crate::rng::Rng;
use crate::running::Dealt;
use crate::schedule::{any_choice, MOST_CHOICES};
use second::cases::NOTHING;
use second::draft::{set_word, to_bytes, Draft};
use second::{room_for, BEFORE_ROUND, BEFORE_TOTALS, BESIDE, RECORDS, RUN_ROOM};

/// A file, with hours and a minute, an output to place in, a list of choices with an
/// output, and lists with a choice.
#[derive(Clone)]
pub struct Asked {
    pub at: At,
    pub before: Vec<u8>,
    pub dealt: Dealt,
    pub lists: Lists,
    pub choice: [u16; 2],
}

impl Asked {
    /// The same with another file.
    pub fn with_file(&self, file: &[u8]) -> Asked {
        let mut asked = self.clone();
        asked.at.file = file.to_vec();
        asked.dealt.file = file.to_vec();
        asked
    }
}

/// File `index` under `seed`: zero bytes, 1 to 25, the 26 of a version 1 file with
/// nothing in it, and files near that.
pub fn deal_asked(seed: u64, index: u64) -> Asked {
    let rng = &mut Rng::new(seed.rotate_left(13), index);
    let file = match rng.below(20) {
        0..=5 => vec![],
        6..=9 => to_bytes(&NOTHING),
        10..=13 => short(rng),
        _ => near(rng),
    };
    let room = room(rng, room_for(&file));
    let before = filled(rng, room);
    let run_room = self::room(rng, RUN_ROOM);
    Asked {
        at: At {
            hours: hours(rng),
            minute: minute(rng),
            file: file.clone(),
        },
        before,
        dealt: Dealt {
            file,
            choices: choices(rng),
            before: filled(rng, run_room),
        },
        lists: lists(rng),
        choice: any_choice(rng, 3),
    }
}

/// 1 to 25 bytes: of a sound file, of zeros, or any.
fn short(rng: &mut Rng) -> Vec<u8> {
    let mut file = match rng.below(4) {
        0 => vec![0; 25],
        1 => vec![2; 25],
        2 => filled(rng, 25),
        _ => to_bytes(&NOTHING),
    };
    file.truncate(*rng.of(&[1, 2, 24, 25, 25]));
    if rng.once_in(2) {
        file.truncate(rng.from(1, 25).into());
    }
    file
}

/// A file with a word more, less or other than the one with nothing in it, or with
/// a few records.
fn near(rng: &mut Rng) -> Vec<u8> {
    let mut file = match rng.below(8) {
        0 => second_with_nothing(),
        1 => few(rng).bytes(),
        _ => to_bytes(&NOTHING),
    };
    match rng.below(16) {
        0..=9 => other_word(rng, &mut file),
        10 => {
            let longer = file.len() + usize::from(rng.from(1, 5));
            file.resize(longer, 0);
        }
        11 => {
            let length = file.len();
            file.truncate(length - usize::from(rng.from(1, 2)));
        }
        12 => file = [vec![2, 0], filled(rng, 24)].concat(),
        13 => change::any_bytes(rng, &mut file),
        _ => {}
    }
    file
}

/// The version 2 file with all counts 0.
fn second_with_nothing() -> Vec<u8> {
    let juniors = Some(vec![]);
    let draft = Draft {
        juniors,
        ..Draft::default()
    };
    draft.bytes()
}

/// A user, maybe with a role, and maybe a session that ends.
fn few(rng: &mut Rng) -> Draft {
    let roles = rng.below(2);
    let mut draft = Draft {
        users: vec![[roles as u16]],
        roles: vec![[0; 4]; roles],
        ..Draft::default()
    };
    if rng.once_in(2) {
        draft.sessions.push([1, 0, 1]);
        draft.nodes.push([0, 0, 0]);
    }
    draft
}

/// Another word in the head of version 1: the version, a count, which may then be out
/// of range, or an offset.
fn other_word(rng: &mut Rng, file: &mut [u8]) {
    let at = rng.below(13);
    let any = rng.word();
    let word = match at {
        0 => *rng.of(&[0, 3, 256, any]),
        1..=6 => *rng.of(&[1, 1_025, 1_025, u16::MAX]),
        _ => *rng.of(&[0, 12, 14, 26, any]),
    };
    set_word(file, at, word);
}

/// Mostly as long as is wanted.
fn room(rng: &mut Rng, wanted: usize) -> usize {
    match rng.below(12) {
        0 => wanted - 1,
        1 => *rng.of(&[0, 1, 26, wanted / 2]),
        2..=3 => wanted + rng.below(100),
        _ => wanted,
    }
}

/// Mostly no rows; else a few, part of one, or too many.
fn hours(rng: &mut Rng) -> Vec<u16> {
    let mut rows = match rng.below(12) {
        0..=1 => vec![[*rng.of(&[0, 1, 1, 2, 17]), 0, 10_080]],
        2 => vec![[0, rng.word(), rng.word()]; rng.below(3)],
        3 => vec![[1, 0, 1]; 65 + rng.below(3)],
        _ => vec![],
    }
    .concat();
    if rng.once_in(12) {
        rows.extend([1, 1].iter().take(rng.below(2) + 1));
    }
    rows
}

fn minute(rng: &mut Rng) -> u16 {
    let (any, above) = (rng.from(0, 10_079), rng.from(10_080, u16::MAX));
    *rng.of(&[any, any, any, any, 0, 10_079, 10_079, 10_080, above])
}

/// Mostly none or few; else an odd number of words, or more than there can be.
fn choices(rng: &mut Rng) -> Vec<u16> {
    let mut choices: Vec<u16> = match rng.below(3) {
        0 => vec![],
        _ => (0..=rng.below(2))
            .flat_map(|_| any_choice(rng, 3))
            .collect(),
    };
    match rng.below(200) {
        0..=19 => choices.push(rng.word()),
        20..=27 => choices.resize(2 * MOST_CHOICES + 2, 1),
        28..=33 => choices.resize(2 * BEFORE_ROUND + 2, 1),
        34 => choices.resize(2 * BEFORE_ROUND, 1),
        35 => choices.resize(2 * MOST_CHOICES, 1),
        _ => {}
    }
    choices
}

/// Lists in which nothing counts, whatever they hold; or in which one thing does.
fn lists(rng: &mut Rng) -> Lists {
    let mut threads = vec![];
    threads.resize_with(RECORDS, || any_thread(rng));
    let mut beside = vec![];
    beside.resize_with(BESIDE, || rng.word());
    beside[..2].fill(0);
    beside[BEFORE_TOTALS..].fill(0);
    let few = rng.from(1, 64);
    match rng.below(18) {
        0 => {
            let records = *rng.of(&[0, 1, RECORDS - 1, RECORDS + 1, BESIDE]);
            threads.resize_with(records, || any_thread(rng));
        }
        1 => beside.resize(*rng.of(&[0, 2, 130, BESIDE - 1, BESIDE + 1]), 0),
        2 => beside[0] = rng.from(65, u16::MAX),
        3 => beside[1] = rng.from(65, u16::MAX),
        4 => beside[1..3].copy_from_slice(&[few, 0]),
        5 => beside[1..4].copy_from_slice(&[few, rng.from(1, 33), 1]),
        6 => (beside[0], threads[0].node) = (few, 0),
        7 => (beside[0], threads[0].node) = (few, rng.from(1, 1_025)),
        8 => beside[BEFORE_TOTALS + rng.below(32)] = rng.from(1, 64),
        _ => {}
    }
    Lists { threads, beside }
}
