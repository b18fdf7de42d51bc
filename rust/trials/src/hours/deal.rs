//! Files with tables of hours and minutes, by index.

use crate::bare::{deal_bare, filled, lively_bare};
use crate::deal::deal;
use crate::rng::Rng;
use second::draft::{word_at, Draft};
use second::{room_for, Cause, Version};

/// The minutes of a week.
const WEEK: u16 = 10_080;

const MOST_ROWS: usize = 64;

/// A file, a table of hours, and a minute.
#[derive(Clone, Debug)]
pub struct At {
    pub file: Vec<u8>,
    pub hours: Vec<u16>,
    pub minute: u16,
}

impl At {
    /// The whole rows of the table.
    pub fn rows(&self) -> &[[u16; 3]] {
        self.hours.as_chunks().0
    }

    /// All of it, to be had back.
    pub fn told(&self) -> String {
        let hex: String = self.file.iter().map(|byte| format!("{byte:02x}")).collect();
        format!(
            "minute {}, hours {:?}, on {} bytes, to be had back by `xxd -r -p`:\n{hex}",
            self.minute,
            &self.hours[..self.hours.len().min(3 * MOST_ROWS + 6)],
            self.file.len()
        )
    }
}

/// File `index` under `seed`, of one of these versions, with hours and a minute.
pub fn deal_at(versions: &[Version], seed: u64, index: u64) -> At {
    let rng = &mut Rng::new(seed.rotate_left(6), index);
    // So that each family of files comes up in all versions.
    let version = versions[(index / 27) as usize % versions.len()];
    // Some of the files in which on, off, send and receive ignore the active set.
    let of_roles = index / 27 * 27 + 8 + rng.number() % 4;
    let index = *rng.of(&[index, index, of_roles]);
    let file = deal(version, !seed, index);
    with_hours(rng, file)
}

/// The same with a file to be placed, and an output with what it holds beforehand.
pub fn deal_bare_at(versions: &[Version], seed: u64, index: u64) -> (At, Vec<u8>) {
    let rng = &mut Rng::new(seed.rotate_left(7), index);
    let version = versions[(index / 24) as usize % versions.len()];
    let (file, mut before) = match rng.below(3) {
        0 => {
            let mut draft = lively_bare(rng, version);
            grant_more(rng, &mut draft);
            let file = draft.bytes();
            let room = room_for(&file) + rng.below(2);
            (file, filled(rng, room))
        }
        _ => deal_bare(version, !seed, index),
    };
    if rng.once_in(20) {
        before.truncate(rng.below(room_for(&file)));
    }
    (with_hours(rng, file), before)
}

/// Lets one more role send and receive on each kind, so that another may be closed.
pub fn grant_more(rng: &mut Rng, draft: &mut Draft) {
    let roles = draft.roles.len();
    for kind in 0..draft.kinds.len() {
        for grant in [0, 2] {
            if roles > 0 {
                draft.roles[rng.below(roles)][grant + kind / 16] |= 1 << (kind % 16);
            }
        }
    }
}

/// A table for the file and a minute, mostly valid ones.
pub fn with_hours(rng: &mut Rng, file: Vec<u8>) -> At {
    let any = rng.from(0, WEEK - 1);
    let minute = *rng.of(&[any, any, any, 0, 420, WEEK - 1]);
    let mut rows = rows(rng, &file, minute);
    let mut at = At {
        file,
        hours: Vec::new(),
        minute,
    };
    // More often beside another refusal.
    let refused = second::read_names(&at.file).number != 0;
    let wrong = match rng.below(8) {
        0 => 1,
        1 => rng.below(3),
        2..=3 if refused => 1,
        _ => 0,
    };
    for _ in 0..wrong {
        let cause = *rng.of(&Cause::of_hours());
        aim(rng, &mut at, &mut rows, cause);
    }
    let part = std::mem::take(&mut at.hours);
    at.hours = [rows.as_flattened(), &part].concat();
    at
}

/// The roles that the rows speak of: all that the file has, those that no node puts
/// on, or the juniors among these.
fn roles_of(rng: &mut Rng, file: &[u8]) -> Vec<u16> {
    if second::read(file).number != 0 {
        let count = match file.len() {
            0..6 => 0,
            _ => word_at(file, 2).min(16),
        };
        return (1..=count).collect();
    }
    let draft = Draft::of(file);
    let all = 1..=draft.roles.len() as u16;
    let put_on = |role: u16| draft.nodes.iter().any(|node| node[..2] == [7, role]);
    let juniors = draft
        .juniors
        .iter()
        .flatten()
        .fold(0, |all, [mask]| all | mask);
    match rng.below(4) {
        0 => all.filter(|&role| !put_on(role)).collect(),
        1 if juniors != 0 => all
            .filter(|&role| !put_on(role) && juniors >> (role - 1) & 1 != 0)
            .collect(),
        _ => all.collect(),
    }
}

fn rows(rng: &mut Rng, file: &[u8], minute: u16) -> Vec<[u16; 3]> {
    let roles = roles_of(rng, file);
    if roles.is_empty() {
        return Vec::new();
    }
    let count = match rng.below(12) {
        0 => 0,
        1 => MOST_ROWS - rng.below(3),
        2..=3 => rng.below(20),
        _ => 1 + rng.below(4),
    };
    // Mostly closed, mostly open, or as it comes.
    let open = *rng.of(&[1, 1, 6, 3]);
    (0..count)
        .map(|_| {
            let role = *rng.of(&roles);
            let [first, end] = if rng.below(7) < open {
                open_at(rng, minute)
            } else {
                closed_at(rng, minute)
            };
            [role, first, end]
        })
        .collect()
}

/// A stretch with the minute in it.
fn open_at(rng: &mut Rng, minute: u16) -> [u16; 2] {
    let (before, behind) = (rng.from(0, minute), rng.from(minute + 1, WEEK));
    let first = *rng.of(&[before, before, minute, 0]);
    let end = *rng.of(&[behind, behind, minute + 1, WEEK]);
    [first, end]
}

/// A stretch without it, if there is one.
fn closed_at(rng: &mut Rng, minute: u16) -> [u16; 2] {
    let before = (minute > 0).then(|| {
        let first = rng.from(0, minute - 1);
        let end = rng.from(first + 1, minute);
        *rng.of(&[[first, end], [first, minute], [0, minute]])
    });
    let behind = (minute + 1 < WEEK).then(|| {
        let first = rng.from(minute + 1, WEEK - 1);
        let end = rng.from(first + 1, WEEK);
        *rng.of(&[[first, end], [minute + 1, end], [minute + 1, WEEK]])
    });
    match (before, behind) {
        (Some(one), Some(other)) => *rng.of(&[one, other]),
        (one, other) => one.or(other).expect("a week has two minutes"),
    }
}

/// Changes the table or the minute for a cause of 22 or 23. What is no whole row
/// goes to `at.hours`.
fn aim(rng: &mut Rng, at: &mut At, rows: &mut Vec<[u16; 3]>, cause: Cause) {
    let row = [rng.from(1, 3), 0, WEEK];
    match cause {
        Cause::MinuteAbove => {
            let any = rng.from(WEEK, u16::MAX);
            at.minute = *rng.of(&[WEEK, WEEK + 1, any, u16::MAX]);
        }
        Cause::PartOfRow => at.hours = row[..rng.from(1, 2).into()].to_vec(),
        Cause::TooManyRows => {
            let more = *rng.of(&[65, 65, 66, 128, 300, 22_000]);
            rows.resize(more, row);
        }
        _ => {
            if rows.is_empty() {
                rows.push(row);
            }
            let at = rng.index(rows.len());
            let above = rng.from(17, u16::MAX);
            let any = rng.word();
            let [role, first, end] = &mut rows[at];
            match cause {
                Cause::RowRoleZero => *role = 0,
                Cause::RowRoleAbove => *role = *rng.of(&[17, *role + 1, above, u16::MAX]),
                Cause::RowFirstNotBelow => *first = *rng.of(&[*end, *end, any.max(*end)]),
                _ => *end = *rng.of(&[WEEK + 1, u16::MAX, any.max(WEEK + 1)]),
            }
        }
    }
}
