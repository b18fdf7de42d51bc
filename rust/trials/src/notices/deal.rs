//! Two notices and a day, by index.

use crate::bare::filled;
use crate::deal::{deal, typical};
use crate::grow::{grow, Bent, Heed};
use crate::rng::Rng;
use crate::schema::{schema, Size};
use second::cases::notice;
use second::Version;

/// Two notices and a day.
#[derive(Clone, Debug)]
pub struct Notices {
    pub first: Vec<u8>,
    pub second: Vec<u8>,
    pub day: u16,
}

impl Notices {
    /// All of it, to be had back.
    pub fn told(&self) -> String {
        let hex = |bytes: &[u8]| -> String { bytes.iter().map(|b| format!("{b:02x}")).collect() };
        format!(
            "day {}, on {} and {} bytes, to be had back by `xxd -r -p`:\n{}\n\n{}",
            self.day,
            self.first.len(),
            self.second.len(),
            hex(&self.first),
            hex(&self.second)
        )
    }
}

/// Notices `index` under `seed`.
pub fn deal_notices(seed: u64, index: u64) -> Notices {
    let rng = &mut Rng::new(seed.rotate_left(16), index);
    let (begins, day) = days(rng);
    let mut both = begins.map(|begins| notice(begins, &sound(rng)));
    let wrong = match rng.below(12) {
        0..=3 => [true, false],
        4..=7 => [false, true],
        8 => [true, true],
        _ => [false, false],
    };
    for (notice, wrong) in both.iter_mut().zip(wrong) {
        if wrong {
            spoil(rng, notice);
        }
    }
    let [first, second] = both;
    Notices { first, second, day }
}

/// The first days of two notices, and a day that is mostly near them.
fn days(rng: &mut Rng) -> ([u16; 2], u16) {
    let any = rng.word();
    let one = *rng.of(&[
        0, 1, 255, 256, 9_801, 32_767, 32_768, 65_534, 65_535, any, any,
    ]);
    let (near, far) = (rng.from(0, 3), rng.word());
    let other = match rng.below(6) {
        0 | 1 => one,
        2 => one.saturating_add(near),
        3 => one.saturating_sub(near),
        4 => one.swap_bytes(),
        _ => far,
    };
    let (early, late) = (one.min(other), one.max(other));
    let day = match rng.below(9) {
        0 => early.saturating_sub(1),
        1 => early,
        2 => early.saturating_add(1),
        3 => late.saturating_sub(1),
        4 => late,
        5 => late.saturating_add(1),
        6 => rng.from(early, late),
        7 => rng.from(0, early),
        _ => rng.word(),
    };
    ([one, other], day)
}

/// A file that 1 to 10 leave clean; the check may refuse it.
fn sound(rng: &mut Rng) -> Vec<u8> {
    let version = *rng.of(&Version::ALL);
    let size = match rng.below(12) {
        0 => return Vec::new(),
        1 => Size::edge(rng),
        2..=5 => Size::middle(rng),
        _ => Size::lean(rng),
    };
    let mut draft = schema(rng, version, size);
    let bent = Bent::any(rng);
    grow(rng, &mut draft, size.nodes, bent, Heed::Active, None);
    draft.bytes()
}

/// Makes a notice one that is mostly unsound.
fn spoil(rng: &mut Rng, told: &mut Vec<u8>) {
    let begins = u16::from_le_bytes([told[0], told[1]]);
    match rng.below(36) {
        0..=1 => told.truncate(rng.below(4)),
        2 => {
            told.truncate(5);
            told.resize(5, 0);
            told[2..4].copy_from_slice(&rng.from(0, 2).to_le_bytes());
        }
        3 => {
            let length = rng.below(6);
            *told = filled(rng, length);
        }
        4..=6 => {
            let length = (told.len() - 4) as u16;
            let off = *rng.of(&[1, 1, 2, 256, u16::MAX, u16::MAX, u16::MAX - 1]);
            told[2..4].copy_from_slice(&length.wrapping_add(off).to_le_bytes());
        }
        7 => told.truncate(told.len() - 1),
        8 => told.push(rng.word() as u8),
        9 if rng.once_in(6) => told.resize(told.len() + 65_536, 0),
        9 => told[2..4].copy_from_slice(&rng.word().to_le_bytes()),
        10 => {
            // The length in words, and the whole notice's.
            let length = told.len() as u16;
            let wrong = *rng.of(&[length, (length - 4) / 2]);
            told[2..4].copy_from_slice(&wrong.to_le_bytes());
        }
        11..=12 => *told = notice(begins, &few_bytes(rng)),
        _ => {
            // A junior is wrong in version 2 alone.
            let version = *rng.of(&[Version::One, Version::Two, Version::Two]);
            let mut file = deal(version, rng.number(), rng.number());
            file.truncate(u16::MAX.into());
            *told = notice(begins, &file);
        }
    }
}

/// A file of 1 to 28 bytes.
fn few_bytes(rng: &mut Rng) -> Vec<u8> {
    let first = rng.from(0, 3);
    let length = rng.from(1, 28).into();
    let mut file = [&first.to_le_bytes()[..], &filled(rng, 26)].concat();
    file.truncate(length);
    file
}

/// Notices of two typical files, of which the second is in force on the day.
pub fn typical_notices(seed: u64) -> Notices {
    let [first, second] = [(9_801, Version::One), (9_831, Version::Two)]
        .map(|(begins, version)| notice(begins, &typical(version, seed)));
    Notices {
        first,
        second,
        day: 9_840,
    }
}
