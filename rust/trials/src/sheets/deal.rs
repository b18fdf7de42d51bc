//! Files in a row, by index.

use crate::bare::{deal_bare, filled, full_bare, small_bare, typical_bare};
use crate::deal::deal;
use crate::rng::Rng;
use second::cases::records;
use second::draft::set_word;
use second::{Version, MOST_FILES};

/// Files in a row, and what follows them.
#[derive(Clone, Debug)]
pub struct Dealing {
    pub files: Vec<Vec<u8>>,
    /// No whole record, unless there are as many files as a sheet reads.
    pub rest: Vec<u8>,
    /// The numbers of the files in another order.
    order: Vec<usize>,
}

impl Dealing {
    /// All of it as it is lent.
    pub fn input(&self) -> Vec<u8> {
        [records(&self.files), self.rest.clone()].concat()
    }

    /// The files that are read.
    pub fn whole(&self) -> &[Vec<u8>] {
        &self.files[..self.files.len().min(MOST_FILES)]
    }

    /// The files in another order, if all of them are read.
    pub fn shuffled(&self) -> Option<Vec<u8>> {
        let files = self.order.iter().map(|&at| &self.files[at]);
        (self.files.len() <= MOST_FILES).then(|| records(files))
    }
}

/// Input `index` under `seed`.
pub fn deal_sheet(seed: u64, index: u64) -> Dealing {
    let rng = &mut Rng::new(seed.rotate_left(17), index);
    let files = match index % 12 {
        0 => many(rng),
        1 => Vec::new(),
        _ => {
            let count = 1 + rng.below(8);
            (0..count).map(|_| any(rng)).collect()
        }
    };
    let rest = rest(rng);
    let order = shuffle(rng, files.len());
    Dealing { files, rest, order }
}

/// Near as many files as a sheet reads, from a few that are small.
fn many(rng: &mut Rng) -> Vec<Vec<u8>> {
    let few: Vec<Vec<u8>> = (0..6).map(|_| small(rng)).collect();
    let any = MOST_FILES + rng.below(30);
    let count = *rng.of(&[999, 1_000, 1_001, 999, 1_000, 1_001, any]);
    (0..count).map(|_| rng.of(&few).clone()).collect()
}

/// A small file, mostly one that can be placed.
fn small(rng: &mut Rng) -> Vec<u8> {
    let version = *rng.of(&Version::ALL);
    match rng.below(6) {
        0 => Vec::new(),
        1 => filled(rng, 5),
        _ => {
            let nodes = rng.from(2, 14);
            small_bare(rng, version, nodes).bytes()
        }
    }
}

/// Any file of the trials, as far as a record goes.
fn any(rng: &mut Rng) -> Vec<u8> {
    let version = *rng.of(&Version::ALL);
    let mut file = match rng.below(10) {
        // A junior is wrong in version 2 alone.
        0 => deal(version, rng.number(), rng.number()),
        1 => deal(Version::Two, rng.number(), rng.number()),
        2..=6 => deal_bare(version, rng.number(), rng.number()).0,
        7 => third(rng),
        8 => Vec::new(),
        _ => small(rng),
    };
    file.truncate(u16::MAX.into());
    file
}

/// A file whose first word is 3, or another that names no version that is sure.
fn third(rng: &mut Rng) -> Vec<u8> {
    let nodes = rng.from(2, 14);
    let mut file = small_bare(rng, Version::Two, nodes).bytes();
    let first = *rng.of(&[3, 3, 3, 0, 4, 256 + 1]);
    set_word(&mut file, 0, first);
    file
}

/// What follows the files: mostly nothing, or the start of a record.
fn rest(rng: &mut Rng) -> Vec<u8> {
    let record = records([small(rng)]);
    match rng.below(8) {
        0 => vec![rng.word() as u8],
        1 if record.len() > 2 => record[..2].to_vec(),
        2 => record[..record.len() - 1].to_vec(),
        3 => {
            let length = rng.below(record.len());
            record[..length].to_vec()
        }
        4 => {
            // A length that runs over all that follows, whole records among it.
            let behind = records((0..3).map(|_| small(rng)));
            let more = rng.from(1, 300);
            let length = behind.len() as u16 + *rng.of(&[1, 1, 2, more]);
            [&length.to_le_bytes()[..], &behind].concat()
        }
        _ => Vec::new(),
    }
}

/// The numbers below `count` in any order.
fn shuffle(rng: &mut Rng, count: usize) -> Vec<usize> {
    let mut order: Vec<usize> = (0..count).collect();
    for at in (1..count).rev() {
        order.swap(at, rng.below(at + 1));
    }
    order
}

/// 1,000 typical files that can be placed, of both versions, and their records.
pub fn typical_sheet(seed: u64) -> (Vec<Vec<u8>>, Vec<u8>) {
    let files: Vec<Vec<u8>> = (0..MOST_FILES as u64)
        .map(|at| typical_bare(Version::ALL[at as usize % 2], seed + at % 50))
        .collect();
    let input = records(&files);
    (files, input)
}

/// 1,000 files of 32 sessions with forks, ten of them in turns, whose results have
/// 1,024 nodes, and their records.
pub fn full_sheet(seed: u64) -> (Vec<Vec<u8>>, Vec<u8>) {
    let ten: Vec<Vec<u8>> = (0..10).map(|more| full_bare(seed + more)).collect();
    let files: Vec<Vec<u8>> = ten.iter().cycle().take(MOST_FILES).cloned().collect();
    let input = records(&files);
    (files, input)
}
