//! Files and the lists in which they start.

use crate::choosing::{any_thread, Clinic, Sort};
use crate::deal::{deal, largest};
use crate::desk::{deal_desk, Use};
use crate::lists::Lists;
use crate::rng::Rng;
use second::{Version, BESIDE, RECORDS};

/// File `index` of this version under `seed`, sound or not, and what is lent with
/// it; some damaged files have another version.
pub fn deal_start(version: Version, seed: u64, index: u64) -> (Vec<u8>, Lists) {
    let rng = &mut Rng::new(seed.rotate_left(5), index);
    let file = match rng.below(30) {
        0 => largest(version, rng.number()),
        1..=9 => deal_desk(rng, version, Use::Any),
        _ => deal(version, rng.number(), index),
    };
    let mut lists = any_lists(rng, &file);
    if rng.once_in(6) {
        let records = other_length(rng, RECORDS, BESIDE);
        lists.threads.resize_with(records, || any_thread(rng));
    }
    if rng.once_in(6) {
        let words = other_length(rng, BESIDE, RECORDS);
        lists.beside.resize_with(words, || rng.word());
    }
    (file, lists)
}

/// Lists of full length that hold anything, often something that fits the file
/// if there is such a thing.
pub fn any_lists(rng: &mut Rng, file: &[u8]) -> Lists {
    let sound = second::begin(file).is_ok();
    if sound && rng.once_in(2) {
        return Clinic::of(file).lists_for(rng, Sort::Any);
    }
    let mut lists = Lists {
        threads: Vec::new(),
        beside: Vec::new(),
    };
    lists.threads.resize_with(RECORDS, || any_thread(rng));
    lists.beside.resize_with(BESIDE, || rng.word());
    if sound && rng.once_in(2) {
        // Records and channels that might count, by counts that can't be.
        lists.beside.truncate(2);
        let fitting = Clinic::of(file).with_rest(rng, &[], &[]);
        lists.threads = fitting.threads;
        lists.beside.extend(&fitting.beside[2..]);
    }
    lists
}

/// Another length than the right one: shorter, longer, that of the other list, or
/// that of the words before there were totals.
fn other_length(rng: &mut Rng, right: usize, other: usize) -> usize {
    let (few, many) = (rng.below(right), right + 1 + rng.below(300));
    *rng.of(&[
        few,
        few,
        many,
        0,
        130,
        right - 1,
        right + 1,
        2 * right,
        other,
    ])
}
