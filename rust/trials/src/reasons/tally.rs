//! Counting reasons by why they have no sentence, and bytes by what was done to them.

use super::deal::Change;
use second::{Reason, Unsaid};
use std::collections::BTreeMap;

/// The least number of each.
const LEAST: u64 = 500;

/// How often each came up.
#[derive(Default)]
pub struct ReasonTally {
    unsaid: BTreeMap<Unsaid, u64>,
    numbers: BTreeMap<u16, u64>,
    counts: BTreeMap<u16, u64>,
    tags: BTreeMap<u16, u64>,
    digits: BTreeMap<usize, u64>,
}

impl ReasonTally {
    pub(super) fn count(&mut self, reason: Reason, unsaid: Option<Unsaid>) {
        if let Some(unsaid) = unsaid {
            *self.unsaid.entry(unsaid).or_default() += 1;
            return;
        }
        *self.numbers.entry(reason.number).or_default() += 1;
        *self.counts.entry(reason.counts).or_default() += 1;
        *self.tags.entry(reason.tag).or_default() += 1;
        let digits = match reason.place {
            0 => 0,
            place => place.to_string().len(),
        };
        *self.digits.entry(digits).or_default() += 1;
    }

    /// Prints the table, and fails if something came up too seldom.
    pub fn demand(&self) {
        demand("no sentence", &self.unsaid, Unsaid::ALL);
        demand("number", &self.numbers, 1..=28);
        demand("counts", &self.counts, 0..=6);
        demand("tag", &self.tags, 0..=9);
        demand("digits", &self.digits, 0..=5);
    }
}

/// How often each came up, with a yes and with a no.
#[derive(Default)]
pub struct ReadTally {
    by_change: BTreeMap<(Change, bool), u64>,
}

/// Of these changes another sentence can come.
const MAYBE: [Change; 4] = [
    Change::OtherDigit,
    Change::OtherMeaning,
    Change::OtherCounts,
    Change::OtherEnding,
];

impl ReadTally {
    pub(super) fn count(&mut self, change: Change, told: Reason) {
        let yes = told.number != 0;
        *self.by_change.entry((change, yes)).or_default() += 1;
    }

    /// Prints the table, and fails if something came up too seldom, or if the whole
    /// sentences are not those that are read.
    pub fn demand(&self) {
        let yes = MAYBE.iter().chain([&Change::None]);
        let yes = yes.map(|&change| (change, true));
        let no = Change::ALL.into_iter().filter(|&it| it != Change::None);
        let no = no.map(|change| (change, false));
        demand("bytes", &self.by_change, yes.chain(no));
        assert_eq!(self.by_change.get(&(Change::None, false)), None);
    }
}

fn demand<Key: Ord + std::fmt::Debug>(
    what: &str,
    counts: &BTreeMap<Key, u64>,
    due: impl IntoIterator<Item = Key>,
) {
    for (key, count) in counts {
        println!("{count:>9} {what}: {key:?}");
    }
    for key in due {
        let count = counts.get(&key).copied().unwrap_or(0);
        assert!(count >= LEAST, "{count} of {what}: {key:?}");
    }
}
