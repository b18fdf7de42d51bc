//! Counting parts by what was done to them, and what was answered.

use crate::certificates::Found;
use second::{Closing, Version};
use std::collections::BTreeMap;

/// The least number of parts of each kind.
const LEAST: u64 = 10;

/// What has to come up, and the numbers with which it is answered.
const DUE: [(&str, &[u16]); 22] = [
    ("a bound that isn't there", &[17]),
    ("a number in next", &[18]),
    ("a number of another part", &[0]),
    ("a number that another part knows rows by", &[0, 18]),
    ("a part of a search that isn't at its end", &[0]),
    ("a part of what is found", &[0]),
    ("a row by itself", &[0]),
    ("a seat more", &[17]),
    ("a word of a state elsewhere", &[0]),
    ("a word of a state of the part alone", &[0, 18]),
    ("a word of a state that is come to", &[18]),
    ("another bound", &[0, 18]),
    ("another file", &[0, 6, 8, 18]),
    ("fewer numbers", &[0, 17]),
    ("fewer places", &[0, 17, 18]),
    ("fewer words", &[0, 18]),
    ("other seats", &[0, 17, 18]),
    ("refused before the rows", &[17, 26]),
    ("states in two rows", &[0]),
    ("the place of a state elsewhere", &[0]),
    ("the place of a state of the part alone", &[0, 18]),
    ("the place of a state that is come to", &[18]),
];

/// What came up over many files of a version.
pub struct PartTally {
    version: Version,
    counts: BTreeMap<(&'static str, u16), u64>,
    /// Certificates by how many parts they were cut into, and their rows.
    chains: BTreeMap<usize, u64>,
    rows: usize,
    comparisons: u64,
}

impl PartTally {
    pub(super) fn new(version: Version) -> PartTally {
        PartTally {
            version,
            counts: BTreeMap::new(),
            chains: BTreeMap::new(),
            rows: 0,
            comparisons: 0,
        }
    }

    pub(super) fn count(&mut self, kind: &'static str, answer: Closing) {
        *self.counts.entry((kind, answer.number)).or_default() += 1;
        self.comparisons += 1;
    }

    pub(super) fn note(&mut self, found: &Found, parts: usize) {
        *self.chains.entry(parts).or_default() += 1;
        self.rows += found.done;
    }

    /// How many answers of both were compared.
    pub fn comparisons(&self) -> u64 {
        self.comparisons
    }

    /// Prints the table, and fails if something came up too seldom.
    pub fn demand(&self) {
        println!("version {}", self.version.number());
        for ((kind, number), count) in &self.counts {
            println!("{count:>9} {kind}: {number}");
        }
        for (parts, count) in &self.chains {
            println!("{count:>9} in {parts} parts");
        }
        println!("{:>9} rows", self.rows);
        println!("{:>9} answers compared", self.comparisons);
        for (kind, numbers) in DUE {
            for &number in numbers {
                let count = self.counts.get(&(kind, number)).copied().unwrap_or(0);
                assert!(count >= LEAST, "{count} of {kind}: {number}");
            }
        }
        let known = |kind| DUE.iter().any(|(due, _)| *due == kind);
        assert!(self.counts.keys().all(|(kind, _)| known(*kind)));
        for parts in 1..=5 {
            let count = self.chains.get(&parts).copied().unwrap_or(0);
            assert!(count >= LEAST, "{count} in {parts} parts");
        }
    }
}
