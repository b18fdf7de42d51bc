//! Counting lent states by what was done to them, and what was answered.

use second::{Offers, Version};
use std::collections::BTreeMap;

/// The least number of states of each kind.
const LEAST: u64 = 10;

/// What has to come up, and the numbers with which it is answered.
const DUE: [(&str, &[u16]); 20] = [
    ("a seat more", &[17]),
    ("a session or a line", &[0, 18]),
    ("a state", &[0]),
    ("a word left out", &[18]),
    ("a word more", &[18]),
    ("a word of a made channel", &[0]),
    ("a word of a thread", &[0]),
    ("another count", &[18]),
    ("another file", &[0, 6, 8]),
    ("another mask alone", &[18]),
    ("another mask of as many roles", &[0]),
    ("another mask with its number", &[0, 18]),
    ("another number of roles", &[18]),
    ("any words", &[18]),
    ("many words of threads", &[0, 18]),
    ("other seats", &[0, 17, 18]),
    ("refused before the state", &[17, 26]),
    ("room for part of one more", &[0, 17]),
    ("room for so many", &[0, 17]),
    ("words are missing", &[18]),
];

/// What came up over many files of a version.
pub struct OfferTally {
    version: Version,
    counts: BTreeMap<(&'static str, u16), u64>,
    /// Searches to the end, and the states in them.
    searches: u64,
    states: usize,
    /// Offers that are steps alone, that are meetings, and that have to wait; and the most
    /// words of a state's offers.
    steps: u64,
    meetings: u64,
    waits: u64,
    most_words: usize,
    comparisons: u64,
}

impl OfferTally {
    pub(super) fn new(version: Version) -> OfferTally {
        OfferTally {
            version,
            counts: BTreeMap::new(),
            searches: 0,
            states: 0,
            steps: 0,
            meetings: 0,
            waits: 0,
            most_words: 0,
            comparisons: 0,
        }
    }

    pub(super) fn count(&mut self, kind: &'static str, answer: Offers) {
        *self.counts.entry((kind, answer.number)).or_default() += 1;
        self.comparisons += 1;
    }

    pub(super) fn note_search(&mut self, rows: usize) {
        self.searches += 1;
        self.states += rows;
    }

    pub(super) fn note_offers(&mut self, words: &[u16]) {
        self.most_words = self.most_words.max(words.len());
        let mut offers = words;
        while let [_, partner, answer, count, rest @ ..] = offers {
            match (partner, answer) {
                (0, 0) => self.steps += 1,
                (0, _) => self.waits += 1,
                (_, _) => self.meetings += 1,
            }
            offers = &rest[usize::from(*count)..];
        }
    }

    /// How many answers of both were compared.
    pub fn comparisons(&self) -> u64 {
        self.comparisons
    }

    /// Prints the table, and fails if something came up too seldom.
    pub fn demand(&self) {
        println!("version {}", self.version.number());
        for ((kind, number), count) in &self.counts {
            println!("{count:>9} {kind}: {number}");
        }
        println!("{:>9} searches, {} states", self.searches, self.states);
        println!(
            "{:>9} steps offered, {} meetings, {} waits; {} the most words",
            self.steps, self.meetings, self.waits, self.most_words
        );
        println!("{:>9} answers compared", self.comparisons);
        for (kind, numbers) in DUE {
            for &number in numbers {
                let count = self.counts.get(&(kind, number)).copied().unwrap_or(0);
                assert!(count >= LEAST, "{count} of {kind}: {number}");
            }
        }
        let known = |kind| DUE.iter().any(|(due, _)| *due == kind);
        assert!(self.counts.keys().all(|(kind, _)| known(*kind)));
        assert!(self.searches >= LEAST && self.waits >= LEAST && self.meetings >= LEAST);
    }
}
