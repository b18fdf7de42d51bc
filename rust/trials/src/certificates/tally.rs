//! Counting certificates by what was done to them, and what was answered.

use super::Found;
use second::{Closing, Version};
use std::collections::BTreeMap;

/// The least number of certificates of each kind.
const LEAST: u64 = 10;

/// What has to come up, and the numbers with which it is answered.
const DUE: [(&str, &[u16]); 26] = [
    ("a number in next", &[18]),
    ("a row left out", &[18]),
    ("a row put in", &[18]),
    ("a row that isn't reached", &[18]),
    ("a row that stands elsewhere too", &[0]),
    ("a search that isn't at its end", &[18]),
    ("a seat less", &[17]),
    ("a seat more", &[17]),
    ("a state in two rows", &[0]),
    ("a word of a state", &[18]),
    ("a word of the start", &[18]),
    ("another file", &[0, 6, 8, 18]),
    ("found", &[0]),
    ("more numbers in next", &[0]),
    ("more words of states", &[0]),
    ("next cut short", &[18]),
    ("no next", &[18]),
    ("no places", &[17]),
    ("no states", &[18]),
    ("other seats", &[0, 17, 18]),
    ("places cut short", &[18]),
    ("refused before the rows", &[17, 26]),
    ("rows in another order", &[18]),
    ("rows swapped", &[18]),
    ("states cut short", &[18]),
    ("the place of a row", &[18]),
];

/// What came up over many files of a version.
pub struct CertificateTally {
    version: Version,
    counts: BTreeMap<(&'static str, u16), u64>,
    /// Certificates in which somebody waits for a seat, those with made channels, and those
    /// in which threads meet: a receiver behind its sender, and before it.
    waiting: u64,
    made: u64,
    meetings: [u64; 2],
    states: usize,
    most_states: usize,
    comparisons: u64,
}

impl CertificateTally {
    pub(super) fn new(version: Version) -> CertificateTally {
        CertificateTally {
            version,
            counts: BTreeMap::new(),
            waiting: 0,
            made: 0,
            meetings: [0; 2],
            states: 0,
            most_states: 0,
            comparisons: 0,
        }
    }

    pub(super) fn count(&mut self, kind: &'static str, answer: Closing) {
        *self.counts.entry((kind, answer.number)).or_default() += 1;
        self.comparisons += 1;
    }

    pub(super) fn note_states(&mut self, found: &Found, seats: &[u16]) {
        let rows = found.certificate.places.len();
        self.states += rows;
        self.most_states = self.most_states.max(rows);
        let lines = |row: &[u16]| {
            let before = 2 + 2 * usize::from(row[1]) + 13 * usize::from(row[0]);
            row.len() - before > seats.len()
        };
        self.waiting += u64::from((0..rows).any(|row| lines(found.row(row))));
        self.made += u64::from((0..rows).any(|row| found.row(row)[1] > 0));
        let mut choices = found.steps.iter().map(|(_, choice)| *choice);
        let [behind, before] = &mut self.meetings;
        *behind += u64::from(choices.clone().any(|[thread, partner]| partner > thread));
        *before += u64::from(choices.any(|[thread, partner]| (1..thread).contains(&partner)));
    }

    /// How many answers of both were compared.
    pub fn comparisons(&self) -> u64 {
        self.comparisons
    }

    /// Prints the table, and fails if something came up too seldom.
    pub fn demand(&self) {
        println!("version {}", self.version.number());
        for ((kind, number), count) in &self.counts {
            println!("{count:>9} {kind}: {number}");
        }
        println!("{:>9} with somebody in line", self.waiting);
        println!("{:>9} with made channels", self.made);
        let [behind, before] = self.meetings;
        println!("{behind:>9} with a receiver behind its sender, {before} before it");
        println!("{:>9} states, {} the most", self.states, self.most_states);
        println!("{:>9} answers compared", self.comparisons);
        for (kind, numbers) in DUE {
            for &number in numbers {
                let count = self.counts.get(&(kind, number)).copied().unwrap_or(0);
                assert!(count >= LEAST, "{count} of {kind}: {number}");
            }
        }
        let known = |kind| DUE.iter().any(|(due, _)| *due == kind);
        assert!(self.counts.keys().all(|(kind, _)| known(*kind)));
        assert!(self.waiting >= LEAST && self.made >= LEAST);
        assert!(self.meetings.iter().all(|meetings| *meetings >= LEAST));
        assert!(self.most_states > 200, "{} states", self.most_states);
    }
}
