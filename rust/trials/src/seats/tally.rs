//! Counting inputs with seats by number and cause, and by what happens in them.

use super::{Came, Seated, Told, Witness};
use second::draft::word_at;
use second::{Cause, Version, MOST_CHOICES, RUN_ROOM};
use std::collections::BTreeMap;

/// The least number of inputs in which each comes up.
const LEAST: u64 = 500;

/// What has to come up.
const DUE: [&str; 33] = [
    "got free",
    "got as head",
    "got as head, others behind",
    "none free",
    "free but another is head",
    "a second on while waiting",
    "seat held by a twin",
    "seat held by a twin, and a line",
    "kept after one twin's off",
    "kept after one twin's end",
    "freed by off",
    "freed by end",
    "a line of three",
    "a blocked line",
    "26 at the start",
    "26 at the start at a late session",
    "a role without limit taken",
    "a table one word short",
    "a table one word long",
    "33",
    "no roles",
    "no roles and a word",
    "no limits",
    "rounds with seats",
    "26 in a round",
    "got as head in a round",
    "a round of nothing but 26",
    "halted with a line",
    "halted behind a 26",
    "outputs under 1,800 bytes",
    "longer outputs",
    "odd lists",
    "refused by the file",
];

/// The least number of inputs for each number that is answered, and for what is seldom.
const LEAST_OF_NUMBER: u64 = 50;

/// What came up over many inputs of a version.
pub struct SeatTally {
    version: Version,
    by_number: BTreeMap<u16, u64>,
    counts: Came,
    /// Lists of the most choices, the last of them answered 26.
    longest: u64,
    inputs: u64,
}

impl SeatTally {
    pub(super) fn new(version: Version) -> SeatTally {
        SeatTally {
            version,
            by_number: BTreeMap::new(),
            counts: DUE.into_iter().map(|what| (what, 0)).collect(),
            longest: 0,
            inputs: 0,
        }
    }

    fn note(&mut self, what: &'static str, shown: bool) {
        *self.counts.entry(what).or_default() += u64::from(shown);
    }

    pub(super) fn count(&mut self, seated: &Seated, told: &Told, witness: Option<&Witness>) {
        let Seated { dealt, seats } = seated;
        let number = told.run.number;
        self.inputs += 1;
        *self.by_number.entry(number).or_default() += 1;
        let room = dealt.before.len();
        let refusal = second::cause_in_seated_run(&dealt.file, &dealt.choices, seats, room);
        let cause = refusal.map(|refusal| refusal.cause);
        let roles = match dealt.file.len() {
            6.. => usize::from(word_at(&dealt.file, 2)),
            _ => 0,
        };
        let short = cause == Some(Cause::SeatsShort);
        self.note("a table one word short", short && seats.len() + 1 == roles);
        let long = cause == Some(Cause::SeatsLong);
        self.note("a table one word long", long && seats.len() == roles + 1);
        self.note("no roles and a word", long && roles == 0);
        let above = cause == Some(Cause::SeatsAbove);
        self.note("33", above && seats.contains(&33));
        let start = cause == Some(Cause::StartOverfills);
        self.note("26 at the start", start);
        let late = start && told.run.place > 2;
        self.note("26 at the start at a late session", late);
        let little = cause == Some(Cause::OutputTooShort);
        self.note("outputs under 1,800 bytes", little);
        self.note("odd lists", cause == Some(Cause::OddChoices));
        let of_file = matches!(number, 1..=10 | 21);
        self.note("refused by the file", of_file);
        let Some(witness) = witness else {
            return;
        };
        self.note("longer outputs", room > RUN_ROOM);
        self.note("no roles", seats.is_empty());
        let free = !seats.is_empty() && seats.iter().all(|&seats| seats == 0);
        self.note("no limits", free);
        let mut taken = seats.iter().zip(&told.seats.taken);
        let taken = taken.any(|(&seats, &taken)| seats == 0 && taken > 0);
        self.note("a role without limit taken", taken);
        let line = told.seats.waiting.iter().any(|&waiting| waiting > 0);
        self.note("halted with a line", number != 0 && line);
        let behind = number != 0 && told.seats.last == 26;
        self.note("halted behind a 26", behind);
        for (&what, &count) in witness.came() {
            self.note(what, count > 0);
        }
        let full = number == 0 && dealt.choices.len() == 2 * MOST_CHOICES;
        self.longest += u64::from(full && told.seats.last == 26);
    }

    /// Prints the table, and fails if something came up too seldom.
    pub fn demand(&self) {
        println!("version {}", self.version.number());
        for (number, count) in &self.by_number {
            println!("{count:>9} of {number}");
        }
        for (what, count) in &self.counts {
            println!("{count:>9} {what}");
        }
        println!("{:>9} of 65,535 choices, the last 26", self.longest);
        println!("{:>9} inputs", self.inputs);
        let counts = self.counts.iter();
        let rare: Vec<_> = counts.filter(|(_, count)| **count < LEAST).collect();
        assert!(rare.is_empty(), "under {LEAST} of {rare:?}");
        let of_version = match self.version {
            Version::One => &[2][..],
            Version::Two | Version::Three => &[21],
        };
        let numbers = [
            0, 1, 3, 4, 5, 6, 7, 8, 9, 10, 11, 12, 13, 17, 18, 19, 20, 26,
        ];
        for number in numbers.iter().chain(of_version) {
            let count = self.by_number.get(number).copied().unwrap_or(0);
            assert!(count >= LEAST_OF_NUMBER, "too few of {number}");
        }
        assert!(self.longest > 0, "no list of 65,535 choices");
    }
}
