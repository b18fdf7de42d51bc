//! Counting starts by number and cause, and by what starts.

use crate::lists::Lists;
use second::draft::Draft;
use second::{is_of_file, Cause, Verdict, Version, BEFORE_TOTALS, BESIDE, RECORDS};
use std::collections::BTreeMap;

/// The least number of starts for each number and cause.
const LEAST_OF_EACH: u64 = 500;

/// What has to come up, and in how many starts.
const LEAST: [(&str, u64); 10] = [
    ("starts", 10_000),
    ("starts without sessions", 500),
    ("starts of 32 sessions", 500),
    ("starts in a role", 1_000),
    ("starts where the check refuses the file", 1_000),
    ("starts over a list that may be lent", 1_000),
    ("starts over one that may not", 1_000),
    ("1 to 10 before 18 at place 0", 1_000),
    ("starts at which threads wait", 1_000),
    ("starts over other totals", 1_000),
];

/// What came up over many starts of files of a version.
pub struct StartTally {
    version: Version,
    counts: BTreeMap<&'static str, u64>,
    by_number: BTreeMap<u16, u64>,
    by_cause: BTreeMap<Cause, u64>,
}

impl StartTally {
    pub(super) fn new(version: Version) -> StartTally {
        StartTally {
            version,
            counts: BTreeMap::new(),
            by_number: BTreeMap::new(),
            by_cause: BTreeMap::new(),
        }
    }

    fn note(&mut self, what: &'static str, shown: bool) {
        *self.counts.entry(what).or_default() += u64::from(shown);
    }

    pub(super) fn count(&mut self, file: &[u8], Lists { threads, beside }: &Lists) {
        if Version::claimed(file) != self.version {
            self.note("files of another version", true);
            return;
        }
        let refusal = second::cause_in_starting(file, threads, beside);
        let number = refusal.map_or(0, |refusal| refusal.cause.number());
        *self.by_number.entry(number).or_default() += 1;
        if let Some(refusal) = refusal {
            *self.by_cause.entry(refusal.cause).or_default() += 1;
            let sized = threads.len() == RECORDS && beside.len() == BESIDE;
            let before = is_of_file(number) && !sized;
            self.note("1 to 10 before 18 at place 0", before);
            return;
        }
        let sessions = Draft::of(file).sessions;
        self.note("starts", true);
        self.note("starts without sessions", sessions.is_empty());
        self.note("starts of 32 sessions", sessions.len() == 32);
        let in_role = sessions.iter().any(|[_, mask, _]| *mask != 0);
        self.note("starts in a role", in_role);
        let refused = second::check(file) != Verdict::CLEAN;
        self.note("starts where the check refuses the file", refused);
        let totals = second::totals(file, &[]).totals;
        let waiting = totals.iter().any(|total| *total != 0);
        self.note("starts at which threads wait", waiting);
        self.note(
            "starts over other totals",
            beside[BEFORE_TOTALS..] != totals,
        );
        let fits = second::resume(file, threads, beside).is_ok();
        self.note("starts over a list that may be lent", fits);
        self.note("starts over one that may not", !fits);
    }

    /// Prints the table, and fails if something came up too seldom.
    pub fn demand(&self) {
        println!("version {}", self.version.number());
        let of_number = |number| self.by_number.get(&number).copied().unwrap_or(0);
        let of_cause = |cause| self.by_cause.get(&cause).copied().unwrap_or(0);
        let of_count = |what| self.counts.get(what).copied().unwrap_or(0);
        for (number, count) in &self.by_number {
            println!("{count:>9} of {number}");
        }
        for cause in Cause::of_starting() {
            println!("{:>9} {:>3} {cause:?}", of_cause(cause), cause.number());
        }
        for (what, _) in LEAST {
            println!("{:>9} {what}", of_count(what));
        }
        println!("{:>9} calls", self.by_number.values().sum::<u64>());
        let others: &[u16] = match self.version {
            Version::One => &[2, 18],
            Version::Two | Version::Three => &[21, 18],
        };
        for &number in [1, 3, 4, 5, 6, 7, 8, 9, 10].iter().chain(others) {
            assert!(of_number(number) >= LEAST_OF_EACH, "too few of {number}");
        }
        for cause in Cause::of_starting() {
            assert!(of_cause(cause) >= LEAST_OF_EACH, "too few of {cause:?}");
        }
        for (what, least) in LEAST {
            assert!(of_count(what) >= least, "too few {what}");
        }
    }
}
