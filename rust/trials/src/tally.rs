//! Counting answers by number and cause.

use crate::answers::{agreed, engine_check, engine_read};
use crate::columns::row_file;
use crate::deal::deal;
use crate::juniors;
use crate::trees::Trees;
use second::draft::Draft;
use second::{Cause, Refusal, Verdict, Version};
use std::collections::BTreeMap;

/// The least number of files for each cause, and for each of what juniors bring.
const LEAST: u64 = 500;

/// What has to come up in versions 2 and 3.
const OF_JUNIORS: [&str; 6] = [
    "6 at a later place than a 21",
    "6 at an earlier place than a 21",
    "21 where a 7 stands too",
    "11 of a role that is a junior of the user's",
    "13 lifted by a junior",
    "13 lifted by a chain of two",
];

/// How often each cause of refusal came up in files of a version; none is a file
/// that passes.
pub struct Tally {
    version: Version,
    by_cause: BTreeMap<Option<Cause>, u64>,
    of_juniors: BTreeMap<&'static str, u64>,
    /// The files whose first word names another version.
    others: u64,
}

impl Tally {
    fn new(version: Version) -> Tally {
        let causes = Cause::all().into_iter();
        let causes = causes.filter(|cause| cause.is_of(version)).map(Some);
        let counts = std::iter::once(None).chain(causes).map(|cause| (cause, 0));
        Tally {
            version,
            by_cause: counts.collect(),
            of_juniors: OF_JUNIORS.map(|what| (what, 0)).into(),
            others: 0,
        }
    }

    fn count(&mut self, file: &[u8]) {
        if Version::claimed(file) != self.version {
            self.others += 1;
            return;
        }
        let refusal = second::cause(file);
        let cause = refusal.map(|refusal| refusal.cause);
        let count = self.by_cause.get_mut(&cause);
        *count.expect("every cause is listed") += 1;
        if self.version.has_juniors() {
            self.count_juniors(file, refusal);
        }
    }

    /// Counts what else is wrong in a file that is refused, and what would be
    /// wrong without its juniors in one that passes.
    fn count_juniors(&mut self, file: &[u8], refusal: Option<Refusal>) {
        let Some(Refusal { cause, place }) = refusal else {
            let draft = Draft::of(file);
            let refused = |draft: Draft| second::check(&draft.bytes()).number == 13;
            self.note("13 lifted by a junior", refused(juniors::without(&draft)));
            let one_level = refused(juniors::of_one_level(&draft));
            self.note("13 lifted by a chain of two", one_level);
            return;
        };
        match cause.number() {
            6 => {
                let fault = juniors::lowest_fault(&Draft::of(file));
                let at = |will_do: fn(u16, u16) -> bool| fault.is_some_and(|at| will_do(at, place));
                self.note("6 at a later place than a 21", at(|at, place| at < place));
                self.note(
                    "6 at an earlier place than a 21",
                    at(|at, place| at > place),
                );
            }
            21 => {
                let without = juniors::without(&Draft::of(file));
                let Verdict { number, .. } = second::check(&without.bytes());
                self.note("21 where a 7 stands too", number == 7);
            }
            11 => {
                let draft = Draft::of(file);
                let at = usize::from(place) - 1;
                let assigned = Trees::of(&draft).nodes[at].assigned;
                let [_, role, _] = draft.nodes[at];
                let junior = juniors::reached(&draft, assigned) >> (role - 1) & 1 != 0;
                self.note("11 of a role that is a junior of the user's", junior);
            }
            _ => {}
        }
    }

    fn note(&mut self, what: &'static str, shown: bool) {
        *self.of_juniors.entry(what).or_default() += u64::from(shown);
    }

    /// Prints the table, and fails if something came up too seldom.
    pub fn demand(&self) {
        println!("version {}", self.version.number());
        let mut by_number = BTreeMap::<u16, u64>::new();
        for (cause, count) in &self.by_cause {
            let (number, name) = match cause {
                None => (0, "passes".to_string()),
                Some(cause) => (cause.number(), format!("{cause:?}")),
            };
            println!("{count:>9} {number:>3} {name}");
            *by_number.entry(number).or_default() += count;
        }
        for (number, count) in &by_number {
            println!("{count:>9} of {number}");
        }
        println!("{:>9} files", by_number.values().sum::<u64>());
        println!("{:>9} of another version", self.others);
        let rare: Vec<_> = self.by_cause.iter().filter(|(_, n)| **n < LEAST).collect();
        assert!(rare.is_empty(), "under {LEAST} files: {rare:?}");
        if self.version.has_juniors() {
            for (what, count) in &self.of_juniors {
                println!("{count:>9} {what}");
            }
            let rare = self.of_juniors.iter().find(|(_, n)| **n < LEAST);
            assert!(rare.is_none(), "under {LEAST} files: {rare:?}");
        }
    }
}

/// Deals `files` files of a version to both and panics at the first difference.
pub fn compare(version: Version, seed: u64, files: u64) -> Tally {
    let mut tally = Tally::new(version);
    for index in 0..files {
        let file = deal(version, seed, index);
        let origin = format_args!("trials::deal(Version::{version:?}, {seed}, {index})");
        let answer = agreed(&file, origin);
        if let Some(rows) = row_file(&file) {
            let by_row = (engine_read(&rows), engine_check(&rows));
            assert_eq!((engine_read(&file), answer), by_row, "by row: {origin}");
        }
        tally.count(&file);
    }
    tally
}
