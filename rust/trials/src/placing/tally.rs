//! Counting placed files by number and cause, and by what they show.

use crate::states::{self, greedy, on_steps};
use crate::trees::Trees;
use crate::{former, juniors};
use second::draft::Draft;
use second::{Cause, Placed, Section, Version, ROOM};
use std::collections::BTreeMap;

const MOST_NODES: usize = Section::Nodes.most() as usize;

/// The least number of files for each cause that placing alone has.
const LEAST_OF_CAUSE: u64 = 500;

/// What has to come up in files of either version, and how often: placed with
/// fewer on steps than the lowest permitting role gives, step by step, and than if
/// the role that is on is kept if it permits; placed in exactly 1,024 nodes, in
/// all the bytes of the largest file, and in an output that is longer than need
/// be; and what comes of counting idle nodes before the smallest list.
const LEAST: [(&str, u64); 10] = [
    ("better than greedy", 1_000),
    ("better than staying", 1_000),
    ("in 1,024 nodes", 1_000),
    ("in the bytes of the largest file", 100),
    ("in a longer output", 1_000),
    ("other states than by the former rule", 1_000),
    ("longer than by the former rule", 500),
    ("shorter than by the former rule", 500),
    ("16 by this rule alone", 500),
    ("16 by the former rule alone", 500),
];

/// What has to come up in versions 2 and 3, and how often. One byte is that of the
/// version's number. A chain of two counts where
/// the juniors of juniors make a difference.
const LEAST_OF_JUNIORS: [(&str, u64); 7] = [
    ("17, though version 1 would have room", 500),
    ("one byte, in an output between the two rooms", 500),
    ("with a junior word that isn't 0", 10_000),
    ("15 lifted by a junior", 500),
    ("15 lifted by a chain of two", 500),
    ("on steps saved by a junior", 500),
    ("on steps saved by a chain of two", 500),
];

/// What came up over many files of a version.
pub struct PlaceTally {
    version: Version,
    files: u64,
    placed: u64,
    counts: BTreeMap<&'static str, u64>,
    by_number: BTreeMap<u16, u64>,
    by_cause: BTreeMap<Cause, u64>,
    /// The files whose first word names another version.
    others: u64,
}

/// The on steps of a file; `None` if it is not placed.
fn fewest(draft: &Draft) -> Option<u16> {
    let placed = second::place(&draft.bytes(), &mut [0; ROOM]);
    (placed.number == 0).then_some(placed.on_steps)
}

/// What a file that has a placement becomes by the former rule, however large.
fn former_placed(draft: &Draft) -> Draft {
    let trees = Trees::of(draft);
    states::placed(draft, &trees, &former::states(&trees))
}

impl PlaceTally {
    pub(super) fn new(version: Version) -> PlaceTally {
        PlaceTally {
            version,
            files: 0,
            placed: 0,
            counts: BTreeMap::new(),
            by_number: BTreeMap::new(),
            by_cause: BTreeMap::new(),
            others: 0,
        }
    }

    fn note(&mut self, what: &'static str, shown: bool) {
        *self.counts.entry(what).or_default() += u64::from(shown);
    }

    pub(super) fn count(&mut self, file: &[u8], placed: Placed, out: &[u8]) {
        let [first, second] = Version::BY_ROW.map(Version::largest);
        let between = (first..second).contains(&out.len());
        let byte = file == [self.version.number() as u8] && between && placed.number == 1;
        self.note("one byte, in an output between the two rooms", byte);
        if Version::claimed(file) != self.version {
            self.others += 1;
            return;
        }
        self.files += 1;
        *self.by_number.entry(placed.number).or_default() += 1;
        let short = between && placed.number == 17;
        self.note("17, though version 1 would have room", short);
        if let Some(refusal) = second::cause_in_placing(file, out.len()) {
            *self.by_cause.entry(refusal.cause).or_default() += 1;
            if refusal.cause == Cause::ResultTooLarge {
                let fits = former_placed(&Draft::of(file)).nodes.len() <= MOST_NODES;
                self.note("16 by this rule alone", fits);
            }
            return;
        }
        self.count_placed(file, placed, out);
    }

    fn count_placed(&mut self, file: &[u8], placed: Placed, out: &[u8]) {
        let (draft, length) = (Draft::of(file), usize::from(placed.length));
        let trees = Trees::of(&draft);
        let more = |stays| on_steps(&trees, &greedy(&trees, stays)) > placed.on_steps.into();
        let (greedy, staying) = (more(false), more(true));
        let result = Draft::of(&out[..length]);
        let largest = self.version.largest();
        self.placed += 1;
        self.note("better than greedy", greedy);
        self.note("better than staying", staying);
        self.note("in 1,024 nodes", result.nodes.len() == MOST_NODES);
        self.note("in the bytes of the largest file", length == largest);
        self.note("in a longer output", out.len() > largest);
        self.count_former(&former_placed(&draft), &result);
        if self.version.has_juniors() {
            self.count_juniors(&draft, placed.on_steps);
        }
    }

    /// Counts how a placed file differs from what the former rule gives.
    fn count_former(&mut self, former: &Draft, result: &Draft) {
        let (before, now) = (former.nodes.len(), result.nodes.len());
        let other = former.nodes != result.nodes;
        self.note("other states than by the former rule", other);
        self.note("longer than by the former rule", now > before);
        self.note("shorter than by the former rule", now < before);
        self.note("16 by the former rule alone", before > MOST_NODES);
    }

    /// Counts what the juniors of a placed file bring.
    fn count_juniors(&mut self, draft: &Draft, on_steps: u16) {
        let any = draft.juniors.iter().flatten().any(|mask| *mask != [0]);
        self.note("with a junior word that isn't 0", any);
        if !any {
            return;
        }
        let without = fewest(&juniors::without(draft));
        let one_level = fewest(&juniors::of_one_level(draft));
        let more = |other: Option<u16>| other.is_some_and(|other| other > on_steps);
        self.note("15 lifted by a junior", without.is_none());
        self.note("15 lifted by a chain of two", one_level.is_none());
        self.note("on steps saved by a junior", more(without));
        self.note("on steps saved by a chain of two", more(one_level));
    }

    /// Prints the table, and fails if something came up too seldom.
    pub fn demand(&self) {
        println!("version {}", self.version.number());
        for (number, count) in &self.by_number {
            println!("{count:>9} of {number}");
        }
        for cause in Cause::of_placing() {
            let count = self.by_cause.get(&cause).copied().unwrap_or(0);
            println!("{count:>9} {:>3} {cause:?}", cause.number());
            assert!(count >= LEAST_OF_CAUSE, "too few of {cause:?}");
        }
        println!("{:>9} placed", self.placed);
        assert!(self.placed >= self.files.div_ceil(3), "too few placed");
        let of_juniors = match self.version {
            Version::One => &[][..],
            Version::Two | Version::Three => &LEAST_OF_JUNIORS,
        };
        for &(what, least) in LEAST.iter().chain(of_juniors) {
            let count = self.counts.get(what).copied().unwrap_or(0);
            println!("{count:>9} {what}");
            assert!(count >= least, "too few {what}");
        }
        println!("{:>9} files", self.files);
        println!("{:>9} of another version", self.others);
    }
}
