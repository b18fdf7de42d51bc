//! Counting turned files by cause, and by what they show.

use super::deal::{causes, Turned};
use second::cases::Turn;
use second::draft::Draft;
use second::{cause_in_turning, Cause, Version, Written, TURNED_ROOM};
use std::collections::BTreeMap;

/// The least number of files for each, either way.
const LEAST: u64 = 500;

/// What has to come up, either way.
const DUE: [&str; 16] = [
    "turned",
    "turned without nodes",
    "turned with 1 node",
    "turned with 1,024 nodes",
    "turned with all words of a column",
    "turned in a longer output",
    "turned and passes the check",
    "turned and refused by 6 to 10",
    "turned with a tag above 8",
    "17 where the file would be turned",
    "17 where the file is refused too",
    "an output a byte too short",
    "1 in another version",
    "2 where 3 to 5 stand too",
    "zero bytes",
    "26 bytes of a version with juniors",
];

/// How often each came up.
#[derive(Default)]
pub struct TurnTally {
    files: u64,
    by_cause: BTreeMap<(Turn, Option<Cause>), u64>,
    counts: BTreeMap<(Turn, &'static str), u64>,
}

impl TurnTally {
    pub(super) fn count(&mut self, turned: &Turned, written: Written) {
        let Turned { turn, file, before } = turned;
        let from = turn.from();
        let mut note = |what, shown| {
            *self.counts.entry((*turn, what)).or_default() += u64::from(shown);
        };
        let refusal = cause_in_turning(from, file, before.len());
        let cause = refusal.map(|refusal| refusal.cause);
        let in_room = cause_in_turning(from, file, TURNED_ROOM).is_some();
        let short = written.number == 17;
        note("17 where the file would be turned", short && !in_room);
        note("17 where the file is refused too", short && in_room);
        note(
            "an output a byte too short",
            before.len() + 1 == TURNED_ROOM,
        );
        let other = Version::claimed(file) != from;
        note("1 in another version", written.number == 1 && other);
        let next = second::check(file).number;
        let late = written.number == 2 && matches!(next, 3..=5);
        note("2 where 3 to 5 stand too", late);
        note("zero bytes", file.is_empty() && written.number == 2);
        let header = cause == Some(Cause::ShortForSecond);
        note("26 bytes of a version with juniors", header);
        if written.number == 0 {
            let nodes = Draft::of(file).nodes;
            note("turned", true);
            note("turned without nodes", nodes.is_empty());
            note("turned with 1 node", nodes.len() == 1);
            note("turned with 1,024 nodes", nodes.len() == 1_024);
            let full = |word: usize| nodes.iter().all(|node| node[word] != 0);
            let all = nodes.len() > 1 && (0..3).all(full);
            note("turned with all words of a column", all);
            note("turned in a longer output", before.len() > TURNED_ROOM);
            note("turned and passes the check", next == 0);
            let refused = matches!(next, 6..=10);
            note("turned and refused by 6 to 10", refused);
            let odd = nodes.iter().any(|[tag, ..]| *tag > 8);
            note("turned with a tag above 8", odd);
        }
        *self.by_cause.entry((*turn, cause)).or_default() += 1;
        self.files += 1;
    }

    /// Prints the table, and fails if something came up too seldom.
    pub fn demand(&self) {
        for ((turn, cause), count) in &self.by_cause {
            println!("{count:>9} {turn:?} {cause:?}");
        }
        for ((turn, what), count) in &self.counts {
            println!("{count:>9} {turn:?} {what}");
        }
        println!("{:>9} files", self.files);
        for turn in Turn::ALL {
            for cause in causes(turn.from()) {
                let count = self.by_cause.get(&(turn, Some(cause))).copied();
                assert!(count >= Some(LEAST), "too few of {turn:?}, {cause:?}");
            }
            for what in DUE {
                let count = self.counts.get(&(turn, what)).copied();
                assert!(count >= Some(LEAST), "too few {turn:?}: {what}");
            }
        }
    }
}
