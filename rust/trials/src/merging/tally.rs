//! Counting pairs by number and cause, and by what they show.

use super::{as_read, Pair};
use crate::answers::engine_check;
use crate::measuring::engine_measure;
use second::draft::{word_at, Draft};
use second::{cause_in_merging, cause_to_be_merged, Cause, Refusal, Section, Written, MERGED_ROOM};
use std::collections::BTreeMap;

/// The least number of pairs for each cause, of either file and of both, and for each
/// of what pairs show.
const LEAST: u64 = 500;

/// What has to come up.
const DUE: [&str; 52] = [
    "17 where both files would do",
    "17 where a file is refused too",
    "an output a byte too short",
    "no output",
    "an output just long enough",
    "a longer output",
    "both files refused",
    "both files refused, by other numbers",
    "the first refused, 25 in sight",
    "25 where a sum is too large too",
    "25 by a role that sends on a kind of 1 to 16",
    "25 by a role that sends on a kind above 16",
    "25 by a role that receives on a kind of 1 to 16",
    "25 by a role that receives on a kind above 16",
    "25 by the last kind alone",
    "users one above",
    "channels one above",
    "sessions one above",
    "nodes one above",
    "users at their limit",
    "channels at their limit",
    "sessions at their limit",
    "nodes at their limit",
    "the largest file",
    "merged",
    "merged, with records of all sections in both",
    "both pass",
    "11 to 13 in the first alone",
    "11 to 13 in the second alone",
    "11 to 13 in both",
    "13 in the first alone",
    "13 in the second alone",
    "all three placed",
    "all three placed, with on steps in both",
    "15 in the first alone",
    "15 in the second alone",
    "16 where both can be placed",
    "zero bytes first, merged",
    "zero bytes second, merged",
    "zero bytes twice",
    "zero bytes first, 25",
    "zero bytes second, 25",
    "zero bytes beside a refused file",
    "a fork in the second",
    "a repeat in the second",
    "a new in the second",
    "an on in the second",
    "an off in the second",
    "a starting mask in the second",
    "user 32 by the shift",
    "channel 64 by the shift",
    "node 1,024 by the shift",
];

/// The operands of the second file, by node and sort: a user, a channel, a variable.
const OPERANDS: [[&str; 3]; 5] = [
    [
        "compare a user with",
        "compare a channel with",
        "compare a variable with",
    ],
    [
        "compare with a user",
        "compare with a channel",
        "compare with a variable",
    ],
    ["", "receive on a channel", "receive on a variable"],
    ["", "send on a channel", "send on a variable"],
    ["send a user", "send a channel", "send a variable"],
];

/// Which of the two files.
#[derive(Clone, Copy, Debug, PartialEq, Eq, PartialOrd, Ord)]
enum Side {
    First,
    Second,
}

/// What came up over many pairs.
#[derive(Default)]
pub struct MergeTally {
    pairs: u64,
    by_number: BTreeMap<u16, u64>,
    /// A file's own causes.
    own: BTreeMap<(Side, Cause), u64>,
    /// Those of both, and of the output.
    of_both: BTreeMap<Cause, u64>,
    counts: BTreeMap<&'static str, u64>,
}

impl MergeTally {
    fn note(&mut self, what: &'static str, shown: bool) {
        *self.counts.entry(what).or_default() += u64::from(shown);
    }

    pub(super) fn count(&mut self, pair: &Pair, written: Written, out: &[u8]) {
        self.pairs += 1;
        *self.by_number.entry(written.number).or_default() += 1;
        let Pair { first, second, .. } = pair;
        let own = [first, second].map(|file| cause_to_be_merged(file));
        match cause_in_merging(first, second, out.len()) {
            None => self.count_merged(pair, &out[..written.length.into()]),
            Some(Refusal { cause, .. }) if own == [None; 2] || cause == Cause::OutputTooShort => {
                *self.of_both.entry(cause).or_default() += 1;
                if cause != Cause::OutputTooShort {
                    self.count_both(pair, cause);
                }
            }
            Some(Refusal { cause, .. }) => {
                let side = match own[0] {
                    Some(_) => Side::First,
                    None => Side::Second,
                };
                *self.own.entry((side, cause)).or_default() += 1;
                self.count_own(pair, own);
            }
        }
        self.count_outputs(out.len(), written.number, own != [None; 2]);
        self.count_nothing(pair, written.number);
    }

    fn count_outputs(&mut self, room: usize, number: u16, wrong: bool) {
        let short = number == 17;
        self.note("17 where both files would do", short && !wrong);
        self.note("17 where a file is refused too", short && wrong);
        self.note("an output a byte too short", room + 1 == MERGED_ROOM);
        self.note("no output", room == 0);
        let merged = number == 0;
        self.note("an output just long enough", merged && room == MERGED_ROOM);
        self.note("a longer output", merged && room > MERGED_ROOM);
    }

    fn count_nothing(&mut self, pair: &Pair, number: u16) {
        let [first, second] = [&pair.first, &pair.second].map(|file| file.is_empty());
        let merged = number == 0;
        self.note("zero bytes first, merged", first && !second && merged);
        self.note("zero bytes second, merged", second && !first && merged);
        self.note("zero bytes twice", first && second && merged);
        self.note("zero bytes first, 25", first && number == 25);
        self.note("zero bytes second, 25", second && number == 25);
        let refused = (first || second) && (1..=10).contains(&number);
        self.note("zero bytes beside a refused file", refused);
    }

    /// Counts what else stands in sight where a file is refused.
    fn count_own(&mut self, pair: &Pair, own: [Option<Refusal>; 2]) {
        if let [Some(one), Some(other)] = own {
            self.note("both files refused", true);
            let numbers = [one, other].map(|refusal| refusal.cause.number());
            let others = numbers[0] != numbers[1];
            self.note("both files refused, by other numbers", others);
        }
        if let [Some(refusal), None] = own {
            if refusal.cause.number() > 5 {
                let [one, other] = [&pair.first, &pair.second].map(|file| tables(file));
                self.note("the first refused, 25 in sight", one != other);
            }
        }
    }

    /// Counts by what two sound files differ, and which sums are too large.
    fn count_both(&mut self, pair: &Pair, cause: Cause) {
        let [one, other] = [&pair.first, &pair.second].map(|file| Draft::of(&as_read(file)));
        let sums = sums(&one, &other);
        let above = sums.iter().any(|(section, sum)| *sum > section.most());
        if cause.number() == 25 {
            self.note("25 where a sum is too large too", above);
            self.count_tables(&one, &other, cause);
        }
        if let Cause::Sum(section) = cause {
            let just = sums.contains(&(section, section.most() + 1));
            self.note(one_above(section), just);
        }
    }

    fn count_tables(&mut self, one: &Draft, other: &Draft, cause: Cause) {
        if cause == Cause::RolesDiffer {
            let records = one.roles.iter().zip(&other.roles);
            let words = records.flat_map(|(one, other)| (0..4).filter(|&at| one[at] != other[at]));
            let words: Vec<usize> = words.collect();
            let whats = [
                "25 by a role that sends on a kind of 1 to 16",
                "25 by a role that sends on a kind above 16",
                "25 by a role that receives on a kind of 1 to 16",
                "25 by a role that receives on a kind above 16",
            ];
            for (at, what) in whats.into_iter().enumerate() {
                self.note(what, words == [at]);
            }
        }
        if cause == Cause::KindsDiffer {
            let last = one.kinds.len() - 1;
            let before = one.kinds[..last] == other.kinds[..last];
            self.note("25 by the last kind alone", before);
        }
    }

    fn count_merged(&mut self, pair: &Pair, merged: &[u8]) {
        let both = [&pair.first, &pair.second].map(|file| as_read(file));
        let [one, other] = both.each_ref().map(|file| Draft::of(file));
        self.note("merged", true);
        let filled = |draft: &Draft| {
            let counts = [draft.users.len(), draft.roles.len(), draft.kinds.len()];
            let more = [draft.channels.len(), draft.sessions.len()];
            counts.iter().chain(&more).all(|count| *count > 0)
        };
        let all = filled(&one) && filled(&other);
        self.note("merged, with records of all sections in both", all);
        for (section, sum) in sums(&one, &other) {
            self.note(at_limit(section), sum == section.most());
        }
        self.note("the largest file", merged.len() == MERGED_ROOM);
        self.count_judged(&both, merged);
        self.count_second(&other, merged);
    }

    /// Counts what check and placing say of both and of the merged file.
    fn count_judged(&mut self, both: &[Vec<u8>; 2], merged: &[u8]) {
        let checks = both.each_ref().map(|file| engine_check(file).0);
        self.note("both pass", checks == [0, 0]);
        let [one, other] = checks.map(|number| number != 0);
        self.note("11 to 13 in the first alone", one && !other);
        self.note("11 to 13 in the second alone", other && !one);
        self.note("11 to 13 in both", one && other);
        self.note("13 in the first alone", checks == [13, 0]);
        self.note("13 in the second alone", checks == [0, 13]);
        let placed = both.each_ref().map(|file| engine_measure(file));
        let numbers = placed.map(|placed| placed.number);
        self.note("15 in the first alone", numbers == [15, 0]);
        self.note("15 in the second alone", numbers == [0, 15]);
        if numbers == [0, 0] {
            let number = engine_measure(merged).number;
            self.note("16 where both can be placed", number == 16);
            self.note("all three placed", number == 0);
            let steps = placed.iter().all(|placed| placed.on_steps > 0);
            let what = "all three placed, with on steps in both";
            self.note(what, number == 0 && steps);
        }
    }

    /// Counts what the second file has that is shifted, and what is not.
    fn count_second(&mut self, second: &Draft, merged: &[u8]) {
        let house = Draft::of(merged);
        let shifted = house.users.len() > second.users.len()
            && house.channels.len() > second.channels.len()
            && house.nodes.len() > second.nodes.len();
        let has = |tag: u16| second.nodes.iter().any(|node| node[0] == tag);
        self.note("a fork in the second", shifted && has(1));
        self.note("a repeat in the second", shifted && has(2));
        self.note("a new in the second", shifted && has(3));
        self.note("an on in the second", shifted && has(7));
        self.note("an off in the second", shifted && has(8));
        let starts = second.sessions.iter().any(|[_, mask, _]| *mask != 0);
        self.note("a starting mask in the second", shifted && starts);
        let mut operands = [[false; 3]; 5];
        for &[tag, f1, f2] in &second.nodes {
            match tag {
                4 => {
                    operands[0][sort(f1)] = true;
                    operands[1][sort(f2)] = true;
                }
                5 => operands[2][sort(f1)] = true,
                6 => {
                    operands[3][sort(f1)] = true;
                    operands[4][sort(f2)] = true;
                }
                _ => {}
            }
        }
        for (names, shown) in OPERANDS.iter().zip(operands) {
            for (name, shown) in names.iter().zip(shown) {
                self.note(name, shifted && shown);
            }
        }
        let moved = &house.nodes[house.nodes.len() - second.nodes.len()..];
        let named = |operand: u16| {
            let mut nodes = moved.iter().filter(|node| matches!(node[0], 4..=6));
            shifted && nodes.any(|node| node[1..].contains(&operand))
        };
        self.note("user 32 by the shift", named(32));
        self.note("channel 64 by the shift", named(320));
        let last = moved.len() < 1_024 && house.nodes.len() == 1_024;
        self.note("node 1,024 by the shift", last && !moved.is_empty());
    }

    /// Prints the table, and fails if something came up too seldom.
    pub fn demand(&self) {
        for (number, count) in &self.by_number {
            println!("{count:>9} of {number}");
        }
        let mut rare = Vec::new();
        let mut demand = |what: String, count: Option<&u64>| {
            let count = count.copied().unwrap_or(0);
            println!("{count:>9} {what}");
            if count < LEAST {
                rare.push(what);
            }
        };
        for cause in Cause::to_be_merged() {
            for side in [Side::First, Side::Second] {
                let what = format!("{:>3} {cause:?} of the {side:?}", cause.number());
                demand(what, self.own.get(&(side, cause)));
            }
        }
        let of_both = [vec![Cause::OutputTooShort], Cause::of_both()].concat();
        for cause in of_both {
            let what = format!("{:>3} {cause:?}", cause.number());
            demand(what, self.of_both.get(&cause));
        }
        let operands = OPERANDS
            .as_flattened()
            .iter()
            .filter(|name| !name.is_empty());
        for what in DUE.iter().chain(operands) {
            demand(what.to_string(), self.counts.get(what));
        }
        println!("{:>9} pairs", self.pairs);
        assert!(rare.is_empty(), "under {LEAST}: {rare:?}");
        assert!(self.pairs >= 100_000, "under 100,000 pairs");
    }
}

/// The sections that both fill, with the records of both.
fn sums(one: &Draft, other: &Draft) -> [(Section, u16); 4] {
    let sum = |section, count: fn(&Draft) -> usize| (section, (count(one) + count(other)) as u16);
    [
        sum(Section::Users, |draft| draft.users.len()),
        sum(Section::Channels, |draft| draft.channels.len()),
        sum(Section::Sessions, |draft| draft.sessions.len()),
        sum(Section::Nodes, |draft| draft.nodes.len()),
    ]
}

fn one_above(section: Section) -> &'static str {
    match section {
        Section::Users => "users one above",
        Section::Channels => "channels one above",
        Section::Sessions => "sessions one above",
        _ => "nodes one above",
    }
}

fn at_limit(section: Section) -> &'static str {
    match section {
        Section::Users => "users at their limit",
        Section::Channels => "channels at their limit",
        Section::Sessions => "sessions at their limit",
        _ => "nodes at their limit",
    }
}

/// The bytes of a file's roles and kinds, with their counts, where 1 to 5 are clean.
fn tables(file: &[u8]) -> (Vec<[u16; 4]>, Vec<[u16; 1]>) {
    let file = as_read(file);
    assert!(word_at(&file, 0) == 1);
    let draft = Draft::of(&file);
    (draft.roles, draft.kinds)
}

/// What an operand names: a user, a channel, or a variable.
fn sort(operand: u16) -> usize {
    match operand {
        1..=32 => 0,
        257..=320 => 1,
        _ => 2,
    }
}
