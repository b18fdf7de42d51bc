//! Counting notices by cause, by their lengths, and by how their days lie.

use super::Notices;
use second::draft::word_at;
use second::{cause_in_notice, cause_in_notices, Cause, InForce, Refusal};
use std::collections::BTreeMap;

/// The least number of pairs for each cause, of either notice, and for each of what
/// they show.
const LEAST: u64 = 500;

/// What has to come up.
const DUE: [&str; 31] = [
    "both unsound",
    "both unsound, by other causes",
    "27 where neither has begun",
    "27 of one that has not begun beside one that has",
    "27 of one that would be superseded",
    "a length word one less, first",
    "a length word one less, second",
    "a length word one more, first",
    "a length word one more, second",
    "over 65,535 bytes of a file",
    "a file of no bytes in force",
    "a file of version 1 in force",
    "a file of version 2 in force",
    "a file in force that the check refuses",
    "before both, the first earlier",
    "before both, the second earlier",
    "before both, on equal days",
    "a day before the earlier",
    "at the earlier, the first",
    "at the earlier, the second",
    "between, the first earlier",
    "between, the second earlier",
    "a day before the later, the first earlier",
    "a day before the later, the second earlier",
    "at the later, the first earlier",
    "at the later, the second earlier",
    "after both, the first earlier",
    "after both, the second earlier",
    "at equal days",
    "after equal days",
    "a day whose bytes would be in another order",
];

/// The notice's length, for those of 0 to 5 bytes, on either side.
type Short = (usize, u16);

/// What came up over many pairs.
#[derive(Default)]
pub struct NoticeTally {
    pairs: u64,
    by_number: BTreeMap<u16, u64>,
    /// What is answered with 27, by place and cause.
    unsound: BTreeMap<(u16, Cause), u64>,
    short: BTreeMap<Short, u64>,
    counts: BTreeMap<&'static str, u64>,
}

impl NoticeTally {
    fn note(&mut self, what: &'static str, shown: bool) {
        *self.counts.entry(what).or_default() += u64::from(shown);
    }

    pub(super) fn count(&mut self, notices: &Notices, told: InForce) {
        self.pairs += 1;
        *self.by_number.entry(told.number).or_default() += 1;
        let Notices { first, second, day } = notices;
        if let Some(Refusal { cause, place }) = cause_in_notices(first, second, *day) {
            if place != 0 {
                *self.unsound.entry((place, cause)).or_default() += 1;
            }
        }
        for (place, notice) in [(1, first), (2, second)] {
            if notice.len() <= 5 {
                *self.short.entry((notice.len(), place)).or_default() += 1;
            }
        }
        let causes = [first, second].map(|notice| cause_in_notice(notice));
        self.count_lengths(notices);
        if causes == [None, None] {
            self.count_days(notices);
            self.count_files(notices, told);
        } else {
            self.count_unsound(notices, causes);
        }
    }

    fn count_unsound(&mut self, notices: &Notices, causes: [Option<Cause>; 2]) {
        let Notices { first, second, day } = notices;
        let both = causes.iter().all(Option::is_some);
        self.note("both unsound", both);
        self.note(
            "both unsound, by other causes",
            both && causes[0] != causes[1],
        );
        if first.len() < 4 || second.len() < 4 {
            return;
        }
        let [one, other] = [first, second].map(|notice| word_at(notice, 0));
        self.note("27 where neither has begun", one > *day && other > *day);
        let (wrong, sound) = match causes {
            [Some(_), None] => (one, other),
            [None, Some(_)] => (other, one),
            _ => return,
        };
        self.note(
            "27 of one that has not begun beside one that has",
            sound <= *day && *day < wrong,
        );
        self.note(
            "27 of one that would be superseded",
            wrong < sound && sound <= *day,
        );
    }

    fn count_lengths(&mut self, notices: &Notices) {
        let sides = [
            (
                &notices.first,
                "a length word one less, first",
                "a length word one more, first",
            ),
            (
                &notices.second,
                "a length word one less, second",
                "a length word one more, second",
            ),
        ];
        for (notice, less, more) in sides {
            if notice.len() < 4 {
                continue;
            }
            let (told, length) = (usize::from(word_at(notice, 1)), notice.len() - 4);
            self.note(less, told + 1 == length);
            self.note(more, told == length + 1);
            self.note("over 65,535 bytes of a file", length > 65_535);
        }
    }

    fn count_days(&mut self, notices: &Notices) {
        let Notices { first, second, day } = notices;
        let [one, other] = [first, second].map(|notice| word_at(notice, 0));
        let (early, late) = (one.min(other), one.max(other));
        let day = *day;
        let before = day < early;
        self.note("before both, the first earlier", before && one < other);
        self.note("before both, the second earlier", before && one > other);
        self.note("before both, on equal days", before && one == other);
        self.note("a day before the earlier", before && day + 1 == early);
        self.note("at equal days", one == other && day == one);
        self.note("after equal days", one == other && day > one);
        let apart = [
            (
                one < other,
                [
                    "at the earlier, the first",
                    "between, the first earlier",
                    "a day before the later, the first earlier",
                    "at the later, the first earlier",
                    "after both, the first earlier",
                ],
            ),
            (
                one > other,
                [
                    "at the earlier, the second",
                    "between, the second earlier",
                    "a day before the later, the second earlier",
                    "at the later, the second earlier",
                    "after both, the second earlier",
                ],
            ),
        ];
        for (shown, [at, between, last, at_later, after]) in apart {
            self.note(at, shown && day == early);
            self.note(between, shown && early < day && day < late);
            self.note(last, shown && !before && day < late && day + 1 == late);
            self.note(at_later, shown && day == late);
            self.note(after, shown && day > late);
        }
        let turned = one.swap_bytes() < other.swap_bytes();
        self.note(
            "a day whose bytes would be in another order",
            late <= day && one != other && turned != (one < other),
        );
    }

    fn count_files(&mut self, notices: &Notices, told: InForce) {
        if told.number != 0 {
            return;
        }
        let held = if told.notice == 2 {
            &notices.second
        } else {
            &notices.first
        };
        let file = &held[4..];
        self.note("a file of no bytes in force", file.is_empty());
        self.note("a file of version 1 in force", file.first() == Some(&1));
        self.note("a file of version 2 in force", file.first() == Some(&2));
        let refused = second::check(file).number != 0;
        self.note("a file in force that the check refuses", refused);
    }

    /// Prints the table, and fails if something came up too seldom.
    pub fn demand(&self) {
        println!("{:>9} pairs", self.pairs);
        for (number, count) in &self.by_number {
            println!("{count:>9} of {number}");
        }
        for ((place, cause), count) in &self.unsound {
            println!("{count:>9} 27 at {place}: {cause:?}");
        }
        for ((length, place), count) in &self.short {
            println!("{count:>9} of {length} bytes, notice {place}");
        }
        for (what, count) in &self.counts {
            println!("{count:>9} {what}");
        }
        for place in [1, 2] {
            for cause in Cause::of_notices() {
                enough(&self.unsound, (place, cause));
            }
            for length in 0..=5 {
                enough(&self.short, (length, place));
            }
        }
        for number in [0, 27, 28] {
            enough(&self.by_number, number);
        }
        for what in DUE {
            enough(&self.counts, what);
        }
        assert!(self.counts.keys().all(|what| DUE.contains(what)));
    }
}

fn enough<Key: Ord + std::fmt::Debug>(counts: &BTreeMap<Key, u64>, key: Key) {
    let count = counts.get(&key).copied().unwrap_or(0);
    assert!(count >= LEAST, "{count} of {key:?}");
}
