//! Counting sheets by what their files are refused with, and by what they show.

use super::{Brought, Dealing};
use second::{Sheet, MOST_FILES};
use std::collections::BTreeMap;

/// The least number of files for each refusal, and of sheets for each of what they show.
const LEAST: u64 = 500;

/// What a file can be refused with when it is placed.
const NUMBERS: [u16; 14] = [1, 2, 3, 4, 5, 6, 7, 8, 9, 10, 14, 15, 16, 21];

/// What has to come up.
const DUE: [&str; 29] = [
    "no files",
    "999 files",
    "1,000 files",
    "1,001 files",
    "nothing behind the files",
    "half a word behind them",
    "a length alone behind them",
    "a record that lacks a byte",
    "a record that lacks more",
    "a broken record with whole ones in it",
    "1,000 files and the start of a record",
    "a record of length 0",
    "version 1 placed",
    "version 2 placed",
    "a first word of 3",
    "the most in a file's first session",
    "the most in a middle session",
    "the most in a file's last session",
    "the most in the first file",
    "the most in a middle file",
    "the most in the last file",
    "the most in a file with fewer on steps than another",
    "placed, without sessions",
    "sessions, and no on step",
    "a remainder",
    "more than 1,000 per 1,000",
    "all files refused",
    "a refused file before a placed one",
    "two orders that differ",
];

/// What came up over many sheets.
#[derive(Default)]
pub struct SheetTally {
    sheets: u64,
    files: u64,
    by_number: BTreeMap<u16, u64>,
    counts: BTreeMap<&'static str, u64>,
}

impl SheetTally {
    fn note(&mut self, what: &'static str, shown: bool) {
        *self.counts.entry(what).or_default() += u64::from(shown);
    }

    pub(super) fn count(&mut self, dealing: &Dealing, sheet: &Sheet, brought: &[Brought]) {
        self.sheets += 1;
        self.files += brought.len() as u64;
        for brought in brought {
            let number = brought.as_ref().err().copied().unwrap_or(0);
            *self.by_number.entry(number).or_default() += 1;
        }
        self.count_ends(dealing);
        self.count_files(dealing, brought);
        self.count_most(sheet, brought);
        let placed = brought.iter().any(|brought| brought.is_ok());
        self.note("placed, without sessions", placed && sheet.sessions == 0);
        self.note(
            "sessions, and no on step",
            sheet.sessions > 0 && sheet.on_steps == 0,
        );
        self.note("a remainder", sheet.remainder > 0);
        self.note("more than 1,000 per 1,000", sheet.quotient > 1_000);
        self.note("all files refused", !placed && sheet.files > 0);
        let shuffled = dealing.shuffled();
        let plain = shuffled.is_some_and(|other| !dealing.input().starts_with(&other));
        self.note("two orders that differ", plain);
    }

    fn count_ends(&mut self, dealing: &Dealing) {
        let (files, rest) = (dealing.files.len(), &dealing.rest[..]);
        self.note("no files", files == 0);
        self.note("999 files", files == 999);
        self.note("1,000 files", files == 1_000);
        self.note("1,001 files", files == 1_001);
        self.note("nothing behind the files", rest.is_empty());
        self.note("half a word behind them", rest.len() == 1);
        self.note(
            "1,000 files and the start of a record",
            files == MOST_FILES && !rest.is_empty(),
        );
        let Some((length, behind)) = rest.split_first_chunk() else {
            return;
        };
        let lacks = usize::from(u16::from_le_bytes(*length)) - behind.len();
        self.note("a length alone behind them", behind.is_empty());
        self.note("a record that lacks a byte", lacks == 1);
        self.note("a record that lacks more", lacks > 1);
        let inner = second::whole_files(behind).next().is_some();
        self.note("a broken record with whole ones in it", inner);
    }

    fn count_files(&mut self, dealing: &Dealing, brought: &[Brought]) {
        let mut shown = [false; 4];
        for (file, brought) in dealing.whole().iter().zip(brought) {
            let first = file.first_chunk().copied().map(u16::from_le_bytes);
            shown[0] |= file.is_empty();
            shown[1] |= first == Some(1) && brought.is_ok();
            shown[2] |= first == Some(2) && brought.is_ok();
            shown[3] |= first == Some(3);
        }
        let names = [
            "a record of length 0",
            "version 1 placed",
            "version 2 placed",
            "a first word of 3",
        ];
        for (name, shown) in names.into_iter().zip(shown) {
            self.note(name, shown);
        }
        let refused = brought.iter().position(|brought| brought.is_err());
        let placed = brought.iter().rposition(|brought| brought.is_ok());
        let before = matches!((refused, placed), (Some(one), Some(other)) if one < other);
        self.note("a refused file before a placed one", before);
    }

    /// Where the most on steps are, in sheets in which one session alone has them.
    fn count_most(&mut self, sheet: &Sheet, brought: &[Brought]) {
        let mut with_most = Vec::new();
        for (at, brought) in brought.iter().enumerate() {
            for (session, &on_steps) in brought.iter().flatten().enumerate() {
                if on_steps == sheet.most {
                    with_most.push((at, session));
                }
            }
        }
        let [(file, session)] = with_most[..] else {
            return;
        };
        let sessions = brought[file].as_ref().map_or(0, |each| each.len());
        if sessions > 2 {
            self.note("the most in a file's first session", session == 0);
            self.note("the most in a file's last session", session + 1 == sessions);
            let middle = session > 0 && session + 1 < sessions;
            self.note("the most in a middle session", middle);
        }
        if brought.len() > 2 {
            self.note("the most in the first file", file == 0);
            self.note("the most in the last file", file + 1 == brought.len());
            let middle = file > 0 && file + 1 < brought.len();
            self.note("the most in a middle file", middle);
        }
        let all = |brought: &Brought| brought.iter().flatten().sum::<u32>();
        let own = all(&brought[file]);
        let fewer = brought.iter().any(|other| all(other) > own);
        self.note("the most in a file with fewer on steps than another", fewer);
    }

    /// Prints the table, and fails if something came up too seldom.
    pub fn demand(&self) {
        println!("{:>9} sheets, {} files", self.sheets, self.files);
        for (number, count) in &self.by_number {
            println!("{count:>9} of {number}");
        }
        for (what, count) in &self.counts {
            println!("{count:>9} {what}");
        }
        for number in [0].into_iter().chain(NUMBERS) {
            enough(&self.by_number, number);
        }
        let others = |number: &&u16| **number != 0 && !NUMBERS.contains(number);
        assert_eq!(self.by_number.keys().find(others), None);
        for what in DUE {
            enough(&self.counts, what);
        }
        assert!(self.counts.keys().all(|what| DUE.contains(what)));
    }
}

fn enough<Key: Ord + std::fmt::Debug>(counts: &BTreeMap<Key, u64>, key: Key) {
    let count = counts.get(&key).copied().unwrap_or(0);
    assert!(count >= LEAST, "{count} of {key:?}");
}
