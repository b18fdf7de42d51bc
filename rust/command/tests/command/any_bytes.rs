//! Any bytes whatever can be shown.

use crate::draft::Draft;
use crate::files;
use pilzdamo::Verdict;

/// Random numbers, the same each time.
struct Dice(u64);

impl Dice {
    fn next(&mut self) -> u64 {
        self.0 ^= self.0 << 13;
        self.0 ^= self.0 >> 7;
        self.0 ^= self.0 << 17;
        self.0
    }

    fn below(&mut self, end: usize) -> usize {
        (self.next() >> 16) as usize % end
    }

    /// A word that a file could have, or any.
    fn word(&mut self) -> u16 {
        let near = |base: u16, by: usize| base + by as u16;
        match self.below(8) {
            0..=3 => near(0, self.below(10)),
            4 => near(257, self.below(10)),
            5 => near(512, self.below(9)),
            6 => 1 << self.below(16),
            _ => self.next() as u16,
        }
    }

    fn records<const W: usize>(&mut self, most: usize) -> Vec<[u16; W]> {
        let count = self.below(most + 1);
        (0..count)
            .map(|_| std::array::from_fn(|_| self.word()))
            .collect()
    }
}

/// Bytes of any length with no order in them.
fn noise(dice: &mut Dice) -> Vec<u8> {
    let length = dice.below(300);
    (0..length).map(|_| dice.next() as u8).collect()
}

/// Any records after a head that fits them.
fn records(dice: &mut Dice) -> Vec<u8> {
    let roles: Vec<[u16; 4]> = dice.records(4);
    let masks: Vec<[u16; 1]> = roles.iter().map(|_| [dice.word()]).collect();
    let juniors = (dice.below(3) != 0).then_some(masks);
    let draft = Draft {
        users: dice.records(6),
        juniors,
        roles,
        kinds: dice.records(5),
        channels: dice.records(6),
        sessions: dice.records(4),
        nodes: dice.records(60),
        by_column: dice.below(2) == 0,
    };
    draft.bytes()
}

/// An example, and perhaps a few of its words changed, and its end.
fn damaged(dice: &mut Dice, files: &[Vec<u8>]) -> Vec<u8> {
    let mut file = files[dice.below(files.len())].clone();
    for _ in 0..dice.below(5) {
        let at = 2 * dice.below(file.len() / 2);
        file[at..at + 2].copy_from_slice(&dice.word().to_le_bytes());
    }
    match dice.below(6) {
        0 => file.truncate(dice.below(file.len())),
        1 => file.extend((0..dice.below(9)).map(|i| i as u8)),
        _ => (),
    }
    file
}

/// Shows a file; a refusal is marked once, and at its place.
fn show(file: &[u8]) {
    let text = command::show::text(file);
    let verdict = pilzdamo::check(file);
    let mark = format!("!! Refused {}: ", verdict.number);
    let lines: Vec<&str> = text.lines().collect();
    let marks = lines.iter().filter(|line| line.starts_with("!! ")).count();
    if verdict.is_clean() {
        assert_eq!(marks, 0, "{text}");
        return;
    }
    assert_eq!(marks, 1, "{text}");
    let at = lines.iter().position(|line| line.starts_with(&mark));
    let before = lines[at.expect("the mark") - 1];
    assert!(stands_there(before, verdict, file), "{text}");
}

/// Whether the line before the mark is that of the record or node refused.
fn stands_there(before: &str, verdict: Verdict, file: &[u8]) -> bool {
    let Verdict { number, place } = verdict;
    let starts = |word: &&str| before.starts_with(*word);
    match number {
        6 => ["user ", "role ", "kind ", "channel "].iter().any(starts),
        21 => before.starts_with("role ") && before.contains("; junior"),
        7 => before.starts_with(&format!("session {place}: ")),
        8..=13 if place <= nodes(file) => {
            let row = before.get(6..).unwrap_or_default();
            row.split_whitespace().next() == Some(place.to_string().as_str())
        }
        8..=13 => before.starts_with("  ("),
        _ => true,
    }
}

/// The count of nodes of a file that has a head.
fn nodes(file: &[u8]) -> u16 {
    u16::from_le_bytes([file[12], file[13]])
}

/// Files of all sorts, few of them sound.
pub fn some_files(count: usize) -> impl Iterator<Item = Vec<u8>> {
    let mut dice = Dice(2024);
    let mut files: Vec<Vec<u8>> = files::all().into_iter().map(|(_, bytes)| bytes).collect();
    files.retain(|file| !file.is_empty());
    (0..count).map(move |i| match i % 10 {
        0 => noise(&mut dice),
        1..=4 => records(&mut dice),
        _ => damaged(&mut dice, &files),
    })
}

#[test]
fn ten_thousand_files() {
    for file in some_files(10_000) {
        show(&file);
    }
}

/// As deep as trees get.
#[test]
fn nodes_of_one_tag() {
    for tag in 0..=9 {
        let mut draft = files::booking();
        draft.nodes = vec![[tag, 1, 0]; 1_024];
        show(&draft.bytes());
    }
}

#[test]
fn long_files() {
    for length in [65_536, 65_537, 1_000_000] {
        show(&vec![1; length]);
        let mut file = files::booking().bytes();
        file.resize(length, 1);
        show(&file);
    }
}
