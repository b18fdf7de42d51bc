//! The group's sheet: the named cases, every cut of a record, 1,000 large files, and the
//! engine against the second implementation.

use second::cases::{records, sheet_cases};
use second::draft::to_bytes;
use second::{Sheet, Version};
use trials::{agreed_sheet, by_placing, compare_sheets, engine_sheet, files, seed};
use trials::{full_bare, largest_bare, overfull_bare, typical_bare, typical_sheet};

#[test]
fn named_cases() {
    for case in sheet_cases() {
        case.demand("engine", engine_sheet);
        case.demand("second", second::sheet);
    }
}

#[test]
fn random_sheets() {
    compare_sheets(seed(), files() / 10).demand();
}

/// A cut at every byte of the last record, and of the one before.
#[test]
fn every_cut() {
    let all = [Version::One, Version::Two].map(|version| typical_bare(version, seed()));
    let [one, other] = &all;
    for files in [vec![other], vec![one, other], vec![other, one, other]] {
        let input = records(&files);
        let whole = agreed_sheet(&input, "whole");
        assert_eq!(whole.files as usize, files.len());
        let mut ends = vec![0];
        for file in &files {
            ends.push(ends[ends.len() - 1] + 2 + file.len());
        }
        for length in 0..input.len() {
            let read = ends.iter().filter(|end| **end <= length).count() - 1;
            let due = engine_sheet(&records(&files[..read]));
            assert_eq!(agreed_sheet(&input[..length], length), due);
            assert_eq!(due.files as usize, read);
        }
    }
}

/// Every length word before a file: what is shorter is followed by a rest.
#[test]
fn every_length_word() {
    let file = typical_bare(Version::One, seed());
    let mut input = records([&file]);
    for word in 0..=u16::MAX {
        input[..2].copy_from_slice(&word.to_le_bytes());
        let sheet = agreed_sheet(&input, word);
        assert_eq!(sheet.files == 0, usize::from(word) > file.len(), "{word}");
    }
}

#[test]
fn near_a_thousand() {
    let small = to_bytes(&second::cases::BOOKING);
    for count in [998, 999, 1_000, 1_001, 1_002, 2_000] {
        let input = records(vec![&small; count]);
        let sheet = agreed_sheet(&input, count);
        assert_eq!(sheet.files as usize, count.min(1_000));
        assert_eq!((sheet.sessions, sheet.most), (sheet.files, 1));
        // Whatever follows it.
        for rest in [&[][..], &[1], &[0, 0], &[1, 0], &[1, 0, 1]] {
            let input = [&input[..], rest].concat();
            let whole = match rest {
                [0, 0] | [1, 0, 1] => count + 1,
                _ => count,
            };
            let sheet = agreed_sheet(&input, count);
            assert_eq!(sheet.files as usize, whole.min(1_000), "{count} {rest:?}");
        }
    }
}

/// The sums of 1,000 of the largest and of the fullest files.
#[test]
fn large_files() {
    let mut all = Version::ALL
        .map(|version| largest_bare(version, seed()))
        .to_vec();
    all.extend([full_bare(seed()), overfull_bare(seed())]);
    for file in all {
        let (one, _) = by_placing(std::slice::from_ref(&file));
        let sheet = agreed_sheet(&records(vec![&file; 1_000]), "large");
        let due = Sheet {
            files: 1_000,
            refused: one.refused.map(|count| 1_000 * count),
            sessions: 1_000 * one.sessions,
            on_steps: 1_000 * one.on_steps,
            remainder: 1_000 * one.remainder,
            ..one
        };
        assert_eq!((sheet.files, sheet.refused), (1_000, due.refused));
        assert_eq!(
            (sheet.sessions, sheet.on_steps),
            (due.sessions, due.on_steps)
        );
        assert_eq!((sheet.most, sheet.quotient), (due.most, due.quotient));
        assert_eq!(sheet.remainder, due.remainder);
    }
    let (files, input) = typical_sheet(seed());
    assert_eq!(agreed_sheet(&input, "typical"), by_placing(&files).0);
}

/// The longest record, and inputs longer than it.
#[test]
fn long_records() {
    let sound = typical_bare(Version::One, seed());
    for length in [65_534, 65_535] {
        let mut file = sound.clone();
        file.resize(length, 0);
        let sheet = agreed_sheet(&records([&file, &sound]), length);
        let number = if length % 2 == 1 { 1 } else { 5 };
        assert_eq!((sheet.files, sheet.refused[number - 1]), (2, 1));
    }
}
