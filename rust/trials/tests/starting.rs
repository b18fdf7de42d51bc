//! Starts of a lent list of threads: the named cases, and the engine against the
//! second implementation.

use second::draft::Draft;
use second::{Thread, Version, BESIDE, RECORDS};
use trials::{agreed_start, any_lists, compare_starting, engine_start};
use trials::{files, largest, seed, typical, Lists, Rng};

#[test]
fn named_cases() {
    for case in second::cases::start_cases() {
        case.demand("engine", engine_start);
        case.demand("second", second::start);
    }
}

#[test]
fn random_files_and_lists() {
    for version in Version::BY_ROW {
        compare_starting(version, seed(), files() / 4).demand();
    }
}

/// What both answer.
fn agreed(file: &[u8], lists: &Lists) -> (u16, u16) {
    let origin = format!(
        "{} records, {} words",
        lists.threads.len(),
        lists.beside.len()
    );
    let (verdict, _) = agreed_start(file, lists, origin);
    (verdict.number, verdict.place)
}

fn sound_files() -> Vec<Vec<u8>> {
    let of = |version| [typical(version, seed()), largest(version, seed())];
    let mut files = Version::ALL.map(of).concat();
    files.push(Draft::default().bytes());
    files
}

fn lists(file: &[u8]) -> Lists {
    any_lists(&mut Rng::new(seed(), 0), file)
}

#[test]
fn lists_of_any_length() {
    for file in sound_files() {
        let right = lists(&file);
        assert_eq!(agreed(&file, &right), (0, 0));
        let far = [255, 256, 65_535, 65_536, 65_536 + RECORDS];
        for records in (0..=130).chain(far) {
            let mut lists = right.clone();
            lists.threads.resize(records, Thread::default());
            let due = if records == RECORDS { 0 } else { 18 };
            assert_eq!(agreed(&file, &lists), (due, 0));
        }
        let far = [255, 256, 324, 65_535, 65_536, 65_536 + BESIDE];
        for words in (0..=170).chain(far) {
            let mut lists = right.clone();
            lists.beside.resize(words, 0);
            let due = if words == BESIDE { 0 } else { 18 };
            assert_eq!(agreed(&file, &lists), (due, 0));
        }
    }
}

#[test]
fn parts_of_a_file_and_longer_inputs() {
    for sound in sound_files() {
        let lists = lists(&sound);
        let header = 2 * Version::claimed(&sound).header();
        assert_eq!(agreed(&[], &lists), (0, 0));
        for length in 1..sound.len() {
            let short = length < header || length % 2 == 1;
            let due = if short { 1 } else { 5 };
            assert_eq!(agreed(&sound[..length], &lists), (due, 0));
        }
        for length in [6_909, 6_910, 65_536, 65_537, 65_536 + sound.len(), 131_098] {
            let mut file = sound.clone();
            file.resize(length, 0);
            let due = if length % 2 == 1 { 1 } else { 5 };
            assert_eq!(agreed(&file, &lists), (due, 0));
        }
    }
}
