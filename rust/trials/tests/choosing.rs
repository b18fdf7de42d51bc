//! Choices in a lent list of threads: the named cases, and the engine against
//! the second implementation.

use second::draft::Draft;
use second::{Thread, Version, BEFORE_TOTALS, BESIDE, RECORDS, TOTALS};
use trials::{
    agreed_choice, compare_choosing, engine_choose, lengthened, long_run_by_choices, run_by_choices,
};
use trials::{busy, files, full_lent, seed, typical, typical_lent, Lists};

#[test]
fn named_cases() {
    for case in second::cases::choose_cases() {
        case.demand("engine", engine_choose);
        case.demand("second", second::choose);
    }
}

#[test]
fn random_lists() {
    for version in Version::BY_ROW {
        compare_choosing(version, seed(), files() / 32).demand();
    }
}

/// The least number of runs that go on to the end of their list or are halted,
/// and of choices done in them.
const LEAST_RUNS: u64 = 1_000;
const LEAST_DONE: u64 = 20_000;

#[test]
fn runs_are_their_choices_one_by_one() {
    for version in Version::ALL {
        let steps = run_by_choices(version, seed(), files() / 100);
        println!("{version:?}: {steps:?}");
        assert!(steps.halted >= LEAST_RUNS);
        assert!(steps.runs - steps.halted >= LEAST_RUNS);
        assert!(steps.done >= LEAST_DONE);
    }
}

#[test]
fn the_longest_run_is_its_choices_one_by_one() {
    let (file, choices) = busy(seed());
    long_run_by_choices(&file, &choices);
}

/// What both answer.
fn agreed(file: &[u8], lists: &Lists, choice: [u16; 2]) -> (u16, u16) {
    let origin = format!(
        "{} records, {} words",
        lists.threads.len(),
        lists.beside.len()
    );
    let (verdict, _) = agreed_choice(file, lists, choice, origin);
    (verdict.number, verdict.place)
}

#[test]
fn lists_of_any_length() {
    for lent in [typical_lent(seed()), full_lent(seed())] {
        assert_eq!(agreed(&lent.file, &lent.lists, lent.choice), (0, 0));
        let far = [128, 255, 256, 65_535, 65_536, 65_536 + RECORDS];
        for records in (0..=130).chain(far) {
            let mut lists = lent.lists.clone();
            lists.threads.resize(records, Thread::default());
            let due = if records == RECORDS { 0 } else { 18 };
            assert_eq!(agreed(&lent.file, &lists, lent.choice), (due, 0));
        }
        let far = [255, 256, 324, 65_535, 65_536, 65_536 + BESIDE];
        for words in (0..=170).chain(far) {
            let mut lists = lent.lists.clone();
            lists.beside.resize(words, 0);
            let due = if words == BESIDE { 0 } else { 18 };
            assert_eq!(agreed(&lent.file, &lists, lent.choice), (due, 0));
        }
    }
}

#[test]
fn counts_of_any_size() {
    let lent = full_lent(seed());
    for at in [0, 1] {
        for count in (65..300).chain([511, 512, 65_535, 64 << 8, 1 << 15]) {
            let mut lists = lent.lists.clone();
            lists.beside[at] = count;
            assert_eq!(agreed(&lent.file, &lists, lent.choice), (18, 0));
        }
    }
}

/// Each of the 32 totals with any other value that differs in one bit, is one up or
/// one down, and each two of them exchanged.
#[test]
fn totals_of_any_value() {
    for lent in [typical_lent(seed()), full_lent(seed())] {
        let mut waiting = 0;
        for at in BEFORE_TOTALS..BESIDE {
            let right = lent.lists.beside[at];
            waiting += right;
            let bits = (0..16).map(|bit| right ^ 1 << bit);
            for wrong in bits.chain([right.wrapping_add(1), right.wrapping_sub(1)]) {
                let mut lists = lent.lists.clone();
                lists.beside[at] = wrong;
                assert_eq!(agreed(&lent.file, &lists, lent.choice), (18, 0));
            }
            for other in BEFORE_TOTALS..at {
                let mut lists = lent.lists.clone();
                lists.beside.swap(at, other);
                let due = if lists == lent.lists { 0 } else { 18 };
                assert_eq!(agreed(&lent.file, &lists, lent.choice), (due, 0));
            }
        }
        assert!(waiting > 0);
        // All of them one further, and all of them 0.
        let mut lists = lent.lists.clone();
        lists.beside[BEFORE_TOTALS..].rotate_right(1);
        assert_eq!(agreed(&lent.file, &lists, lent.choice), (18, 0));
        lists.beside[BEFORE_TOTALS..].copy_from_slice(&[0; TOTALS]);
        assert_eq!(agreed(&lent.file, &lists, lent.choice), (18, 0));
    }
}

#[test]
fn a_file_at_the_start_of_a_longer_input() {
    let lent = typical_lent(seed());
    let sounds = Version::ALL.map(|version| typical(version, seed()));
    for sound in sounds.into_iter().chain([Draft::default().bytes()]) {
        for (file, due) in lengthened(&sound) {
            assert_eq!(agreed(&file, &lent.lists, lent.choice), (due, 0));
        }
    }
}
