//! Parts of certificates: the named cases, and the engine against the second implementation.

use second::cases::closing_part_cases;
use second::Version;
use trials::{compare_parts, engine_closing_part, files, seed};

#[test]
fn named_cases() {
    for case in closing_part_cases() {
        case.demand("engine", engine_closing_part);
        case.demand("second", second::closing_part);
    }
}

/// The least number of answers that are compared.
const LEAST: u64 = 15_000;

fn compare(version: Version, inputs: u64) {
    let tally = compare_parts(version, seed(), inputs);
    tally.demand();
    assert!(tally.comparisons() >= LEAST);
}

#[test]
fn random_parts() {
    compare(Version::One, files() / 400);
}

#[test]
fn random_parts_of_version_2() {
    compare(Version::Two, files() / 800);
}

#[test]
fn random_parts_of_version_3() {
    compare(Version::Three, files() / 800);
}
