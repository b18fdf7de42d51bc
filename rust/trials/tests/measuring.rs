//! Measuring: the named cases of placing, and the engine against the second
//! implementation and against placing in exactly the room wanted.

use second::cases::{place_at_cases, place_cases};
use second::draft::Draft;
use second::Version;
use trials::{agreed_measure, compare_measuring, engine_measure, engine_measure_at};
use trials::{files, full_bare, largest_bare, overfull_bare, seed, typical_bare};

#[test]
fn named_cases() {
    for case in place_cases() {
        case.demand_measured("engine", engine_measure);
        agreed_measure(&case.file, case.name);
    }
    for case in place_at_cases() {
        case.demand_measured("engine", engine_measure_at);
    }
}

#[test]
fn random_files() {
    compare_measuring(seed(), files() / 2).demand();
}

#[test]
fn large_and_long_files() {
    for version in Version::ALL {
        let largest = largest_bare(version, seed());
        let placed = agreed_measure(&largest, "the largest");
        let head = largest.len() - 6 * 1_022;
        assert_eq!(usize::from(placed.length), head + 6 * 1_024);
    }
    assert_eq!(agreed_measure(&full_bare(seed()), "full").number, 0);
    assert_eq!(
        agreed_measure(&overfull_bare(seed()), "overfull").number,
        16
    );
    let sounds = Version::ALL.map(|version| typical_bare(version, seed()));
    for sound in sounds.into_iter().chain([Draft::default().bytes()]) {
        for length in [0, 1, 2, 25, 26, 27, 28, 6_908, 6_909, 65_536, 131_098] {
            let mut file = sound.clone();
            file.resize(length, 0);
            agreed_measure(&file, length);
        }
    }
}
