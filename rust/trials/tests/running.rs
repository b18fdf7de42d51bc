//! Runs: the named cases, and the engine against the second implementation.

use second::draft::Draft;
use second::{Verdict, Version, RUN_ROOM};
use trials::{agreed_run, compare_running, lengthened, run_placed, Dealt, MOST_CHOICES};
use trials::{busy, crowded, engine_ready, engine_run, files, seed, sends_in, typical};

#[test]
fn named_cases() {
    for case in second::cases::run_cases() {
        case.demand("engine", engine_run);
        case.demand("second", second::run);
        case.demand_ready("engine", engine_ready);
        case.demand_ready("second", second::ready);
    }
}

#[test]
fn random_runs() {
    compare_running(Version::One, seed(), files() / 2).demand();
}

#[test]
fn random_runs_of_version_2() {
    compare_running(Version::Two, seed(), files() / 2).demand();
}

/// The least number of files, and of sends in their runs.
const LEAST_PLACED: u64 = 1_000;
const LEAST_SENDS: u64 = 10_000;

#[test]
fn no_run_of_a_placed_file_is_stopped_for_a_role() {
    for version in Version::ALL {
        let came_up = run_placed(version, seed(), files() / 100);
        println!("{version:?}: {came_up:?}");
        assert!(came_up.files - came_up.at_a_minute >= LEAST_PLACED);
        assert!(came_up.at_a_minute >= LEAST_PLACED);
        assert!(came_up.sends >= LEAST_SENDS);
    }
}

/// What both answer, given an output of so many bytes.
fn agreed(file: &[u8], choices: &[u16], room: usize) -> (u16, u16) {
    let dealt = Dealt {
        file: file.to_vec(),
        choices: choices.to_vec(),
        before: vec![0x5a; room],
    };
    let origin = format!("{} words, output of {room}", choices.len());
    let (Verdict { number, place }, _) = agreed_run(&dealt, origin);
    (number, place)
}

#[test]
fn lists_as_long_as_can_be() {
    for seed in seed()..seed() + 5 {
        let (file, choices) = busy(seed);
        assert_eq!(choices.len(), 2 * MOST_CHOICES);
        assert_eq!(agreed(&file, &choices, RUN_ROOM), (0, 0));
        let sends = sends_in(&file, &choices);
        println!("{sends} sends in {MOST_CHOICES} choices");
        assert!(sends >= 5_000);
        // The last choice refused, and one more than there can be.
        let mut last = choices.clone();
        last[2 * MOST_CHOICES - 2] = 0;
        assert_eq!(agreed(&file, &last, RUN_ROOM), (18, 65_535));
        let more = [&choices[..], &[1, 0]].concat();
        assert_eq!(agreed(&file, &more, RUN_ROOM), (17, 0));
    }
}

#[test]
fn lists_of_any_length() {
    let (file, choices) = busy(seed());
    let twice = choices.repeat(3);
    let lengths = (0..40).chain(131_060..131_080);
    for words in lengths.chain([196_606, 196_607, 196_608, 262_142, 262_144, 393_210]) {
        let due = if words % 2 == 1 || words > 131_070 {
            17
        } else {
            0
        };
        let answer = agreed(&file, &twice[..words], RUN_ROOM);
        assert_eq!(answer, (due, 0), "{words} words");
    }
}

#[test]
fn outputs_of_any_length() {
    let (file, choices) = crowded();
    let rooms = (0..30).chain(1_780..1_820).chain([65_535, 65_536, 65_537]);
    for room in rooms.chain([65_536 + RUN_ROOM - 1, 65_536 + RUN_ROOM, 131_072]) {
        let due = if room < RUN_ROOM { 17 } else { 0 };
        assert_eq!(agreed(&file, &choices, room), (due, 0), "{room} bytes");
    }
}

#[test]
fn a_file_at_the_start_of_a_longer_input() {
    let sounds = Version::ALL.map(|version| typical(version, seed()));
    for sound in sounds.into_iter().chain([Draft::default().bytes()]) {
        assert_eq!(agreed(&sound, &[], RUN_ROOM), (0, 0));
        for (file, due) in lengthened(&sound) {
            assert_eq!(agreed(&file, &[], RUN_ROOM), (due, 0));
        }
    }
}
