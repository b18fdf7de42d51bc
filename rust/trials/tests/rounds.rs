//! Rounds: the named cases, and the engine against the second implementation.

use second::cases::round_cases;
use second::draft::Draft;
use second::{Version, BEFORE_ROUND, RUN_ROOM};
use trials::{agreed_round, choices_of, compare_rounds, dispatch_placed, lengthened, Dealt};
use trials::{busy, crowded, engine_round, files, lone_round, meeting_round, seed, typical};

#[test]
fn named_cases() {
    for case in round_cases() {
        case.demand("engine", engine_round);
        case.demand("second", second::round);
    }
}

#[test]
fn random_rounds() {
    compare_rounds(Version::One, seed(), files() / 4).demand();
}

#[test]
fn random_rounds_of_version_2() {
    compare_rounds(Version::Two, seed(), files() / 4).demand();
}

/// The least number of files, and of meetings in their rounds.
const LEAST_PLACED: u64 = 500;
const LEAST_MEETINGS: u64 = 5_000;

#[test]
fn placed_files_round_by_round() {
    for version in Version::ALL {
        let came_up = dispatch_placed(version, seed(), files() / 400);
        println!("{version:?}: {came_up:?}");
        assert!(came_up.files >= LEAST_PLACED);
        assert!(came_up.idle >= LEAST_PLACED / 4);
        assert!(came_up.meetings >= LEAST_MEETINGS);
    }
}

/// What both answer, given an output of so many bytes, and how many choices the
/// round has.
fn agreed(file: &[u8], choices: &[u16], room: usize) -> ((u16, u16), usize) {
    let dealt = Dealt {
        file: file.to_vec(),
        choices: choices.to_vec(),
        before: vec![0x5a; room],
    };
    let origin = format!("{} words, output of {room}", choices.len());
    let (round, _) = agreed_round(&dealt, origin);
    ((round.number, round.place), choices_of(&round).len())
}

#[test]
fn lists_as_long_as_can_be() {
    for seed in seed()..seed() + 5 {
        let (file, choices) = busy(seed);
        let words = 2 * BEFORE_ROUND;
        let (answer, count) = agreed(&file, &choices[..words], RUN_ROOM);
        assert_eq!(answer, (0, 0));
        assert!(count > 0);
        // The last choice refused, and one more than there can be.
        let mut last = choices[..words].to_vec();
        last[words - 2] = 0;
        assert_eq!(agreed(&file, &last, RUN_ROOM), ((18, 65_471), 0));
        let more = &choices[..words + 2];
        assert_eq!(agreed(&file, more, RUN_ROOM), ((17, 0), 0));
    }
}

#[test]
fn lists_of_any_length() {
    let (file, choices) = busy(seed());
    let twice = choices.repeat(3);
    let lengths = (0..40).chain(130_930..130_950).chain(131_060..131_080);
    for words in lengths.chain([196_606, 196_607, 196_608, 262_142, 262_144, 393_210]) {
        let due = if words % 2 == 1 || words > 130_942 {
            17
        } else {
            0
        };
        let (answer, _) = agreed(&file, &twice[..words], RUN_ROOM);
        assert_eq!(answer, (due, 0), "{words} words");
    }
}

#[test]
fn outputs_of_any_length() {
    for ((file, choices), count) in [(meeting_round(), 64), (lone_round(), 64), (crowded(), 0)] {
        let rooms = (0..30).chain(1_780..1_820).chain([65_535, 65_536, 65_537]);
        for room in rooms.chain([65_536 + RUN_ROOM - 1, 65_536 + RUN_ROOM, 131_072]) {
            let due = if room < RUN_ROOM {
                ((17, 0), 0)
            } else {
                ((0, 0), count)
            };
            assert_eq!(agreed(&file, &choices, room), due, "{room} bytes");
        }
    }
}

#[test]
fn a_file_at_the_start_of_a_longer_input() {
    let sounds = Version::ALL.map(|version| typical(version, seed()));
    for sound in sounds.into_iter().chain([Draft::default().bytes()]) {
        assert_eq!(agreed(&sound, &[], RUN_ROOM).0, (0, 0));
        for (file, due) in lengthened(&sound) {
            assert_eq!(agreed(&file, &[], RUN_ROOM), ((due, 0), 0));
        }
    }
}
