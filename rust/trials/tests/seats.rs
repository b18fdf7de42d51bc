//! Runs and rounds with seats: the named cases, and the engine against the second
//! implementation.

use second::cases::{round_cases, run_cases, seat_cases, seated_round_cases};
use second::draft::Draft;
use second::{Verdict, Version, MOST_CHOICES, RUN_ROOM};
use trials::{agreed_seated, compare_seats, engine_round_seated, engine_run_seated, engine_seats};
use trials::{busy, files, largest_seated, lengthened, seed, typical, typical_seated};
use trials::{Dealt, Seated};

#[test]
fn named_cases() {
    for case in seat_cases() {
        case.demand("engine", engine_run_seated);
        case.demand_seats("engine", engine_seats);
        case.demand("second", second::run_seated);
        case.demand_seats("second", second::seats);
    }
    for case in seated_round_cases() {
        case.demand("engine", engine_round_seated);
        case.demand("second", second::round_seated);
    }
}

/// With all words 0 the cases of runs and rounds have their answers.
#[test]
fn named_cases_without_limits() {
    let table = |file: &[u8]| vec![0; file.get(4).copied().unwrap_or(0).into()];
    for case in run_cases() {
        let seats = table(&case.file);
        case.demand("engine", |file, choices, out| {
            let told = engine_run_seated(file, choices, &seats, out);
            Verdict {
                number: told.number,
                place: told.place,
            }
        });
    }
    for case in round_cases() {
        let seats = table(&case.file);
        case.demand("engine", |file, choices, out| {
            engine_round_seated(file, choices, &seats, out)
        });
    }
}

#[test]
fn random_runs_with_seats() {
    compare_seats(Version::One, seed(), files() / 4).demand();
}

#[test]
fn random_runs_with_seats_of_version_2() {
    compare_seats(Version::Two, seed(), files() / 8).demand();
}

/// What both answer, given an output of so many bytes.
fn agreed(file: &[u8], choices: &[u16], seats: &[u16], room: usize) -> (u16, u16) {
    let dealt = Dealt {
        file: file.to_vec(),
        choices: choices.to_vec(),
        before: vec![0x5a; room],
    };
    let seats = seats.to_vec();
    let origin = format!("{} words, output of {room}", choices.len());
    let told = agreed_seated(&Seated { dealt, seats }, origin);
    (told.run.number, told.run.place)
}

#[test]
fn lists_as_long_as_can_be() {
    let (file, choices, seats) = largest_seated(seed());
    assert_eq!(choices.len(), 2 * MOST_CHOICES);
    assert_eq!(agreed(&file, &choices, &seats, RUN_ROOM), (0, 0));
    let mut last = choices.clone();
    last[2 * MOST_CHOICES - 2] = 0;
    assert_eq!(agreed(&file, &last, &seats, RUN_ROOM), (18, 65_535));
    let more = [&choices[..], &[1, 0]].concat();
    assert_eq!(agreed(&file, &more, &seats, RUN_ROOM), (17, 0));
    let (file, choices) = busy(seed());
    for seats in [0, 32] {
        assert_eq!(agreed(&file, &choices, &[seats; 3], RUN_ROOM), (0, 0));
    }
}

#[test]
fn lists_outputs_and_tables_of_any_length() {
    let (file, choices, seats) = typical_seated(seed());
    for words in 0..=choices.len() {
        let due = if words % 2 == 1 { (17, 0) } else { (0, 0) };
        assert_eq!(agreed(&file, &choices[..words], &seats, RUN_ROOM), due);
    }
    let rooms = (0..20)
        .chain(1_790..1_810)
        .chain([65_536, 65_537, 65_536 + RUN_ROOM]);
    for room in rooms {
        let due = if room < RUN_ROOM { (17, 0) } else { (0, 0) };
        assert_eq!(agreed(&file, &choices, &seats, room), due, "{room} bytes");
    }
    let lengths = (0..40).chain([65_535, 65_536, 65_536 + seats.len(), 131_072]);
    for words in lengths {
        let table = vec![0; words];
        let due = if words == seats.len() {
            (0, 0)
        } else {
            (17, 0)
        };
        assert_eq!(agreed(&file, &[], &table, RUN_ROOM), due, "{words} words");
    }
    for word in (0..70).chain([255, 256, 257, 288, 32_768, 65_535]) {
        for at in 0..seats.len() {
            let mut table = vec![0; seats.len()];
            table[at] = word;
            let due = if word > 32 { (17, 0) } else { (0, 0) };
            assert_eq!(agreed(&file, &[], &table, RUN_ROOM), due, "{word} seats");
        }
    }
}

#[test]
fn a_file_at_the_start_of_a_longer_input() {
    let sounds = Version::ALL.map(|version| typical(version, seed()));
    for sound in sounds.into_iter().chain([Draft::default().bytes()]) {
        let seats = vec![0; Draft::of(&sound).roles.len()];
        assert_eq!(agreed(&sound, &[], &seats, RUN_ROOM), (0, 0));
        for (file, due) in lengthened(&sound) {
            assert_eq!(agreed(&file, &[], &seats, RUN_ROOM), (due, 0));
        }
    }
}
