//! Two files in one: the named cases, and the engine against the second implementation.

use second::cases::merge_cases;
use second::draft::Draft;
use second::{Version, Written, MERGED_ROOM};
use trials::{agreed_merge, compare_merging, engine_merge, files, lengthened, seed};
use trials::{largest_pair, run_in_house, typical, typical_pair, Pair};

#[test]
fn named_cases() {
    for case in merge_cases() {
        case.demand("engine", engine_merge);
        case.demand("second", second::merge);
        let pair = Pair {
            first: case.first,
            second: case.second,
            before: vec![3; case.room],
        };
        agreed_merge(&pair, case.name);
    }
}

#[test]
fn random_pairs() {
    compare_merging(seed(), files() / 5 * 3).demand();
}

/// Every choice of either leads to the same state in the merged file.
#[test]
fn runs_of_either() {
    let came_up = run_in_house(seed(), files() / 40);
    println!("{came_up:?}");
    let runs = came_up.runs;
    assert_eq!(runs, files() / 40 * 2);
    assert!(came_up.choices >= 10 * runs && came_up.sends >= runs);
    assert!(came_up.ended >= runs && came_up.begun >= runs && came_up.made >= runs);
}

/// What both answer in an output of so many bytes.
fn agreed(first: &[u8], second: &[u8], room: usize) -> Written {
    let pair = Pair {
        first: first.to_vec(),
        second: second.to_vec(),
        before: vec![0x5a; room],
    };
    agreed_merge(&pair, room).0
}

#[test]
fn outputs_of_any_length() {
    let [first, second] = typical_pair(seed());
    let rooms = (0..30).chain(6_840..6_940).chain([65_535, 65_536, 65_537]);
    for room in rooms.chain([65_536 + MERGED_ROOM - 1, 65_536 + MERGED_ROOM, 131_072]) {
        let due = if room < MERGED_ROOM { 17 } else { 0 };
        assert_eq!(agreed(&first, &second, room).number, due, "{room} bytes");
        assert_eq!(agreed(&[1], &second, room).number, due.max(1), "{room}");
    }
}

#[test]
fn the_largest() {
    let [first, second] = largest_pair(seed());
    let written = agreed(&first, &second, MERGED_ROOM);
    assert_eq!(written, Written::bytes(MERGED_ROOM as u16));
    let nodes = |file: &[u8]| Draft::of(file).nodes.len();
    assert_eq!((nodes(&first), nodes(&second)), (512, 512));
}

#[test]
fn a_file_at_the_start_of_a_longer_input() {
    let [sound, other] = typical_pair(seed());
    for sound in [sound, Draft::default().bytes()] {
        for (file, due) in lengthened(&sound) {
            let refused = Written::refused(due, 0);
            assert_eq!(agreed(&file, &other, MERGED_ROOM), refused);
            assert_eq!(agreed(&other, &file, MERGED_ROOM), refused);
        }
    }
}

/// Zero bytes are the file without a record; 1 to 25 give 1, on either side.
#[test]
fn every_prefix_of_a_sound_file() {
    let [sound, other] = typical_pair(seed());
    let empty = Draft::default().bytes();
    for length in 0..=sound.len() {
        let due = match length {
            0 => 25,
            _ if length == sound.len() => 0,
            _ if length < 26 || length % 2 == 1 => 1,
            _ => 5,
        };
        let prefix = &sound[..length];
        assert_eq!(agreed(prefix, &other, MERGED_ROOM).number, due);
        assert_eq!(agreed(&other, prefix, MERGED_ROOM).number, due);
    }
    for length in 0..=26 {
        let due = if matches!(length, 0 | 26) { 0 } else { 1 };
        let prefix = &empty[..length];
        assert_eq!(agreed(prefix, &[], MERGED_ROOM).number, due);
        assert_eq!(agreed(&[], prefix, MERGED_ROOM).number, due);
    }
}

/// Every first word, before a sound file and before one in which all else is wrong.
#[test]
fn the_version_is_judged_behind_1() {
    let [sound, other] = typical_pair(seed());
    let version_2 = typical(Version::Two, seed());
    for word in 0..=u16::MAX {
        let starts = |rest: &[u8]| [&word.to_le_bytes()[..], &rest[2..]].concat();
        let wrong = vec![0xff; 28];
        for (rest, of_first) in [(&sound, 0), (&wrong, 3)] {
            let due = if word == 1 { of_first } else { 2 };
            let file = starts(rest);
            assert_eq!(
                second::merge(&file, &other, &mut [0; MERGED_ROOM]).number,
                due
            );
            assert_eq!(
                engine_merge(&file, &other, &mut [0; MERGED_ROOM]).number,
                due
            );
            assert_eq!(
                engine_merge(&other, &file, &mut [0; MERGED_ROOM]).number,
                due
            );
        }
    }
    for length in 0..version_2.len() {
        let short = length < 28 || length % 2 == 1;
        let due = match length {
            0 => 25,
            _ if short => 1,
            _ => 2,
        };
        assert_eq!(
            agreed(&version_2[..length], &other, MERGED_ROOM).number,
            due
        );
        assert_eq!(
            agreed(&other, &version_2[..length], MERGED_ROOM).number,
            due
        );
    }
}
