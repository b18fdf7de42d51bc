//! Placing: the named cases, and the engine against the second implementation.

use second::draft::Draft;
use second::{Placed, Version, ROOM};
use trials::{agreed_placing, compare_placing, engine_place, files, lengthened, seed};
use trials::{full_bare, largest_bare, overfull_bare, typical_bare};

#[test]
fn named_cases() {
    for case in second::cases::place_cases() {
        case.demand("engine", engine_place);
        case.demand("second", second::place);
    }
}

#[test]
fn random_files() {
    compare_placing(Version::One, seed(), files() / 2).demand();
}

#[test]
fn random_files_of_version_2() {
    compare_placing(Version::Two, seed(), files() / 2).demand();
}

#[test]
fn a_file_at_the_start_of_a_longer_input() {
    let sounds = Version::ALL.map(|version| typical_bare(version, seed()));
    for sound in sounds.into_iter().chain([Draft::default().bytes()]) {
        let (placed, _) = agreed_placing(&sound, &[7; ROOM], "whole");
        assert_eq!(placed.number, 0);
        for (file, due) in lengthened(&sound) {
            let (placed, _) = agreed_placing(&file, &[7; ROOM], "longer");
            assert_eq!(placed, Placed::refused(due, 0));
        }
    }
}

#[test]
fn outputs_of_any_length() {
    for version in Version::ALL {
        let file = typical_bare(version, seed());
        let wanted = version.largest();
        let room = (0..30).chain(6_840..6_940).chain([65_535, 65_536, 65_537]);
        for room in room.chain([65_536 + wanted - 1, 65_536 + wanted, 131_072]) {
            let (placed, _) = agreed_placing(&file, &vec![0x5a; room], room);
            let due = if room < wanted { 17 } else { 0 };
            assert_eq!(placed.number, due, "output of {room} bytes");
        }
    }
}

/// Every input of one byte, and every first word alone, in outputs of 6,880 bytes,
/// and as long as each version wants, and one less.
#[test]
fn the_first_word_asks_for_the_output() {
    let rooms = [6_873, 6_874, 6_880, 6_907, 6_908];
    let answers = |file: &[u8]| rooms.map(|room| agreed_placing(file, &vec![0x5a; room], room).0);
    let refused = |numbers: [u16; 5]| numbers.map(|number| Placed::refused(number, 0));
    for byte in 0..=255 {
        assert_eq!(answers(&[byte]), refused([17, 1, 1, 1, 1]));
    }
    for word in 0..=u16::MAX {
        let due = match word {
            2 | 3 => [17, 17, 17, 17, 1],
            _ => [17, 1, 1, 1, 1],
        };
        assert_eq!(answers(&word.to_le_bytes()), refused(due), "{word}");
    }
}

/// The nodes of the file and of its result, if it is placed.
fn sizes(file: &[u8]) -> (usize, Option<usize>) {
    let nodes = |file: &[u8]| Draft::of(file).nodes.len();
    let (placed, out) = agreed_placing(file, &[3; ROOM], "a large file");
    match placed.number {
        0 => (nodes(file), Some(nodes(&out[..placed.length.into()]))),
        number => {
            assert_eq!(number, 16);
            (nodes(file), None)
        }
    }
}

#[test]
fn large_files() {
    for version in Version::ALL {
        let largest = largest_bare(version, seed());
        assert_eq!(sizes(&largest), (1_022, Some(1_024)));
    }
    assert_eq!(sizes(&full_bare(seed())).1, Some(1_024));
    assert_eq!(sizes(&overfull_bare(seed())), (1_024, None));
}
