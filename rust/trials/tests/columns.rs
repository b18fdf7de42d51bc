//! Nodes by column: every call on column files, by the engine, by the second
//! implementation and on their row files; and files turned both ways.

use second::cases::{cases, place_cases, turn_cases, Turn};
use second::draft::Draft;
use second::{Placed, Version, ROOM, TURNED_ROOM};
use trials::{agreed, agreed_placing, agreed_turn, column_file, compare, compare_checking_at};
use trials::{compare_choosing, compare_placing, compare_placing_at, compare_rounds};
use trials::{
    compare_running, compare_seats, compare_starting, compare_totals, compare_turning, engine_turn,
};
use trials::{files, largest, largest_bare, lengthened, row_file, second_turn, seed, typical};
use trials::{typical_bare, Turned};

const VERSION: Version = Version::Three;

#[test]
fn random_files() {
    compare(VERSION, seed(), files()).demand();
}

#[test]
fn random_placings() {
    compare_placing(VERSION, seed(), files() / 2).demand();
}

#[test]
fn random_checks_at_a_minute() {
    compare_checking_at(&[VERSION], seed(), files() / 4).demand_causes();
}

#[test]
fn random_placings_at_a_minute() {
    compare_placing_at(&[VERSION], seed(), files() / 4).demand_causes();
}

#[test]
fn random_runs() {
    compare_running(VERSION, seed(), files() / 2).demand();
}

#[test]
fn random_rounds() {
    compare_rounds(VERSION, seed(), files() / 4).demand();
}

#[test]
fn random_totals() {
    compare_totals(VERSION, seed(), files() / 4).demand();
}

#[test]
fn random_starts_and_choices() {
    compare_starting(VERSION, seed(), files() / 4).demand();
    compare_choosing(VERSION, seed(), files() / 32).demand();
}

#[test]
fn random_seats() {
    compare_seats(VERSION, seed(), files() / 8).demand();
}

#[test]
fn random_turns() {
    compare_turning(seed(), files() / 4).demand();
}

#[test]
fn named_cases_of_turning() {
    for case in turn_cases() {
        case.demand("engine", engine_turn);
        case.demand("second", second_turn);
        let turned = turned(case.turn, &case.file, case.room);
        agreed_turn(&turned, case.name);
    }
}

fn turned(turn: Turn, file: &[u8], room: usize) -> Turned {
    Turned {
        turn,
        file: file.to_vec(),
        before: vec![0x5a; room],
    }
}

/// The named cases of version 2, by column.
#[test]
fn named_cases_of_version_2_by_column() {
    let (mut checked, mut placed) = (0, 0);
    for case in cases() {
        if let Some(columns) = column_file(&case.file) {
            assert_eq!(agreed(&columns, case.name), case.answer, "{}", case.name);
            checked += 1;
        }
    }
    for case in place_cases() {
        if let Some(columns) = column_file(&case.file) {
            let by_column = agreed_placing(&columns, &vec![0x5a; case.room], case.name);
            let by_row = agreed_placing(&case.file, &vec![0x5a; case.room], case.name);
            assert_eq!(by_column.0, by_row.0, "{}", case.name);
            placed += u64::from(by_row.0.number == 0);
        }
    }
    assert!(checked > 50 && placed > 5);
}

/// A sound file with so many nodes in one session, by column.
fn compares(nodes: u16) -> Vec<u8> {
    let mut draft = Draft {
        users: vec![[0]],
        juniors: Some(vec![]),
        by_column: true,
        ..Draft::default()
    };
    if nodes > 0 {
        draft.sessions.push([1, 0, 1]);
        draft.nodes = vec![[4, 1, 1]; usize::from(nodes) - 1];
        draft.nodes.push([0, 0, 0]);
    }
    draft.bytes()
}

#[test]
fn no_node_one_and_1024() {
    for nodes in [0, 1, 2, 1_023, 1_024] {
        let file = compares(nodes);
        assert_eq!(agreed(&file, nodes), (0, 0));
        let (placed, out) = agreed_placing(&file, &[0x5a; ROOM], nodes);
        assert_eq!(placed, Placed::written(file.len() as u16, 0));
        assert_eq!(out[..file.len()], file);
        let rows = row_file(&file).expect("version 3");
        for (turn, from, to) in [
            (Turn::ToRows, &file, &rows),
            (Turn::ToColumns, &rows, &file),
        ] {
            let (written, out) = agreed_turn(&turned(turn, from, TURNED_ROOM), nodes);
            assert_eq!(usize::from(written.length), to.len());
            assert_eq!(out[..to.len()], to[..]);
        }
    }
    let largest = largest(VERSION, seed());
    assert_eq!(
        (largest.len(), Draft::of(&largest).nodes.len()),
        (6_908, 1_024)
    );
    assert_eq!(agreed(&largest, "the largest"), (0, 0));
}

/// The output's columns are as long as it has nodes, which are two more.
#[test]
fn placed_in_1024_nodes() {
    let file = largest_bare(VERSION, seed());
    let (placed, out) = agreed_placing(&file, &[0x5a; ROOM], "the largest");
    let out = Draft::of(&out[..placed.length.into()]);
    assert_eq!(Draft::of(&file).nodes.len(), 1_022);
    assert_eq!((out.nodes.len(), out.version()), (1_024, VERSION));
}

#[test]
fn prefixes_and_longer_files() {
    for sound in [typical(VERSION, seed()), typical_bare(VERSION, seed())] {
        for length in 1..=sound.len() {
            let (number, _) = agreed(&sound[..length], "prefix");
            let (short, odd) = (length < 28, length % 2 == 1);
            match number {
                0 | 13 => assert_eq!(length, sound.len()),
                1 => assert!(short || odd),
                _ => assert!(number == 5 && length < sound.len()),
            }
            agreed_turn(&turned(Turn::ToRows, &sound[..length], TURNED_ROOM), length);
        }
        for (file, number) in lengthened(&sound) {
            assert_eq!(agreed(&file, "longer"), (number, 0));
            let turned = turned(Turn::ToRows, &file, TURNED_ROOM);
            assert_eq!(agreed_turn(&turned, "longer").0.number, number);
        }
    }
}
