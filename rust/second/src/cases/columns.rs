//! Cases of version 3: nodes by column.

use super::juniors::HEAD_NURSE;
use super::placing::{placing as place_case, Due, PlaceCase};
use super::{case, Case, BOOKING, CLEAN};
use crate::draft::{set_word, to_bytes, Draft};
use crate::{Version, Written, TURNED_ROOM};

/// The head nurse's file with its nodes by column, word by word: all tags, then all
/// f1, then all f2.
pub const BY_COLUMN: [u16; 44] = [
    3, 2, 2, 2, 2, 1, 3, 14, 16, 24, 26, 28, 32, 35, 2, 0, 1, 0, 0, 0, 2, 0, 0, 0, 0, 1, 0, 0, 2,
    1, 2, 2, 1, 0, 1, 6, 6, 0, 257, 258, 0, 2, 2, 0,
];

/// What placing makes of it: five nodes, by column.
const PLACED: [u16; 50] = [
    3, 2, 2, 2, 2, 1, 5, 14, 16, 24, 26, 28, 32, 35, 2, 0, 1, 0, 0, 0, 2, 0, 0, 0, 0, 1, 0, 0, 2,
    1, 2, 2, 1, 0, 1, 7, 6, 6, 8, 0, 2, 257, 258, 2, 0, 0, 2, 2, 0, 0,
];

/// The version 3 file with all counts 0.
const NO_RECORDS: [u16; 14] = [3, 0, 0, 0, 0, 0, 0, 14, 14, 14, 14, 14, 14, 14];

fn with_word(file: &[u8], at: usize, word: u16) -> Vec<u8> {
    let mut file = file.to_vec();
    set_word(&mut file, at, word);
    file
}

/// Headers, lengths and nodes.
pub fn checks() -> Vec<Case> {
    let file = to_bytes(&BY_COLUMN);
    let cut = |length: usize| file[..length].to_vec();
    let longer = |more: usize| [file.clone(), vec![0; more]].concat();
    let of = |name, at, word, answer| case(name, with_word(&file, at, word), answer);
    vec![
        case("3: the head nurse by column", file.clone(), (13, 1)),
        case("3: placed", to_bytes(&PLACED), CLEAN),
        case("3: nothing at all in it", to_bytes(&NO_RECORDS), CLEAN),
        case("3: one byte", vec![3], (1, 0)),
        case("3: the version alone", vec![3, 0], (1, 0)),
        case("3: 26 bytes", cut(26), (1, 0)),
        case("3: 27 bytes", cut(27), (1, 0)),
        case("3: 28 bytes, the header alone", cut(28), (5, 0)),
        case("3: odd length", longer(1), (1, 0)),
        case("3: one word too many", longer(2), (5, 0)),
        case("3: one word too few", cut(86), (5, 0)),
        of("3: as version 1", 0, 1, (4, 0)),
        of("3: as version 2", 0, 2, (8, 2)),
        of("3: as version 4", 0, 4, (2, 0)),
        of("3: 1,025 nodes", 6, 1_025, (3, 0)),
        of("3: the juniors' offset", 9, 26, (4, 0)),
        of("3: user 1 with role 3", 14, 4, (6, 14)),
        of("3: role 2 as its own junior", 25, 2, (21, 25)),
        of("3: the root", 34, 2, (8, 1)),
        of("3: tag 9 at node 2", 36, 9, (8, 2)),
        of("3: f1 of the end", 40, 1, (8, 3)),
        of("3: f2 of the end", 43, 1, (8, 3)),
        of("3: no channel 3 at node 2", 39, 259, (9, 2)),
        of("3: no user 3 at node 1", 41, 3, (9, 1)),
        of("3: a send on a plain value at node 2", 39, 1, (10, 2)),
    ]
}

/// A file keeps the form in which it came.
pub fn placings() -> Vec<PlaceCase> {
    let (file, none) = (to_bytes(&BY_COLUMN), to_bytes(&NO_RECORDS));
    let placed = |room| {
        let due = Due::Placed(to_bytes(&PLACED), 1);
        place_case("3: the head nurse by column", file.clone(), due).with_room(room)
    };
    let short = |file: &[u8], room| {
        let due = Due::Refused(17, 0);
        place_case("3: output too short", file.to_vec(), due).with_room(room)
    };
    let one = place_case("3: one byte", vec![3], Due::Refused(1, 0)).with_room(6_874);
    vec![
        placed(6_908),
        placed(6_909),
        place_case("3: no sessions", none.clone(), Due::Placed(none, 0)),
        short(&file, 0),
        short(&file, 6_874),
        short(&file, 6_907),
        short(&[3, 0], 6_907),
        one,
    ]
}

/// Which way a file is turned.
#[derive(Clone, Copy, Debug, PartialEq, Eq, PartialOrd, Ord)]
pub enum Turn {
    ToColumns,
    ToRows,
}

impl Turn {
    pub const ALL: [Turn; 2] = [Turn::ToColumns, Turn::ToRows];

    /// The version that it takes.
    pub fn from(self) -> Version {
        match self {
            Turn::ToColumns => Version::Two,
            Turn::ToRows => Version::Three,
        }
    }

    /// The other way.
    pub fn back(self) -> Turn {
        match self {
            Turn::ToColumns => Turn::ToRows,
            Turn::ToRows => Turn::ToColumns,
        }
    }
}

/// A file, the length of the output, and what turning does with them.
pub struct TurnCase {
    pub name: &'static str,
    pub turn: Turn,
    pub file: Vec<u8>,
    pub room: usize,
    /// A refusal's number, its place being 0, or the turned file.
    pub due: Result<Vec<u8>, u16>,
}

impl TurnCase {
    /// Fails unless `turn` gives the answer that is due and leaves the output as it
    /// should be, whatever that held before.
    pub fn demand(&self, who: &str, turn: impl Fn(Turn, &[u8], &mut [u8]) -> Written) {
        let name = self.name;
        for fill in [0, 0xa5] {
            let (mut out, mut due) = (vec![fill; self.room], vec![fill; self.room]);
            let answer = match &self.due {
                &Err(number) => Written::refused(number, 0),
                Ok(file) => {
                    due[..file.len()].copy_from_slice(file);
                    Written::bytes(file.len() as u16)
                }
            };
            let written = turn(self.turn, &self.file, &mut out);
            assert_eq!(written, answer, "{who}: {name}");
            let differs = out.iter().zip(&due).position(|(byte, due)| byte != due);
            assert_eq!(differs, None, "{who}: a byte of the output of {name}");
        }
    }
}

/// All of turning.
pub fn turn_cases() -> Vec<TurnCase> {
    [turned(), rooms(), refusals(), versions()]
        .into_iter()
        .flatten()
        .collect()
}

fn turning(name: &'static str, turn: Turn, file: &[u8], due: Result<&[u8], u16>) -> TurnCase {
    TurnCase {
        name,
        turn,
        file: file.to_vec(),
        room: TURNED_ROOM,
        due: due.map(<[u8]>::to_vec),
    }
}

/// Both ways.
fn either(name: &'static str, rows: &[u8], columns: &[u8]) -> [TurnCase; 2] {
    [
        turning(name, Turn::ToColumns, rows, Ok(columns)),
        turning(name, Turn::ToRows, columns, Ok(rows)),
    ]
}

fn turned() -> Vec<TurnCase> {
    let [rows, columns] = [&HEAD_NURSE, &BY_COLUMN].map(|words| to_bytes(words));
    let none = to_bytes(&NO_RECORDS);
    // Only the header is judged: a node of any words is turned.
    let odd_nodes = |version, words: [u16; 6]| {
        let head = [version, 0, 0, 0, 0, 0, 2, 14, 14, 14, 14, 14, 14, 14];
        to_bytes(&[&head[..], &words].concat())
    };
    let any = [
        odd_nodes(2, [9, 8, 7, 65_535, 5, 4]),
        odd_nodes(3, [9, 65_535, 8, 5, 7, 4]),
    ];
    let one_node = |version| Draft {
        juniors: Some(vec![]),
        nodes: vec![[1, 2, 3]],
        by_column: version == Version::Three,
        ..Draft::default()
    };
    let one = [Version::Two, Version::Three].map(|version| one_node(version).bytes());
    [
        either("the head nurse", &rows, &columns),
        either("no records", &with_word(&none, 0, 2), &none),
        either("nodes of any words", &any[0], &any[1]),
        // By row and by column the words of one node are in the same order.
        either("one node", &one[0], &with_word(&one[0], 0, 3)),
        either("one node", &with_word(&one[1], 0, 2), &one[1]),
    ]
    .into_iter()
    .flatten()
    .collect()
}

fn rooms() -> Vec<TurnCase> {
    let [rows, columns] = [&HEAD_NURSE, &BY_COLUMN].map(|words| to_bytes(words));
    let of = |name, room, due: fn(TurnCase) -> TurnCase| {
        either(name, &rows, &columns).map(|case| due(TurnCase { room, ..case }))
    };
    let refused = |case| TurnCase {
        due: Err(17),
        ..case
    };
    let nothing = Turn::ALL.map(|turn| TurnCase {
        room: 6_907,
        ..turning("17 before 1", turn, &[1], Err(17))
    });
    [
        of("no output", 0, refused),
        of("an output of the file's length", 88, refused),
        of("an output as version 1 has it", 6_874, refused),
        of("a byte too few", 6_907, refused),
        of("a byte more", 6_909, |case| case),
        of("a long output", 70_000, |case| case),
        nothing,
    ]
    .into_iter()
    .flatten()
    .collect()
}

/// 1 to 5; later refusals play no part here.
fn refusals() -> Vec<TurnCase> {
    let mut cases = Vec::new();
    for turn in Turn::ALL {
        let number = turn.from().number();
        let file = with_word(&to_bytes(&HEAD_NURSE), 0, number);
        let longer = |more| [file.clone(), vec![0; more]].concat();
        let of = |name, at, word, due| turning(name, turn, &with_word(&file, at, word), Err(due));
        cases.extend([
            turning("one byte", turn, &file[..1], Err(1)),
            turning("26 bytes", turn, &file[..26], Err(1)),
            turning("27 bytes", turn, &file[..27], Err(1)),
            turning("an odd length", turn, &longer(1), Err(1)),
            turning("the header alone", turn, &file[..28], Err(5)),
            turning("a word too many", turn, &longer(2), Err(5)),
            of("no such version", 0, 4, 2),
            of("version 0", 0, 0, 2),
            of("33 users", 1, 33, 3),
            of("1,025 nodes", 6, 1_025, 3),
            of("an offset", 13, 0, 4),
        ]);
    }
    cases
}

/// Another version is 2 at its turn: after 1, and before 3, 4 and 5.
fn versions() -> Vec<TurnCase> {
    let booking = to_bytes(&BOOKING);
    let mut cases = Vec::new();
    for turn in Turn::ALL {
        let other = turn.back().from().number();
        let file = with_word(&to_bytes(&HEAD_NURSE), 0, other);
        let of = |name, at, word| turning(name, turn, &with_word(&file, at, word), Err(2));
        cases.extend([
            turning("zero bytes are of version 1", turn, &[], Err(2)),
            turning("version 1", turn, &booking, Err(2)),
            turning("version 1, cut off", turn, &booking[..26], Err(2)),
            turning("the other version", turn, &file, Err(2)),
            turning("the other version, cut off", turn, &file[..28], Err(2)),
            turning("the other version in 26 bytes", turn, &file[..26], Err(1)),
            turning("the other version, odd", turn, &file[..29], Err(1)),
            of("the other version with 33 users", 1, 33),
            of("the other version with a wrong offset", 8, 0),
        ]);
    }
    cases
}
