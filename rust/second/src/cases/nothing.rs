//! A clinic with nothing planned: zero bytes, read, checked and placed.

use super::placing::placing;
use super::{case, Case, CheckAtCase, Due, PlaceAtCase, PlaceCase, CLEAN};
use crate::draft::to_bytes;

/// What zero bytes are read as, word by word: version 1, no records, and every
/// section where the header ends.
pub const NOTHING: [u16; 13] = [1, 0, 0, 0, 0, 0, 0, 13, 13, 13, 13, 13, 13];

/// These bytes cut or extended with zeros to a length.
fn of_length(length: usize) -> Vec<u8> {
    let mut file = to_bytes(&NOTHING);
    file.resize(length, 0);
    file
}

pub fn checks() -> Vec<Case> {
    let nothing = |name, length, answer| case(name, of_length(length), answer);
    vec![
        nothing("zero bytes: nothing planned", 0, CLEAN),
        nothing("one byte of it", 1, (1, 0)),
        nothing("two bytes of it", 2, (1, 0)),
        nothing("24 bytes of it", 24, (1, 0)),
        nothing("25 bytes of it", 25, (1, 0)),
        nothing("its 26 bytes", 26, CLEAN),
        nothing("its 26 bytes and one", 27, (1, 0)),
        nothing("its 26 bytes and two", 28, (5, 0)),
        case("one byte of zero", vec![0], (1, 0)),
        case("a word of zero", vec![0; 2], (1, 0)),
        case("25 bytes of zero", vec![0; 25], (1, 0)),
        case("26 bytes of zero", vec![0; 26], (2, 0)),
    ]
}

/// What is written is the 26 bytes, whichever were lent.
pub fn placings() -> Vec<PlaceCase> {
    let placed = |name, length| {
        let due = Due::Placed(of_length(26), 0);
        placing(name, of_length(length), due)
    };
    let short = |room| {
        let due = Due::Refused(17, 0);
        placing("zero bytes, output too short", vec![], due).with_room(room)
    };
    vec![
        placed("zero bytes", 0),
        placed("zero bytes in more room", 0).with_room(6_875),
        placed("zero bytes in as much as version 2 has", 0).with_room(6_908),
        placed("26 bytes", 26),
        short(0),
        short(26),
        short(6_873),
    ]
}

/// A table of hours has no role to name, and is judged all the same.
pub fn checks_at() -> Vec<CheckAtCase> {
    let at = |name, hours: &[u16], minute, answer| CheckAtCase {
        name,
        file: vec![],
        hours: hours.to_vec(),
        minute,
        answer,
    };
    vec![
        at("zero bytes at a minute", &[], 0, CLEAN),
        at("zero bytes at the last minute", &[], 10_079, CLEAN),
        at("zero bytes at no minute", &[], 10_080, (22, 0)),
        at("zero bytes and part of a row", &[1, 0], 0, (22, 0)),
        at("zero bytes and 65 rows", &[1, 0, 9].repeat(65), 0, (22, 0)),
        at("zero bytes and role 1", &[1, 0, 9], 0, (23, 1)),
        at("zero bytes and role 0", &[0, 0, 9], 0, (23, 1)),
    ]
}

pub fn placings_at() -> Vec<PlaceAtCase> {
    let at = |room, hours: &[u16], minute, due| PlaceAtCase {
        case: placing("zero bytes at a minute", vec![], due).with_room(room),
        hours: hours.to_vec(),
        minute,
    };
    let placed = || Due::Placed(of_length(26), 0);
    vec![
        at(6_874, &[], 0, placed()),
        at(6_908, &[], 10_079, placed()),
        at(6_873, &[], 10_080, Due::Refused(17, 0)),
        at(6_874, &[], 10_080, Due::Refused(22, 0)),
        at(6_874, &[1, 0], 0, Due::Refused(22, 0)),
        at(6_874, &[1, 0, 9], 0, Due::Refused(23, 1)),
    ]
}
