//! The check and placing at a minute of the week: the named cases, and the engine
//! against the second implementation.

use second::cases::{cases, check_at_cases, place_at_cases, place_cases};
use second::{Verdict, Version, ROOM};
use trials::{agreed_check_at, agreed_placing_at, compare_checking_at, compare_placing_at};
use trials::{deal, deal_bare, engine_check, engine_check_at, engine_place, engine_place_at};
use trials::{files, seed, typical, typical_bare, At};

#[test]
fn named_cases() {
    for case in check_at_cases() {
        case.demand("engine", engine_check_at);
        case.demand("second", second::check_at);
    }
    for case in place_at_cases() {
        case.demand("engine", engine_place_at);
        case.demand("second", second::place_at);
    }
}

#[test]
fn random_checks() {
    compare_checking_at(&Version::BY_ROW, seed(), files()).demand();
}

#[test]
fn random_placings() {
    compare_placing_at(&Version::BY_ROW, seed(), files() / 2).demand();
}

/// Without rows the engine answers as without hours.
#[test]
fn an_empty_table() {
    for case in cases() {
        let Verdict { number, place } = engine_check_at(&case.file, &[], 10_079);
        assert_eq!((number, place), engine_check(&case.file), "{}", case.name);
    }
    for case in place_cases() {
        case.demand("engine", |file, out| engine_place_at(file, &[], 0, out));
    }
    for index in 0..20_000 {
        let version = Version::BY_ROW[(index / 27 % 2) as usize];
        let file = deal(version, seed(), index);
        let minute = (index % 10_080) as u16;
        let Verdict { number, place } = engine_check_at(&file, &[], minute);
        assert_eq!((number, place), engine_check(&file), "file {index}");
        let (file, before) = deal_bare(version, seed(), index);
        let (mut out, mut due) = (before.clone(), before);
        let placed = engine_place_at(&file, &[], minute, &mut out);
        assert_eq!(placed, engine_place(&file, &mut due), "bare file {index}");
        assert!(out == due, "bare file {index}");
    }
}

/// Every minute, and those that there are not.
#[test]
fn all_minutes() {
    let file = typical(Version::One, seed());
    let bare = typical_bare(Version::Two, seed());
    let hours = [1, 420, 900, 2, 0, 1, 3, 10_079, 10_080, 1, 5_000, 5_001];
    for minute in 0..=u16::MAX {
        let at = |file: &[u8]| At {
            file: file.to_vec(),
            hours: hours.to_vec(),
            minute,
        };
        let late = minute > 10_079;
        let verdict = agreed_check_at(&at(&file), minute);
        assert_eq!(verdict.number == 22, late, "{minute}");
        if minute % 7 == 0 || late {
            let (placed, _) = agreed_placing_at(&at(&bare), &[0; ROOM], minute);
            assert_eq!(placed.number == 22, late, "{minute}");
        }
    }
}

/// Tables of any length, whole rows or not.
#[test]
fn tables_of_any_length() {
    let file = typical(Version::Two, seed());
    let bare = typical_bare(Version::One, seed());
    let lengths = (0..=210).chain([65_535, 65_536, 65_538, 196_605, 196_608, 196_800]);
    for words in lengths {
        let hours: Vec<u16> = [1, 0, 10_080].into_iter().cycle().take(words).collect();
        let due = if words % 3 != 0 || words > 192 { 22 } else { 0 };
        let at = |file: &[u8]| At {
            file: file.to_vec(),
            hours: hours.clone(),
            minute: 10_079,
        };
        let verdict = agreed_check_at(&at(&file), words);
        assert_eq!(verdict.number, due, "{words} words");
        let (placed, _) = agreed_placing_at(&at(&bare), &[0; ROOM], words);
        assert_eq!(placed.number, due, "{words} words");
    }
}
