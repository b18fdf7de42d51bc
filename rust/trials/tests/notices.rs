//! The plan in force: the named cases, every length and day near a notice's, and the
//! engine against the second implementation.

use second::cases::{notice, notice_cases};
use second::{InForce, Version};
use trials::{agreed_in_force, compare_notices, engine_in_force, files, seed};
use trials::{largest, lengthened, typical, typical_notices, Notices};

#[test]
fn named_cases() {
    for case in notice_cases() {
        case.demand("engine", |first, second, day| {
            engine_in_force(first, second, day).0
        });
        case.demand("second", second::in_force);
        let notices = Notices {
            first: case.first,
            second: case.second,
            day: case.day,
        };
        agreed_in_force(&notices, case.name);
    }
}

#[test]
fn random_notices() {
    compare_notices(seed(), files() / 2).demand();
}

/// What both answer.
fn agreed(first: &[u8], second: &[u8], day: u16) -> InForce {
    let notices = Notices {
        first: first.to_vec(),
        second: second.to_vec(),
        day,
    };
    agreed_in_force(&notices, day)
}

/// The part is the notice's own memory, also where both notices are one.
#[test]
fn the_part_is_not_a_copy() {
    let Notices { first, second, day } = typical_notices(seed());
    let (_, part) = engine_in_force(&first, &second, day);
    assert_eq!(part.as_ptr(), second[4..].as_ptr());
    assert_eq!(part.len(), second.len() - 4);
    let (_, part) = engine_in_force(&second, &first, day);
    assert_eq!(part.as_ptr(), second[4..].as_ptr());
    let (told, part) = engine_in_force(&first, &first, day);
    assert_eq!((told.notice, part.as_ptr()), (2, first[4..].as_ptr()));
    // A refusal has an empty part of the first, wherever that is.
    for day in [0, day] {
        let (told, part) = engine_in_force(&first, &second[..9], day);
        assert_eq!((told.number, told.place), (27, 2));
        assert_eq!((part.as_ptr(), part.len()), (first.as_ptr(), 0));
    }
    let (told, part) = engine_in_force(&first, &second, 9_800);
    assert_eq!((told.number, told.place), (28, 0));
    assert_eq!((part.as_ptr(), part.len()), (first.as_ptr(), 0));
    // A notice at an odd address.
    let shifted = [&[0][..], &first].concat();
    let (told, part) = engine_in_force(&shifted[1..], &shifted[1..], day);
    assert_eq!((told.number, part.as_ptr()), (0, shifted[5..].as_ptr()));
}

/// Every first day near the other's, and every day near both.
#[test]
fn days_near_each_other() {
    let file = typical(Version::One, seed());
    for base in [0, 250, 9_801, 32_760, 65_525] {
        for one in base..=base + 10 {
            for other in base..=base + 10 {
                let [first, second] = [one, other].map(|begins| notice(begins, &file));
                for day in base..=base + 10 {
                    let told = agreed(&first, &second, day);
                    let due = match (one <= day, other <= day) {
                        (false, false) => 0,
                        (true, false) => 1,
                        (true, true) if one > other => 1,
                        _ => 2,
                    };
                    let notice = if told.number == 0 { told.notice } else { 0 };
                    assert_eq!(notice, due, "{one} and {other} on {day}");
                }
            }
        }
    }
}

/// Every day and every first day there is.
#[test]
fn all_days() {
    let Notices { first, second, .. } = typical_notices(seed());
    let small = |begins| notice(begins, &[]);
    for day in 0..=u16::MAX {
        let due = match day {
            ..9_801 => InForce::refused(28, 0),
            9_801..9_831 => InForce::part(1, 4, (first.len() - 4) as u16),
            _ => InForce::part(2, 4, (second.len() - 4) as u16),
        };
        assert_eq!(engine_in_force(&first, &second, day).0, due);
        assert_eq!(second::in_force(&first, &second, day), due);
        let (early, late) = (small(day / 2), small(day));
        assert_eq!(agreed(&early, &late, day).notice, 2);
        assert_eq!(
            agreed(&late, &early, day).notice,
            if day == 0 { 2 } else { 1 }
        );
    }
}

#[test]
fn every_prefix_of_a_notice() {
    let Notices { first, second, day } = typical_notices(seed());
    for length in 0..first.len() {
        let refused = |place| InForce::refused(27, place);
        assert_eq!(agreed(&first[..length], &second, day), refused(1));
        assert_eq!(agreed(&second, &first[..length], day), refused(2));
    }
    // Those whose length word is right.
    let file = &first[4..];
    for length in 0..=file.len() {
        let cut = notice(9, &file[..length]);
        let due = match length {
            0 => InForce::part(2, 4, 0),
            _ if length == file.len() => InForce::part(2, 4, length as u16),
            _ => InForce::refused(27, 2),
        };
        assert_eq!(agreed(&cut, &cut, 9).number, due.number);
        assert_eq!(agreed(&notice(8, &[]), &cut, 9), due);
    }
}

/// Every length word, in a notice of some bytes and of none.
#[test]
fn every_length_word() {
    let Notices { first, .. } = typical_notices(seed());
    for sound in [&first[..], &first[..4]] {
        let mut wrong = sound.to_vec();
        for word in 0..=u16::MAX {
            wrong[2..4].copy_from_slice(&word.to_le_bytes());
            let due = if usize::from(word) == sound.len() - 4 {
                0
            } else {
                27
            };
            assert_eq!(engine_in_force(&wrong, &first, 9_999).0.number, due);
            assert_eq!(second::in_force(&wrong, &first, 9_999).number, due);
            let told = engine_in_force(&first, &wrong, 9_999).0;
            assert_eq!(
                (told.number, told.place),
                (due, if due == 0 { 0 } else { 2 })
            );
        }
    }
}

#[test]
fn large_and_long_files() {
    for version in Version::ALL {
        let file = largest(version, seed());
        let told = notice(7, &file);
        let due = InForce::part(2, 4, file.len() as u16);
        assert_eq!(agreed(&told, &told, 7), due);
    }
    let sound = typical(Version::One, seed());
    let other = notice(3, &[]);
    for (file, _) in lengthened(&sound) {
        for length in [file.len() as u16, sound.len() as u16] {
            let mut long = notice(7, &file);
            long[2..4].copy_from_slice(&length.to_le_bytes());
            assert_eq!(agreed(&long, &other, 9), InForce::refused(27, 1));
            assert_eq!(agreed(&other, &long, 9), InForce::refused(27, 2));
        }
    }
    let full = notice(7, &vec![0; 65_535]);
    assert_eq!(agreed(&full, &other, 9), InForce::refused(27, 1));
}
