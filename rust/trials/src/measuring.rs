//! Measuring by both implementations, against placing in exactly the room wanted:
//! compared and counted.

use crate::bare::deal_bare;
use crate::deal::deal;
use crate::hours::{deal_at, deal_bare_at, engine_place_at, At};
use crate::placing::{engine_place, in_form};
use second::{room_for, Placed, Version};
use std::collections::BTreeMap;
use std::fmt::Display;

/// The least number of files for each number.
const LEAST: u64 = 500;

/// What a file to be placed can be answered with, without hours.
const NUMBERS: [u16; 15] = [0, 1, 2, 3, 4, 5, 6, 7, 8, 9, 10, 14, 15, 16, 21];

/// What hours add.
const OF_HOURS: [u16; 2] = [22, 23];

/// The engine's answer, in the second implementation's form.
pub fn engine_measure(file: &[u8]) -> Placed {
    in_form(pilzdamo::measure(file))
}

/// The engine's answer at a minute, in the second implementation's form.
pub fn engine_measure_at(file: &[u8], hours: &[u16], minute: u16) -> Placed {
    in_form(pilzdamo::measure_at(file, hours, minute))
}

/// What both answer, which is what the engine's placing answers in the room that it
/// wants. Panics if they differ.
pub fn agreed_measure(file: &[u8], origin: impl Display) -> Placed {
    let placed = engine_place(file, &mut vec![0; room_for(file)]);
    let measured = [engine_measure(file), second::measure(file)];
    assert_alike(measured, placed, || {
        let hex: String = file.iter().map(|byte| format!("{byte:02x}")).collect();
        format!("{origin}, on bytes to be had back by `xxd -r -p`:\n{hex}")
    })
}

/// The same at a minute.
pub fn agreed_measure_at(at: &At, origin: impl Display) -> Placed {
    let At {
        file,
        hours,
        minute,
    } = at;
    let placed = engine_place_at(file, hours, *minute, &mut vec![0; room_for(file)]);
    let measured = [
        engine_measure_at(file, hours, *minute),
        second::measure_at(file, hours, *minute),
    ];
    assert_alike(measured, placed, || format!("{origin}, {}", at.told()))
}

fn assert_alike([engine, second]: [Placed; 2], placed: Placed, at: impl Fn() -> String) -> Placed {
    assert!(
        engine == second && engine == placed,
        "measure differs: engine {engine:?}, second {second:?}, placed {placed:?} at {}",
        at()
    );
    assert_ne!(engine.number, 17);
    engine
}

/// How often each number came up.
#[derive(Default)]
pub struct MeasureTally {
    plain: BTreeMap<u16, u64>,
    at_a_minute: BTreeMap<u16, u64>,
}

impl MeasureTally {
    /// Prints the table, and fails if something came up too seldom.
    pub fn demand(&self) {
        let at_a_minute = [&NUMBERS[..], &OF_HOURS].concat();
        for (name, counts, due) in [
            ("measure", &self.plain, NUMBERS.to_vec()),
            ("measure at a minute", &self.at_a_minute, at_a_minute),
        ] {
            println!("{name}");
            for (number, count) in counts {
                println!("{count:>9} of {number}");
            }
            for number in due {
                let count = counts.get(&number).copied().unwrap_or(0);
                assert!(count >= LEAST, "{name}: too few of {number}");
            }
        }
    }
}

/// Deals `files` files to both, of all sorts, and panics at the first difference.
pub fn compare_measuring(seed: u64, files: u64) -> MeasureTally {
    let mut tally = MeasureTally::default();
    for index in 0..files {
        // Each family of files comes up in both versions.
        let version = Version::BY_ROW[(index / 216 % 2) as usize];
        let bare = index / 432 % 2 == 0;
        let origin = format_args!("trials::compare_measuring({seed}, ..), file {index}");
        let file = if bare {
            deal_bare(version, seed, index).0
        } else {
            deal(version, seed, index)
        };
        let placed = agreed_measure(&file, origin);
        *tally.plain.entry(placed.number).or_default() += 1;
        let at = if bare {
            deal_bare_at(&Version::BY_ROW, seed, index).0
        } else {
            deal_at(&Version::BY_ROW, seed, index)
        };
        let placed = agreed_measure_at(&at, origin);
        *tally.at_a_minute.entry(placed.number).or_default() += 1;
    }
    tally
}
