//! Searches for all states of a routine: by offers, and choice by choice.

use second::Certificate;
use std::hint::black_box;
use std::time::Instant;
use trials::Certified;

/// How often each search is made.
pub const SEARCHES: usize = 5;

/// The best nanoseconds a state of each search, which finds what is found already: by the
/// engine's offers, choice by choice in a list of threads, and by the second implementation.
pub fn times(certified: &Certified) -> [(&'static str, f64); 3] {
    let Certified {
        file,
        seats,
        certificate,
    } = certified;
    let states = certificate.places.len();
    let best = |search: &dyn Fn() -> usize| {
        let one = || {
            let start = Instant::now();
            assert_eq!(black_box(search()), states);
            start.elapsed().as_nanos() as f64 / states as f64
        };
        (0..SEARCHES).map(|_| one()).fold(f64::INFINITY, f64::min)
    };
    let rows = |found: Option<Certificate>| found.map_or(0, |found| found.places.len());
    [
        (
            "offers",
            best(&|| rows(trials::search_by_offers(file, seats, states))),
        ),
        (
            "choose",
            best(&|| trials::search_by_choose(file, states).unwrap_or(0)),
        ),
        (
            "second",
            best(&|| rows(second::search(file, seats, states))),
        ),
    ]
}
