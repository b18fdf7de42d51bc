//! Reasons in words: the named cases, every combination, every near miss, and the
//! engine against the second implementation.

use second::cases::{reason_cases, NO_SENTENCES};
use second::{Reason, SENTENCE};
use std::collections::BTreeSet;
use trials::{agreed_phrase, agreed_read, agreed_reason};
use trials::{compare_reading_reasons, compare_reasons, files, seed, Rng};
use trials::{engine_read_reason, engine_reason, second_reason};

#[test]
fn named_cases() {
    for case in reason_cases() {
        case.demand("engine", engine_reason);
        case.demand("second", second_reason);
        case.demand_read("engine", engine_read_reason);
        case.demand_read("second", second::read_reason);
    }
    for sentence in NO_SENTENCES {
        assert_eq!(agreed_read(sentence.as_bytes()), Reason::NONE, "{sentence}");
    }
}

#[test]
fn random_reasons() {
    compare_reasons(seed(), files() / 2).demand();
}

#[test]
fn random_bytes() {
    compare_reading_reasons(seed(), files() / 2).demand();
}

fn numbers() -> impl Iterator<Item = u16> {
    (0..=30).chain([31, 63, 64, 255, 256, 257, 269, 1_000, 32_768, 65_535])
}

const PLACES: [u16; 7] = [0, 1, 9, 10, 99, 100, 65_535];

/// Every number, what is counted, tag, and these places and others, in rooms of 119,
/// 120 and 121 bytes. Gives the sentences.
fn sentences() -> BTreeSet<Vec<u8>> {
    let rng = &mut Rng::new(seed(), 0);
    let mut all = BTreeSet::new();
    let (mut any, mut given) = (0, 0);
    for number in numbers() {
        for counts in 0..=8 {
            for tag in 0..=10 {
                for place in PLACES.into_iter().chain([rng.word(), rng.word()]) {
                    let reason = Reason {
                        number,
                        counts,
                        place,
                        tag,
                    };
                    let room = |room: usize| agreed_reason(reason, &vec![0xa5; room]);
                    assert_eq!(room(SENTENCE - 1), b"", "{reason:?}");
                    let sentence = room(SENTENCE);
                    assert_eq!(room(SENTENCE + 1), sentence);
                    any += 1;
                    given += usize::from(!sentence.is_empty());
                    if !sentence.is_empty() && PLACES.contains(&place) {
                        assert!(all.insert(sentence), "two reasons share it: {reason:?}");
                    }
                }
            }
        }
    }
    println!("{given} of {any} have a sentence");
    all
}

#[test]
fn every_combination() {
    // Twelve of no place, and of each other place 78.
    assert_eq!(sentences().len(), 12 + 6 * 78);
}

#[test]
fn phrases() {
    for number in numbers() {
        for room in [0, 1, 119, 120, 121, 1_000] {
            let phrase = agreed_phrase(number, &vec![0xa5; room]);
            let due = room >= SENTENCE && (1..=28).contains(&number);
            assert_eq!(!phrase.is_empty(), due, "{number} in {room} bytes");
            // A phrase is no sentence.
            assert_eq!(agreed_read(&phrase), Reason::NONE);
        }
    }
}

/// Of every sentence: each byte as every other, each cut at either end, each byte more
/// at either end, each byte taken out.
#[test]
fn near_every_sentence() {
    let (sentences, mut yes) = (sentences(), 0);
    let mut read = |bytes: &[u8]| {
        let told = agreed_read(bytes);
        let one = told != Reason::NONE;
        yes += usize::from(one);
        one
    };
    for sentence in &sentences {
        assert!(read(sentence));
        let length = sentence.len();
        for at in 0..length {
            let mut bytes = sentence.clone();
            for other in (0..=255).filter(|&other| other != sentence[at]) {
                bytes[at] = other;
                // A digit of the place, or of a number whose meaning is another.
                let digits = sentence[at].is_ascii_digit() && other.is_ascii_digit();
                assert!(!read(&bytes) || digits);
            }
            assert!(!read(&sentence[..at]));
            assert!(!read(&sentence[length - at..]));
            let mut bytes = sentence.clone();
            bytes.remove(at);
            assert!(!read(&bytes) || sentence[at].is_ascii_digit());
        }
        for byte in 0..=255 {
            assert!(!read(&[&sentence[..], &[byte]].concat()));
            assert!(!read(&[&[byte], &sentence[..]].concat()));
        }
        for more in [2, 120 - length, 121 - length, 200, 65_536] {
            let mut bytes = sentence.clone();
            bytes.resize(length + more, b'.');
            assert!(!read(&bytes) || more == 0);
        }
    }
    println!("{yes} sentences read");
}
