//! Searches by the engine's calls alone.

use pilzdamo::{choose, offers, start, start_row, Thread, BESIDE, OFFERS_ROOM, RECORDS};
use second::Certificate;
use std::collections::{HashMap, HashSet};

/// All states, breadth first, found by the engine's offers alone, if there are at most so
/// many. Panics where the file, the seats or a state is refused.
pub fn search_by_offers(file: &[u8], seats: &[u16], limit: usize) -> Option<Certificate> {
    let mut out = vec![0; OFFERS_ROOM];
    let start = start_row(file, seats).expect("it starts");
    let mut found = Certificate {
        states: start.clone(),
        places: vec![0],
        next: Vec::new(),
    };
    let mut numbers = HashMap::from([(start, 0)]);
    let mut done = 0;
    while done < found.places.len() {
        if found.places.len() > limit {
            return None;
        }
        let end = found.places.get(done + 1).map(|end| *end as usize);
        let row = found.places[done] as usize..end.unwrap_or(found.states.len());
        let told = offers(file, seats, &found.states[row], &mut out);
        assert!(told.is_whole(), "{told}");
        for offer in told.each(&out) {
            let number = match numbers.get(offer.words) {
                Some(number) => *number,
                None => {
                    let number = found.places.len() as u32;
                    found.places.push(found.states.len() as u32);
                    found.states.extend(offer.words);
                    numbers.insert(offer.words.to_vec(), number);
                    number
                }
            };
            found.next.push(number);
        }
        done += 1;
    }
    Some(found)
}

/// How many states there are without seats, found choice by choice in a list of threads, if
/// they are at most so many. Panics where the file is refused.
pub fn search_by_choose(file: &[u8], limit: usize) -> Option<usize> {
    let (mut threads, mut beside) = ([Thread::default(); RECORDS], [0; BESIDE]);
    start(file, &mut threads, &mut beside)
        .result()
        .expect("it starts");
    let state = |threads: &[Thread], beside: &[u16; BESIDE]| {
        (threads[..beside[0].into()].to_vec(), *beside)
    };
    let mut states = vec![state(&threads, &beside)];
    let mut known = HashSet::from([states[0].clone()]);
    let mut done = 0;
    while done < states.len() {
        if states.len() > limit {
            return None;
        }
        let count = states[done].0.len() as u16;
        let mut stand = true;
        for thread in 1..=count {
            for partner in 0..=count {
                if stand {
                    let (before, words) = &states[done];
                    threads[..before.len()].copy_from_slice(before);
                    beside = *words;
                }
                let verdict = choose(file, &mut threads, &mut beside, thread, partner);
                stand = verdict.is_clean();
                if stand {
                    let next = state(&threads, &beside);
                    if known.insert(next.clone()) {
                        states.push(next);
                    }
                }
            }
        }
        done += 1;
    }
    Some(done)
}
