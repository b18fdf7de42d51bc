//! Whether one bed can be promised twice in the examples, by a search of all states that
//! any list of choices comes to.

use second::{begin_seated, Answer, SeatedRun, ROOM};
use std::collections::HashSet;

/// The roles of these files: reading, bed holder, desk.
const NO_LIMITS: [u16; 3] = [0, 0, 0];
const ONE_HOLDER: [u16; 3] = [0, 1, 0];

/// The file of an example, placed.
fn placed(name: &str) -> Vec<u8> {
    let folder = concat!(env!("CARGO_MANIFEST_DIR"), "/../../examples");
    let file = std::fs::read(format!("{folder}/{name}")).expect("an example");
    let mut out = [0; ROOM];
    let placed = second::place(&file, &mut out);
    assert_eq!(placed.number, 0, "{name}");
    out[..placed.length.into()].to_vec()
}

/// A state, and the bed that each of the two schedulers, sessions 1 and 2, was told
/// first, 0 for none yet.
#[derive(Clone)]
struct Stand<'a> {
    run: SeatedRun<'a>,
    told: [u16; 2],
}

impl<'a> Stand<'a> {
    fn start(file: &'a [u8], seats: &[u16]) -> Stand<'a> {
        Stand {
            run: begin_seated(file, seats).expect("it starts"),
            told: [0; 2],
        }
    }

    /// All that decides how it goes on.
    fn key(&self) -> Vec<u16> {
        let mut key = self.told.to_vec();
        for (thread, owner) in self.run.run().threads().iter().zip(self.run.owners()) {
            key.extend([*owner, thread.node, thread.mask]);
            key.extend(thread.variables);
        }
        for &[owner, kind] in self.run.run().made() {
            key.extend([0, owner, kind]);
        }
        for role in 1..=3 {
            key.push(0);
            key.extend(self.run.line(role));
        }
        key
    }

    /// What the schedulers were told, from a variable of this number.
    fn look(&mut self, variable: usize) {
        let threads = self.run.run().threads().iter();
        for (thread, owner) in threads.zip(self.run.owners()) {
            if let (1 | 2, bed @ 1..) = (owner, thread.variables[variable - 1]) {
                self.told[usize::from(*owner) - 1] = bed;
            }
        }
    }

    /// The state after a choice, unless it is refused.
    fn after(&self, thread: u16, partner: u16) -> Option<(Stand<'a>, Answer)> {
        let mut next = self.clone();
        let answer = next.run.choose(thread, partner).ok()?;
        Some((next, answer))
    }
}

/// What a search came to.
#[derive(Debug, Default, PartialEq)]
struct Found {
    states: usize,
    /// States in which both schedulers were told one bed.
    twice: usize,
    /// States in which both were told one, and not the same.
    both: usize,
    /// States in which nothing can be done but to ask again for a seat, and somebody
    /// does.
    blocked: usize,
    /// States in which over one session has role 2.
    two_holders: usize,
}

/// Goes to all states. A scheduler has the bed in this variable.
fn search(file: &[u8], seats: &[u16], variable: usize) -> Found {
    let start = Stand::start(file, seats);
    let mut seen = HashSet::from([start.key()]);
    let mut open = vec![start];
    let mut found = Found::default();
    while let Some(stand) = open.pop() {
        let [one, other] = stand.told;
        found.states += 1;
        found.twice += usize::from(one != 0 && one == other);
        found.both += usize::from(one != 0 && other != 0 && one != other);
        found.two_holders += usize::from(stand.run.seated(2).count_ones() > 1);
        let count = stand.run.run().threads().len() as u16;
        let (mut goes, mut waits) = (false, false);
        for thread in 1..=count {
            for partner in 0..=count {
                let Some((mut next, answer)) = stand.after(thread, partner) else {
                    continue;
                };
                goes |= answer == Answer::Done;
                waits |= answer == Answer::NoSeat;
                next.look(variable);
                if seen.insert(next.key()) {
                    open.push(next);
                }
            }
        }
        found.blocked += usize::from(waits && !goes);
    }
    found
}

/// The desk hands its note out when it is asked, and a scheduler holds role 2 until the
/// changed note is confirmed: with one seat no list promises one bed twice, and none comes
/// to a stand; two different beds are promised. Without seats one bed is.
#[test]
fn a_desk_that_is_asked() {
    let file = placed("seats/asked.clinic");
    let free = search(&file, &NO_LIMITS, 2);
    assert!(
        free.twice > 0 && free.both > 0 && free.two_holders > 0,
        "{free:?}"
    );
    let seated = search(&file, &ONE_HOLDER, 2);
    assert!(seated.both > 0, "{seated:?}");
    assert_eq!((seated.twice, seated.two_holders), (0, 0), "{seated:?}");
    assert_eq!(seated.blocked, 0, "{seated:?}");
    println!("without seats {free:?}\nwith one seat {seated:?}");
}

/// In spring the desk passes its note on before the booking has come in, so that one bed
/// is promised twice with one seat too; and some lists come to a stand.
#[test]
fn spring() {
    let file = placed("spring/bare.clinic");
    let free = search(&file, &NO_LIMITS, 1);
    assert!(free.twice > 0 && free.two_holders > 0, "{free:?}");
    assert_eq!(free.blocked, 0, "{free:?}");
    let seated = search(&file, &ONE_HOLDER, 1);
    assert!(seated.twice > 0 && seated.both > 0, "{seated:?}");
    assert_eq!(seated.two_holders, 0, "{seated:?}");
    assert!(seated.blocked > 0, "{seated:?}");
    println!("without seats {free:?}\nwith one seat {seated:?}");
}
