//! Whether one bed can be promised twice in the examples of spring and of seats: every
//! state that any list of choices comes to is visited, by the engine's own runs.

use crate::common::{example_bytes, numbers, pilzdamo_fed, placed};
use pilzdamo::{run_seated, seats, State, RUN_ROOM};
use std::collections::{HashSet, VecDeque};

/// The roles of these files: reading, bed holder, desk.
const NO_LIMITS: [u16; 3] = [0, 0, 0];

/// Bed holder has one seat.
fn one_holder() -> Vec<u16> {
    numbers("seats/one-holder.seats")
}

/// A state, by a list that comes to it.
struct Reached {
    list: Vec<u16>,
    state: State,
    /// The bed that each scheduler, users 1 and 2, was told last, 0 for none yet.
    told: [u16; 2],
}

/// What a search came to.
#[derive(Debug, PartialEq)]
struct Found {
    states: usize,
    /// States in which both schedulers were promised one bed.
    twice: usize,
    /// The first list that was found to come to one, which none shorter does.
    list: Option<Vec<u16>>,
}

/// A file, a table of seats, and the variable in which a scheduler is told the bed.
struct Search<'a> {
    file: &'a [u8],
    seats: &'a [u16],
    variable: usize,
}

impl Search<'_> {
    /// What a list comes to, or the number with which a choice of it is refused.
    fn reach(&self, list: Vec<u16>, before: [u16; 2]) -> Result<Reached, u16> {
        let mut out = [0; RUN_ROOM];
        let written = run_seated(self.file, &list, self.seats, &mut out);
        if !written.is_written() {
            return Err(written.number);
        }
        let state = State::of(&out).expect("a state fits in its room");
        let mut told = before;
        for thread in &state.threads {
            if let (user @ 1..=2, bed @ 1..) = (thread.user, thread.vars[self.variable - 1]) {
                told[usize::from(user) - 1] = bed;
            }
        }
        Ok(Reached { list, state, told })
    }

    /// All that decides how it goes on. A thread's session is that of its node.
    fn key(&self, reached: &Reached) -> Vec<u16> {
        let mut key = reached.told.to_vec();
        for thread in &reached.state.threads {
            key.extend([thread.user, thread.node, thread.mask]);
            key.extend(thread.vars);
        }
        let made = reached.state.made.iter();
        key.extend(made.flat_map(|channel| [0, channel.owner, channel.kind]));
        if self.seats.iter().any(|&seats| seats != 0) {
            let read = seats(self.file, &reached.list, self.seats);
            for role in 1..=3 {
                key.push(0);
                key.extend(read.line_of(role));
            }
        }
        key
    }

    /// What each choice comes to that can be done next. Only a send has a partner, and
    /// without one it is refused with 18.
    fn next(&self, reached: &Reached) -> Vec<Reached> {
        let count = reached.state.threads.len() as u16;
        let mut next = Vec::new();
        for thread in 1..=count {
            let with = |partner| [&reached.list[..], &[thread, partner]].concat();
            match self.reach(with(0), reached.told) {
                Ok(alone) => next.push(alone),
                Err(18) => next
                    .extend((1..=count).filter_map(|it| self.reach(with(it), reached.told).ok())),
                Err(_) => {}
            }
        }
        next
    }

    /// Goes to all states, those with the shortest lists first.
    fn all(&self) -> Found {
        let Ok(start) = self.reach(Vec::new(), [0; 2]) else {
            panic!("it starts");
        };
        let mut seen = HashSet::from([self.key(&start)]);
        let mut open = VecDeque::from([start]);
        let (mut states, mut twice, mut list) = (0, 0, None);
        while let Some(reached) = open.pop_front() {
            states += 1;
            if reached.told[0] != 0 && reached.told[0] == reached.told[1] {
                twice += 1;
                list.get_or_insert_with(|| reached.list.clone());
            }
            let next = self.next(&reached).into_iter();
            open.extend(next.filter(|next| seen.insert(self.key(next))));
        }
        Found {
            states,
            twice,
            list,
        }
    }
}

/// The search of a file with these seats.
fn search(file: &[u8], seats: &[u16], variable: usize) -> Found {
    let search = Search {
        file,
        seats,
        variable,
    };
    search.all()
}

/// That the examples' page says what a search came to.
fn said_in_the_readme(found: &Found) {
    let readme = String::from_utf8(example_bytes("README.md")).expect("text");
    let number = |count| match count {
        0 => "none".to_string(),
        1..1000 => count.to_string(),
        _ => format!("{},{:03}", count / 1000, count % 1000),
    };
    let (states, twice) = (number(found.states), number(found.twice));
    let due = format!("{states} states, and in {twice} of them");
    assert!(readme.contains(&due), "{found:?}: {due}");
}

/// The desk hands its note out when it is asked, and a scheduler holds role 2 until the
/// changed note is confirmed: with one seat no list promises one bed twice. Without seats
/// some do, which this search does find.
#[test]
fn a_desk_that_is_asked() {
    let file = placed("seats/asked.clinic");
    let free = search(&file, &NO_LIMITS, 2);
    assert_eq!((free.states, free.twice), (82_176, 49_896));
    let seated = search(&file, &one_holder(), 2);
    assert_eq!((seated.states, seated.twice), (22_528, 0));
    said_in_the_readme(&free);
    said_in_the_readme(&seated);
}

/// The same routine with the lowest role for each step, as the engine of spring had it: with
/// one seat in each role there is a list that promises one bed twice.
#[test]
fn a_desk_that_is_asked_and_schedulers_that_are_cut() {
    let text = String::from_utf8(placed("seats/asked.txt")).expect("text");
    let cut = text
        .replace(
            "  receive bed on reply\n",
            "  off holder\n  on reader\n  receive bed on reply\n  off reader\n  on holder\n",
        )
        .replace(
            "  receive changed on reply\n  off holder\n",
            "  off holder\n  on reader\n  receive changed on reply\n  off reader\n",
        );
    assert_eq!(cut.lines().count(), text.lines().count() + 12);
    let file = pilzdamo_fed(&["pack", "-"], cut.as_bytes()).out;
    assert!(pilzdamo::check(&file).is_clean());
    let list = [
        1, 0, 1, 0, 2, 0, 3, 0, 5, 0, 1, 5, 1, 0, 1, 0, 2, 0, 3, 5, 5, 1, 1, 0, 5, 0, 6, 0, 2, 6,
        2, 0, 2, 0, 5, 6, 6, 2,
    ];
    let search = Search {
        file: &file,
        seats: &[1, 1, 0],
        variable: 2,
    };
    let reached = search.reach(list.to_vec(), [0; 2]).ok();
    assert_eq!(reached.expect("it is done").told, [4, 4]);
}

/// In spring the desk passes its note on before the booking has come in: cut or placed, with
/// seats or without, there are lists that promise one bed twice.
#[test]
fn the_desk_of_spring() {
    let (cut, placed) = (
        example_bytes("spring/cut.clinic"),
        placed("spring/bare.clinic"),
    );
    let found = [
        (&cut, &NO_LIMITS[..]),
        (&cut, &[1, 1, 0]),
        (&placed, &NO_LIMITS),
        (&placed, &one_holder()),
    ]
    .map(|(file, seats)| search(file, seats, 1));
    println!("{found:?}");
    for found in found {
        assert!(found.twice > 0);
        said_in_the_readme(&found);
    }
}
