//! Certificates for all lists of choices: how they are found, and how they are judged.

use crate::running::{Answer, SeatedRun};
use crate::Offers;
use std::collections::hash_map::{Entry, HashMap};
use std::ops::Range;

/// The states that a run comes to, and what follows from each.
#[derive(Clone, Debug, Default, PartialEq, Eq)]
pub struct Certificate {
    /// The words of all rows.
    pub states: Vec<u16>,
    /// The word at which each row begins.
    pub places: Vec<u32>,
    /// For each choice that isn't refused the number of the row that follows, from 0 on:
    /// rows in order, then threads, then partners.
    pub next: Vec<u32>,
}

impl Certificate {
    /// Adds a row that hasn't been there; its number.
    fn add(&mut self, row: &[u16]) -> u32 {
        let number = self.places.len() as u32;
        self.places.push(self.states.len() as u32);
        self.states.extend(row);
        number
    }

    /// The words from the beginning of a row on.
    fn from(&self, row: usize) -> &[u16] {
        &self.states[self.places[row] as usize..]
    }
}

/// Calls `arrive` for each choice that isn't refused, from this state on, threads in order,
/// then partners: with thread, partner and answer, 26 or 0, and with the state that
/// follows. Stops where it answers false, and answers false then.
fn each_choice(from: &SeatedRun, mut arrive: impl FnMut([u16; 3], &SeatedRun) -> bool) -> bool {
    let threads = from.run().threads().len() as u16;
    let mut run = from.clone();
    for thread in 1..=threads {
        for partner in 0..=threads {
            let answer = match run.choose(thread, partner) {
                Ok(Answer::Done) => 0,
                Ok(Answer::NoSeat) => 26,
                Err(_) => continue,
            };
            if !arrive([thread, partner, answer], &run) {
                return false;
            }
            run.clone_from(from);
        }
    }
    true
}

/// All states from a start on, breadth first, if there are at most so many.
pub fn search(start: SeatedRun, limit: usize) -> Option<Certificate> {
    let mut found = Certificate::default();
    let mut numbers = HashMap::new();
    let row = start.row();
    found.add(&row);
    numbers.insert(row, 0);
    let mut from = start;
    let mut done = 0;
    while done < found.places.len() {
        if found.places.len() > limit {
            return None;
        }
        from.stand(found.from(done));
        each_choice(&from, |_, run| {
            let number = match numbers.entry(run.row()) {
                Entry::Occupied(known) => *known.get(),
                Entry::Vacant(new) => {
                    let number = found.add(new.key());
                    *new.insert(number)
                }
            };
            found.next.push(number);
            true
        });
        done += 1;
    }
    Some(found)
}

/// A certificate that is gone through: how many rows are known, and how many numbers of
/// `next` are read.
struct Trial<'a> {
    states: &'a [u16],
    places: &'a [u32],
    next: &'a [u32],
    known: usize,
    read: usize,
}

impl<'a> Trial<'a> {
    /// The words from the beginning of a row on.
    fn words(&self, row: usize) -> &'a [u16] {
        let place = self.places[row] as usize;
        self.states.get(place..).unwrap_or(&[])
    }

    /// Whether each choice from this state on leads to the row that is next.
    fn holds(&mut self, from: &SeatedRun) -> bool {
        each_choice(from, |_, run| self.arrives(run))
    }

    /// Whether the next number is that of a row that is known, or of the first that isn't,
    /// and the row is that of this state.
    fn arrives(&mut self, run: &SeatedRun) -> bool {
        let Some(&row) = self.next.get(self.read) else {
            return false;
        };
        let row = row as usize;
        if row > self.known || row >= self.places.len() || !run.begins(self.words(row)) {
            return false;
        }
        self.read += 1;
        self.known = self.known.max(row + 1);
        true
    }
}

/// The row at fault, from 0 on, of the rows that begin at these places: one at least.
pub fn row_at_fault(
    start: SeatedRun,
    states: &[u16],
    places: &[u32],
    next: &[u32],
) -> Option<usize> {
    let mut trial = Trial {
        states,
        places,
        next,
        known: 1,
        read: 0,
    };
    if !start.begins(trial.words(0)) {
        return Some(0);
    }
    let (mut from, mut row) = (start, 0);
    while row < trial.known {
        from.stand(trial.words(row));
        if !trial.holds(&from) {
            return Some(row);
        }
        row += 1;
    }
    (row < places.len()).then_some(row)
}

/// The row at fault, from 0 on, of some rows whose choices have these numbers in `next`: one
/// row at least, and no number that isn't there. The rows before them aren't looked at; the
/// numbers before theirs say how many rows are known.
pub fn row_at_fault_in(
    start: SeatedRun,
    states: &[u16],
    places: &[u32],
    next: &[u32],
    rows: Range<usize>,
    numbers: Range<usize>,
) -> Option<usize> {
    let before = next[..numbers.start].iter().max();
    let mut trial = Trial {
        states,
        places,
        next,
        known: before.map_or(1, |&most| most as usize + 1),
        read: numbers.start,
    };
    if rows.start == 0 && !start.begins(trial.words(0)) {
        return Some(0);
    }
    let (mut from, last) = (start, rows.end - 1);
    for row in rows {
        let stands = row < trial.known && from.stand_in_order(trial.words(row)).is_some();
        if !stands || !trial.holds(&from) {
            return Some(row);
        }
    }
    (trial.read != numbers.end).then_some(last)
}

/// Writes the offers of a state one behind the other, as far as there is room: the words of
/// each are thread, partner and answer, how many words the row of the next state has, and
/// these.
pub fn offer(from: &SeatedRun, out: &mut [u16]) -> Offers {
    let (mut count, mut length) = (0, 0);
    let all = each_choice(from, |choice, run| {
        let words = run.length();
        let Some(room) = out[length..].get_mut(..4 + words) else {
            return false;
        };
        let [thread, partner, answer] = choice;
        room[..4].copy_from_slice(&[thread, partner, answer, words as u16]);
        run.write_row(&mut room[4..]);
        count += 1;
        length += room.len();
        true
    });
    Offers {
        number: if all { 0 } else { 17 },
        place: 0,
        count,
        length: length as u32,
    }
}
