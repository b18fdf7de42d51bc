//! Certificates that are damaged, each with the answer that is due.

use super::{agreed_closing, CertificateTally, Certified, Found};
use crate::change;
use crate::rng::Rng;
use second::{Certificate, Closing};

/// Words of any kind, for a file that is refused before they are looked at.
pub fn anything(rng: &mut Rng) -> Certificate {
    let mut words = |most: usize| -> Vec<u16> {
        let count = rng.below(most);
        (0..count).map(|_| rng.word()).collect()
    };
    let (states, places, next) = (words(40), words(4), words(4));
    let numbers = |words: Vec<u16>| words.into_iter().map(u32::from).collect();
    Certificate {
        states,
        places: numbers(places),
        next: numbers(next),
    }
}

/// A certificate that holds, of rows one behind the other and no two alike.
struct Damages<'a> {
    rng: &'a mut Rng,
    certified: Certified,
    found: &'a Found,
    /// For each row that which is at fault where this one is spoiled, from 1 on.
    blamed: Vec<u32>,
    origin: &'a str,
    tally: &'a mut CertificateTally,
}

/// The most words of each list that are changed one by one, and the most rows that are gone
/// through for this.
const SAMPLE: usize = 24;
const ROWS: usize = 2_400;

/// Damages a certificate that holds in every way, and asks both.
pub fn damage_all(
    rng: &mut Rng,
    certified: Certified,
    found: &Found,
    origin: &str,
    tally: &mut CertificateTally,
) {
    let firsts = found.firsts();
    let blamed = firsts.iter().map(|&first| found.steps[first].0 + 1);
    let mut damages = Damages {
        blamed: [1].into_iter().chain(blamed).collect(),
        rng,
        certified,
        found,
        origin,
        tally,
    };
    damages.words_of_states();
    damages.places();
    damages.numbers();
    damages.lengths();
    damages.rows();
    damages.seats();
    damages.file();
}

impl Damages<'_> {
    /// Asks both about the certificate as it is; it has to be answered so.
    fn ask(&mut self, kind: &'static str, due: Closing) {
        let answer = agreed_closing(&self.certified, format_args!("{kind}: {}", self.origin));
        assert_eq!(answer, due, "{kind}: {}", self.origin);
        self.tally.count(kind, answer);
    }

    /// Asks both about a changed certificate.
    fn ask_with(
        &mut self,
        kind: &'static str,
        due: Closing,
        change: impl FnOnce(&mut Certificate),
    ) {
        change(&mut self.certified.certificate);
        self.ask(kind, due);
        let certificate = &mut self.certified.certificate;
        certificate.clone_from(&self.found.certificate);
    }

    /// The answer where a row is spoiled.
    fn blame(&self, row: usize) -> Closing {
        Closing::at(self.blamed[row])
    }

    /// The answer where a number in `next` is.
    fn blame_next(&self, at: usize) -> Closing {
        Closing::at(self.found.steps[at].0 + 1)
    }

    fn count(&self) -> usize {
        self.blamed.len()
    }

    /// All of so many, or some of them.
    fn some_of(&mut self, count: usize) -> Vec<usize> {
        let sample = (ROWS / self.count()).min(SAMPLE);
        if count <= sample {
            return (0..count).collect();
        }
        (0..sample).map(|_| self.rng.index(count)).collect()
    }

    fn words_of_states(&mut self) {
        let places = &self.found.certificate.places;
        let first_row = self.found.row(0).len();
        let words = self.some_of(self.found.certificate.states.len());
        let of_start = self.some_of(first_row);
        for at in words.into_iter().chain(of_start) {
            let row = places.partition_point(|&place| place as usize <= at) - 1;
            let before = self.found.certificate.states[at];
            let any = self.rng.word();
            let other = [before ^ 1, before.wrapping_add(1), any, 0, 65, 0xffff];
            let word = *self.rng.of(&other);
            if word == before {
                continue;
            }
            let kind = if row == 0 {
                "a word of the start"
            } else {
                "a word of a state"
            };
            self.certified.certificate.states[at] = word;
            self.ask(kind, self.blame(row));
            self.certified.certificate.states[at] = before;
        }
    }

    fn places(&mut self) {
        let Certificate { states, places, .. } = &self.found.certificate;
        for row in self.some_of(self.count()) {
            let before = places[row];
            let any = self.rng.below(states.len() + 2) as u32;
            let of_row = *self.rng.of(places);
            let next_to = [before.wrapping_add(1), before.wrapping_sub(1)];
            let other = [any, any, of_row, next_to[0], next_to[1], u32::MAX];
            let place = *self.rng.of(&other);
            if place == before {
                continue;
            }
            let words = states.get(place as usize..).unwrap_or(&[]);
            let (kind, due) = if words.starts_with(self.found.row(row)) {
                ("a row that stands elsewhere too", Closing::CLEAN)
            } else {
                ("the place of a row", self.blame(row))
            };
            self.certified.certificate.places[row] = place;
            self.ask(kind, due);
            self.certified.certificate.places[row] = before;
        }
    }

    fn numbers(&mut self) {
        let next = &self.found.certificate.next;
        let count = self.count() as u32;
        for at in self.some_of(next.len()) {
            let before = next[at];
            let any = self.rng.below(self.count()) as u32;
            let next_to = [before + 1, before.wrapping_sub(1)];
            let other = [any, next_to[0], next_to[1], 0, count, count + 1, u32::MAX];
            let number = *self.rng.of(&other);
            if number == before {
                continue;
            }
            self.certified.certificate.next[at] = number;
            self.ask("a number in next", self.blame_next(at));
            self.certified.certificate.next[at] = before;
        }
    }

    fn lengths(&mut self) {
        let Certificate {
            states,
            places,
            next,
        } = &self.found.certificate;
        let fine = Closing::CLEAN;
        self.ask_with("no places", Closing::refused(17, 0), |it| it.places.clear());
        self.ask_with("no states", self.blame(0), |it| it.states.clear());
        let more = self.rng.number() as u32;
        self.ask_with("more numbers in next", fine, |it| it.next.push(more));
        self.ask_with("more words of states", fine, |it| {
            it.states.push(more as u16)
        });
        if next.is_empty() {
            return;
        }
        self.ask_with("no next", self.blame_next(0), |it| it.next.clear());
        let last = next.len() - 1;
        let any = self.rng.index(next.len());
        for end in [last, any] {
            self.ask_with("next cut short", self.blame_next(end), |it| {
                it.next.truncate(end)
            });
        }
        let end = self.rng.index(states.len());
        let row = places.partition_point(|&place| place as usize <= end) - 1;
        self.ask_with("states cut short", self.blame(row), |it| {
            it.states.truncate(end)
        });
        let end = 1 + self.rng.index(places.len() - 1);
        self.ask_with("places cut short", self.blame(end), |it| {
            it.places.truncate(end)
        });
    }

    fn rows(&mut self) {
        let Certificate { states, places, .. } = &self.found.certificate;
        let count = self.count();
        let unreached = Closing::at(count as u32 + 1);
        for place in [*self.rng.of(places), self.rng.below(states.len()) as u32] {
            self.ask_with("a row that isn't reached", unreached, |it| {
                it.places.push(place)
            });
        }
        if count < 2 {
            return;
        }
        for _ in 0..4 {
            let row = self.rng.index(count);
            self.ask_with("a row left out", self.blame(row), |it| {
                it.places.remove(row);
            });
            let (row, of) = (1 + self.rng.below(count - 1), self.rng.below(count));
            let due = match (of == row, row + 1 == count) {
                (true, true) => unreached,
                (true, false) => self.blame(row + 1),
                (false, _) => self.blame(row),
            };
            let place = places[of];
            self.ask_with("a row put in", due, |it| it.places.insert(row, place));
            let other = self.rng.below(row);
            self.ask_with("rows swapped", self.blame(other), |it| {
                it.places.swap(row, other)
            });
            let renumbered = self.renumbered(other, row);
            self.ask_with("rows in another order", self.blame(other), |it| {
                *it = renumbered
            });
        }
    }

    /// Two rows have each other's number.
    fn renumbered(&self, one: usize, other: usize) -> Certificate {
        let new = |row: u32| match row as usize {
            row if row == one => other as u32,
            row if row == other => one as u32,
            _ => row,
        };
        let Certificate {
            states,
            places,
            next,
        } = &self.found.certificate;
        let mut steps: Vec<(u32, u32)> = self
            .found
            .steps
            .iter()
            .zip(next)
            .map(|((row, _), number)| (new(*row), new(*number)))
            .collect();
        steps.sort_by_key(|&(row, _)| row);
        let mut places = places.clone();
        places.swap(one, other);
        Certificate {
            states: states.clone(),
            places,
            next: steps.into_iter().map(|(_, number)| number).collect(),
        }
    }

    /// With other seats it holds exactly where the search finds the same.
    fn seats(&mut self) {
        let before = self.certified.seats.clone();
        for (at, &of_role) in before.iter().enumerate() {
            let seats = *self.rng.of(&[0, 1, 2, 3, 32, 33, 65_535]);
            if seats == of_role {
                continue;
            }
            self.certified.seats[at] = seats;
            let kind = "other seats";
            let answer = agreed_closing(&self.certified, format_args!("{kind}: {}", self.origin));
            let found = second::search(&self.certified.file, &self.certified.seats, self.count());
            let same = found.as_ref() == Some(&self.found.certificate);
            assert_eq!(answer == Closing::CLEAN, same, "{kind}: {}", self.origin);
            self.tally.count(kind, answer);
            self.certified.seats[at] = of_role;
        }
        let refused = Closing::refused(17, 0);
        self.certified.seats.push(0);
        self.ask("a seat more", refused);
        self.certified.seats.clone_from(&before);
        if self.certified.seats.pop().is_some() {
            self.ask("a seat less", refused);
        }
        self.certified.seats = before;
    }

    /// A file with another word is another file, or none.
    fn file(&mut self) {
        let before = self.certified.file.clone();
        for _ in 0..4 {
            if before.is_empty() {
                break;
            }
            change::one_word(self.rng, &mut self.certified.file);
            let kind = "another file";
            let answer = agreed_closing(&self.certified, format_args!("{kind}: {}", self.origin));
            self.tally.count(kind, answer);
            self.certified.file.clone_from(&before);
        }
    }
}
