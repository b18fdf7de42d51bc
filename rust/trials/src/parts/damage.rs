//! Parts with wrong bounds, and parts of damaged certificates.

use super::{agreed_part, part_of, Part, PartTally};
use crate::certificates::{agreed_closing, Certified, Found};
use crate::change;
use crate::rng::Rng;
use second::{Certificate, Closing};

/// Rows and numbers that aren't those of a part: 17 where they aren't there, and otherwise a
/// part is closed only with numbers like its own.
pub fn bounds(
    rng: &mut Rng,
    holds: &Certified,
    found: &Found,
    origin: &str,
    tally: &mut PartTally,
) {
    let (rows, numbers) = (found.done, found.certificate.next.len());
    for _ in 0..12 {
        let from = rng.below(rows);
        let right = part_of(found, from..from + 1 + rng.below(rows - from));
        let mut part = right.clone();
        let (bound, most) = match rng.below(4) {
            0 => (&mut part.rows.start, rows),
            1 => (&mut part.rows.end, rows),
            2 => (&mut part.numbers.start, numbers),
            _ => (&mut part.numbers.end, numbers),
        };
        let next_to = [bound.wrapping_add(1), bound.wrapping_sub(1)];
        let others = [
            next_to[0],
            next_to[1],
            rng.below(most + 2),
            0,
            most,
            most + 1,
        ];
        *bound = *rng.of(&[&others[..], &others, &[usize::MAX]].concat());
        if part == right {
            continue;
        }
        let Part {
            rows: of_rows,
            numbers: of_next,
        } = &part;
        let is_there = of_rows.start < of_rows.end
            && of_rows.end <= rows
            && of_next.start <= of_next.end
            && of_next.end <= numbers;
        let answer = agreed_part(holds, &part, origin);
        if !is_there {
            assert_eq!(answer, Closing::refused(17, 0), "{part:?}: {origin}");
            tally.count("a bound that isn't there", answer);
            continue;
        }
        if answer == Closing::CLEAN {
            let next = &found.certificate.next;
            let due = part_of(found, of_rows.clone()).numbers;
            assert_eq!(next[of_next.clone()], next[due], "{part:?}: {origin}");
        } else {
            assert_eq!((answer.number, answer.place), (18, 0), "{part:?}: {origin}");
            assert!(
                of_rows.contains(&(answer.row as usize - 1)),
                "{part:?}: {origin}"
            );
        }
        tally.count("another bound", answer);
    }
}

/// A certificate that holds, no two rows of it alike, in a chain of parts.
struct Damages<'a> {
    rng: &'a mut Rng,
    certified: Certified,
    found: &'a Found,
    parts: &'a [Part],
    origin: &'a str,
    tally: &'a mut PartTally,
}

/// The most words of each list that are changed one by one, and the most rows that are gone
/// through for this.
const SAMPLE: usize = 24;
const ROWS: usize = 1_200;

/// Damages a certificate that holds, and asks both about each part.
pub fn damage_all(
    rng: &mut Rng,
    certified: Certified,
    found: &Found,
    parts: &[Part],
    origin: &str,
    tally: &mut PartTally,
) {
    let mut damages = Damages {
        rng,
        certified,
        found,
        parts,
        origin,
        tally,
    };
    damages.words_of_states();
    damages.places();
    damages.numbers();
    damages.lengths();
    damages.others();
}

impl Damages<'_> {
    fn some_of(&mut self, count: usize) -> Vec<usize> {
        let sample = (ROWS / self.found.done).clamp(1, SAMPLE);
        if count <= sample {
            return (0..count).collect();
        }
        (0..sample).map(|_| self.rng.index(count)).collect()
    }

    /// What both answer of each part.
    fn answers(&self, kind: &str) -> Vec<Closing> {
        let origin = format!("{kind}: {}", self.origin);
        let parts = self.parts.iter();
        parts
            .map(|part| agreed_part(&self.certified, part, &origin))
            .collect()
    }

    /// The whole is refused, and so is a part at least.
    fn assert_refused(&self, kind: &str, answers: &[Closing]) {
        let origin = format!("{kind}: {}", self.origin);
        let whole = agreed_closing(&self.certified, &origin);
        assert_eq!(whole.number, 18, "{origin}");
        let refused = answers.iter().filter(|answer| answer.number == 18);
        assert!(refused.count() > 0, "all parts are closed: {origin}");
    }

    /// A row with other words. A part that neither has it nor has a choice that leads to it
    /// answers as before. One with such a choice in another row refuses, at that choice's row or, if it has
    /// the row and that comes before, from there on: with other choices of the row the numbers
    /// may be off behind it. A part that has the row alone may refuse it or not.
    fn ask_for_row(&mut self, kind: [&'static str; 3], row: usize) {
        let [of_target, of_itself, of_others] = kind;
        let answers = self.answers(of_target);
        self.assert_refused(of_target, &answers);
        for (part, answer) in self.parts.iter().zip(answers) {
            let mut leads = part.numbers.clone().filter_map(|at| {
                let (from, to) = (self.found.steps[at].0, self.found.certificate.next[at]);
                (to as usize == row && to != from).then_some(from as usize)
            });
            let leads = leads.next();
            let own = part.rows.contains(&row).then_some(row);
            let origin = format!("{part:?}, row {row}, {of_target}: {}", self.origin);
            let kind = match (leads, own) {
                (None, None) => of_others,
                (None, Some(_)) => of_itself,
                (Some(_), _) => of_target,
            };
            if answer == Closing::CLEAN {
                assert!(leads.is_none() && own != Some(0), "{origin}");
            } else {
                let blamed = answer.row as usize - 1;
                let least = leads.into_iter().chain(own).min();
                assert!(least.is_some_and(|least| least <= blamed), "{origin}");
                assert!(leads.is_none_or(|leads| blamed <= leads), "{origin}");
                assert!(row > 0 || own.is_none() || blamed == 0, "{origin}");
            }
            self.tally.count(kind, answer);
        }
    }

    fn words_of_states(&mut self) {
        let places = &self.found.certificate.places;
        for at in self.some_of(self.found.certificate.states.len()) {
            let row = places.partition_point(|&place| place as usize <= at) - 1;
            let before = self.found.certificate.states[at];
            let any = self.rng.word();
            let other = [before ^ 1, before.wrapping_add(1), any, 0, 65, 0xffff];
            let word = *self.rng.of(&other);
            if word == before {
                continue;
            }
            self.certified.certificate.states[at] = word;
            let kind = [
                "a word of a state that is come to",
                "a word of a state of the part alone",
                "a word of a state elsewhere",
            ];
            self.ask_for_row(kind, row);
            self.certified.certificate.states[at] = before;
        }
    }

    fn places(&mut self) {
        let Certificate { states, places, .. } = &self.found.certificate;
        for row in self.some_of(places.len()) {
            let before = places[row];
            let any = self.rng.below(states.len() + 2) as u32;
            let of_row = *self.rng.of(places);
            let other = [any, of_row, before.wrapping_add(1), u32::MAX];
            let place = *self.rng.of(&other);
            let words = states.get(place as usize..).unwrap_or(&[]);
            if words.starts_with(self.found.row(row)) {
                continue;
            }
            self.certified.certificate.places[row] = place;
            let kind = [
                "the place of a state that is come to",
                "the place of a state of the part alone",
                "the place of a state elsewhere",
            ];
            self.ask_for_row(kind, row);
            self.certified.certificate.places[row] = before;
        }
    }

    /// A number is seen by the part that has it. Parts before it answer as before, and so do
    /// those behind it, as long as the numbers before them name rows as high as before.
    fn numbers(&mut self) {
        let next = &self.found.certificate.next;
        let count = self.found.done as u32;
        for at in self.some_of(next.len()) {
            let before = next[at];
            let any = self.rng.below(self.found.done) as u32;
            let next_to = [before + 1, before.wrapping_sub(1)];
            let other = [any, next_to[0], next_to[1], 0, count, u32::MAX];
            let number = *self.rng.of(&other);
            if number == before {
                continue;
            }
            self.certified.certificate.next[at] = number;
            let kind = "a number in next";
            let answers = self.answers(kind);
            self.assert_refused(kind, &answers);
            for (part, answer) in self.parts.iter().zip(answers) {
                let begin = part.numbers.start;
                let highest = |next: &[u32]| next[..begin].iter().max().copied();
                let known = highest(&self.certified.certificate.next) >= highest(next);
                let kind = if part.numbers.contains(&at) {
                    let due = Closing::at(self.found.steps[at].0 + 1);
                    assert_eq!(answer, due, "{part:?}, number {at}: {}", self.origin);
                    kind
                } else if known {
                    assert_eq!(
                        answer,
                        Closing::CLEAN,
                        "{part:?}, number {at}: {}",
                        self.origin
                    );
                    "a number of another part"
                } else {
                    "a number that another part knows rows by"
                };
                self.tally.count(kind, answer);
            }
            self.certified.certificate.next[at] = before;
        }
    }

    /// Lists cut short. A part past the last row or number is 17; what a part doesn't look at
    /// isn't missed.
    fn lengths(&mut self) {
        let Certificate {
            states,
            places,
            next,
        } = &self.found.certificate;
        let rows = self.rng.index(places.len());
        self.certified.certificate.places.truncate(rows);
        for (part, answer) in self.parts.iter().zip(self.answers("fewer places")) {
            if part.rows.end > rows {
                assert_eq!(answer, Closing::refused(17, 0), "{part:?}: {}", self.origin);
            }
            self.tally.count("fewer places", answer);
        }
        self.certified.certificate.places.clone_from(places);
        if !next.is_empty() {
            let numbers = self.rng.index(next.len());
            self.certified.certificate.next.truncate(numbers);
            for (part, answer) in self.parts.iter().zip(self.answers("fewer numbers")) {
                let due = match part.numbers.end > numbers {
                    true => Closing::refused(17, 0),
                    false => Closing::CLEAN,
                };
                assert_eq!(answer, due, "{part:?}: {}", self.origin);
                self.tally.count("fewer numbers", answer);
            }
            self.certified.certificate.next.clone_from(next);
        }
        let words = self.rng.index(states.len());
        self.certified.certificate.states.truncate(words);
        let answers = self.answers("fewer words");
        self.assert_refused("fewer words", &answers);
        for answer in answers {
            self.tally.count("fewer words", answer);
        }
        self.certified.certificate.states.clone_from(states);
    }

    /// With another table of seats or another file the parts are closed only if the whole is.
    fn others(&mut self) {
        let seats = self.certified.seats.clone();
        for (at, &of_role) in seats.iter().enumerate() {
            self.certified.seats[at] = *self.rng.of(&[0, 1, 2, 3, 32, 33]);
            self.ask_whole("other seats");
            self.certified.seats[at] = of_role;
        }
        self.certified.seats.push(0);
        self.ask_whole("a seat more");
        self.certified.seats = seats;
        let file = self.certified.file.clone();
        for _ in 0..4 {
            change::one_word(self.rng, &mut self.certified.file);
            self.ask_whole("another file");
            self.certified.file.clone_from(&file);
        }
    }

    fn ask_whole(&mut self, kind: &'static str) {
        let answers = self.answers(kind);
        let whole = agreed_closing(&self.certified, self.origin) == Closing::CLEAN;
        let all = answers.iter().all(|answer| *answer == Closing::CLEAN);
        assert_eq!(all, whole, "{kind}: {}", self.origin);
        for answer in answers {
            self.tally.count(kind, answer);
        }
    }
}
