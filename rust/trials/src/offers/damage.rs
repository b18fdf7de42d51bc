//! Lent words that are damaged, of which some are a state in order and most are none.

use super::{agreed_offers, anything, Lending, OfferTally};
use crate::change;
use crate::rng::Rng;
use second::Offers;

/// A state that is lent, in an output that is long enough for it.
struct Damages<'a> {
    rng: &'a mut Rng,
    lending: Lending,
    state: &'a [u16],
    origin: &'a str,
    tally: &'a mut OfferTally,
}

/// Damages the words of a state in every way, and asks both.
pub fn damage_all(
    rng: &mut Rng,
    lending: &Lending,
    length: usize,
    origin: &str,
    tally: &mut OfferTally,
) {
    let mut damages = Damages {
        rng,
        lending: lending.clone(),
        state: &lending.state,
        origin,
        tally,
    };
    damages.lending.before = vec![0x3c3c; 2 * length + 200];
    damages.words();
    damages.lengths();
    damages.threads();
    damages.others();
}

impl Damages<'_> {
    fn ask(&mut self, kind: &'static str) -> Offers {
        let origin = format!("{kind}: {}", self.origin);
        let (answer, _) = agreed_offers(&self.lending, &origin);
        self.tally.count(kind, answer);
        answer
    }

    /// It is no state.
    fn ask_unfit(&mut self, kind: &'static str) {
        let answer = self.ask(kind);
        assert_eq!(answer, Offers::refused(18, 0), "{kind}: {}", self.origin);
    }

    /// Each word changed to another; of a thread's number of roles none but it will do.
    fn words(&mut self) {
        let [threads, made] = [self.state[0], self.state[1]].map(usize::from);
        let records = 2 + 2 * made..2 + 2 * made + 12 * threads;
        for at in 0..self.state.len() {
            let before = self.state[at];
            let any = self.rng.word();
            let other = [before ^ 1, before.wrapping_add(1), any, 0, 33, 65, 0xffff];
            for word in [*self.rng.of(&other), *self.rng.of(&other)] {
                if word == before {
                    continue;
                }
                self.lending.state[at] = word;
                let of_record = records.contains(&at).then(|| (at - records.start) % 12);
                match of_record {
                    Some(2) => {
                        self.ask_unfit_unless_counted(at, word);
                    }
                    Some(3) => self.ask_unfit("another number of roles"),
                    Some(_) => {
                        self.ask("a word of a thread");
                    }
                    None if at >= 2 && at < records.start => {
                        self.ask("a word of a made channel");
                    }
                    None if at < 2 => {
                        self.ask("another count");
                    }
                    None => {
                        self.ask("a session or a line");
                    }
                }
                self.lending.state[at] = before;
            }
        }
    }

    /// Another mask with as many roles may be a state; then also with its number put right.
    fn ask_unfit_unless_counted(&mut self, at: usize, mask: u16) {
        let roles = self.state[at + 1];
        if mask.count_ones() as u16 == roles {
            self.ask("another mask of as many roles");
            return;
        }
        self.ask_unfit("another mask alone");
        self.lending.state[at + 1] = mask.count_ones() as u16;
        self.ask("another mask with its number");
        self.lending.state[at + 1] = roles;
    }

    fn lengths(&mut self) {
        for end in 0..self.state.len() {
            self.lending.state.truncate(end);
            self.ask_unfit("words are missing");
            self.lending.state = self.state.to_vec();
        }
        let more = [self.rng.word(), 0];
        for word in more {
            self.lending.state.push(word);
            self.ask_unfit("a word more");
            self.lending.state.pop();
        }
        let at = self.rng.index(self.state.len());
        self.lending.state.remove(at);
        self.ask("a word left out");
        self.lending.state = anything(self.rng, 80);
        self.ask("any words");
        self.lending.state = self.state.to_vec();
    }

    /// Many words of the threads at once, so that a state may be one that no run comes to:
    /// what is offered there is what the second implementation's choices do.
    fn threads(&mut self) {
        let [threads, made] = [self.state[0], self.state[1]].map(usize::from);
        for _ in 0..8 {
            for thread in 0..threads {
                let record = 2 + 2 * made + 12 * thread;
                let other = 2 + 2 * made + 12 * self.rng.below(threads);
                let state = &mut self.lending.state;
                match self.rng.below(6) {
                    0 => state[record] = *self.rng.of(&[0, 1, 2, 3, 33]),
                    1 => state[record + 1] = self.state[other + 1],
                    2 => state[record + 1] = self.rng.from(0, 40),
                    3 => {
                        let mask = *self.rng.of(&[0, 1, 3, 7, 0xffff]);
                        state[record + 2] = mask;
                        state[record + 3] = mask.count_ones() as u16;
                    }
                    4 => {
                        let at = record + 4 + self.rng.below(8);
                        state[at] = *self.rng.of(&[0, 1, 32, 256, 257, 258, 384, 385, 386, 512]);
                    }
                    _ => state[record + 4..record + 12].fill(257),
                }
            }
            let kind = "many words of threads";
            let room = self.lending.before.len();
            let answer = self.ask(kind);
            if answer.number == 17 {
                self.lending.before.resize(40 * room, 7);
                self.ask(kind);
                self.lending.before.truncate(room);
            }
            self.lending.state = self.state.to_vec();
        }
    }

    /// Another table of seats, and another file.
    fn others(&mut self) {
        let seats = self.lending.seats.clone();
        for (at, &of_role) in seats.iter().enumerate() {
            for other in [0, 1, *self.rng.of(&[2, 32, 33])] {
                self.lending.seats[at] = other;
                self.ask("other seats");
            }
            self.lending.seats[at] = of_role;
        }
        self.lending.seats.push(0);
        let answer = self.ask("a seat more");
        assert_eq!(answer, Offers::refused(17, 0), "{}", self.origin);
        self.lending.seats = seats;
        let file = self.lending.file.clone();
        for _ in 0..6 {
            change::one_word(self.rng, &mut self.lending.file);
            self.ask("another file");
            self.lending.file.clone_from(&file);
        }
    }
}
