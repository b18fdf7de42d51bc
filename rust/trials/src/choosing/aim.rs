//! Changes of lists that aim at one cause of 18 at place 0. They mostly hit it;
//! where the lists have nothing to change, they stay as they are.

use super::fit::{any_thread, Clinic};
use crate::juniors;
use crate::lists::Lists;
use crate::rng::Rng;
use second::{Thread, Unfit, BEFORE_TOTALS, BESIDE, RECORDS, TOTALS};

/// Lists that fit a file, on the way to fit it no more.
pub struct Aim<'a> {
    pub rng: &'a mut Rng,
    pub clinic: &'a Clinic,
    pub lists: &'a mut Lists,
}

impl Aim<'_> {
    /// Changes the lists for this cause.
    pub fn at(&mut self, unfit: Unfit) {
        match unfit {
            Unfit::Records => self.other_records(),
            Unfit::Beside => self.other_words(),
            Unfit::Threads => self.set_count(0),
            Unfit::Made => self.set_count(1),
            Unfit::OwnerZero => self.set_made(0, 0),
            Unfit::KindZero => self.set_made(1, 0),
            Unfit::OwnerAbove => {
                let owner = above(self.rng, self.clinic.draft.users.len());
                self.set_made(0, owner);
            }
            Unfit::KindAbove => {
                let kind = above(self.rng, self.clinic.draft.kinds.len());
                self.set_made(1, kind);
            }
            Unfit::NodeZero => self.set_thread(|thread| thread.node = 0),
            Unfit::NodeAbove => {
                let node = above(self.rng, self.clinic.draft.nodes.len());
                self.set_thread(|thread| thread.node = node);
            }
            Unfit::User => {
                let users = self.clinic.draft.users.len();
                let user = match self.rng.below(3) {
                    0 => above(self.rng, users),
                    _ => self.rng.from(0, users as u16),
                };
                self.set_thread(|thread| thread.user = user);
            }
            Unfit::Mask => self.add_role(),
            Unfit::Unbound => self.bind_early(),
            Unfit::Total => self.other_total(),
            Unfit::TotalAbove => self.total_above(),
            Unfit::Nothing | Unfit::PlainForChannel | Unfit::ChannelForPlain | Unfit::OtherKind => {
                self.set_bound(unfit)
            }
        }
    }

    /// Gives one word that counts another value, near the old one or not.
    pub fn one_word(&mut self) {
        let (rng, lists) = (&mut *self.rng, &mut *self.lists);
        let any = rng.word();
        let names = [1, 2, 257, 258, 385, 386, 512];
        let new = |rng: &mut Rng, old: u16| match rng.below(7) {
            0 => 0,
            1 => old.wrapping_add(1),
            2 => old.wrapping_sub(1),
            3 => old ^ 1 << rng.below(16),
            4 => *rng.of(&names),
            5 => rng.from(0, 8),
            _ => any,
        };
        let [count, made] = [lists.beside[0], lists.beside[1]].map(usize::from);
        let word = if count == 0 || rng.once_in(5) {
            let at = match rng.below(3) {
                0 => BEFORE_TOTALS + rng.below(TOTALS),
                _ => rng.below(2 + 2 * made),
            };
            &mut lists.beside[at]
        } else {
            let thread = &mut lists.threads[rng.below(count)];
            match rng.below(8) {
                0 => &mut thread.user,
                1 => &mut thread.node,
                2 => &mut thread.mask,
                _ => &mut thread.variables[rng.index(8)],
            }
        };
        *word = new(rng, *word);
    }

    fn other_records(&mut self) {
        let rng = &mut *self.rng;
        let few = rng.below(RECORDS);
        let records = *rng.of(&[few, few, 0, 63, 65, 66, 128, 130]);
        let threads = &mut self.lists.threads;
        threads.resize_with(records, || any_thread(rng));
    }

    fn other_words(&mut self) {
        let rng = &mut *self.rng;
        let few = rng.below(BESIDE);
        let near = *rng.of(&[161, 163]);
        let words = *rng.of(&[few, 0, 2, 130, 164, 324, near, near, near, near, near, near]);
        self.lists.beside.resize_with(words, || rng.word());
    }

    /// Sets the number of threads, or of made channels, to one above 64.
    fn set_count(&mut self, at: usize) {
        if let Some(count) = self.lists.beside.get_mut(at) {
            let high = *count | 1 << (8 + self.rng.below(8));
            *count = *self.rng.of(&[65, 66, 128, u16::MAX, high]);
        }
    }

    /// Sets the owner (word 0) or kind (word 1) of a made channel; if there is
    /// none, one is added.
    fn set_made(&mut self, word: usize, value: u16) {
        let beside = &mut self.lists.beside;
        if beside.len() < BESIDE {
            return;
        }
        if beside[1] == 0 {
            let Some(channel) = self.clinic.channel(self.rng) else {
                return;
            };
            beside[1] = 1;
            beside[2..4].copy_from_slice(&channel);
        }
        let number = self.rng.index(usize::from(beside[1]).min(64));
        beside[2 + 2 * number + word] = value;
    }

    /// Gives a kind of the file another total, mostly one more or one less, or two of
    /// them each other's.
    fn other_total(&mut self) {
        let kinds = self.clinic.draft.kinds.len();
        let rng = &mut *self.rng;
        if self.lists.beside.len() != BESIDE || kinds == 0 {
            return;
        }
        let totals = &mut self.lists.beside[BEFORE_TOTALS..][..kinds];
        let (any, drawn) = (rng.word(), rng.index(kinds));
        let waited = rng.find(totals, |total| *total != 0);
        let at = waited.filter(|_| rng.once_in(2)).unwrap_or(drawn);
        match rng.below(10) {
            0..=1 => totals[at] = totals[at].wrapping_add(1),
            2..=4 => totals[at] = totals[at].wrapping_sub(1),
            5..=8 => {
                let total = totals[at];
                if let Some(other) = rng.find(totals, |other| *other != total) {
                    totals.swap(at, other);
                }
            }
            _ => totals[at] = *rng.of(&[0, 64, 256, any, totals[at] | 256]),
        }
    }

    /// Gives a kind that the file doesn't have a total.
    fn total_above(&mut self) {
        let kinds = self.clinic.draft.kinds.len();
        if self.lists.beside.len() != BESIDE || kinds == TOTALS {
            return;
        }
        let totals = &mut self.lists.beside[BEFORE_TOTALS + kinds..];
        let at = self.rng.below(totals.len());
        let any = self.rng.word();
        totals[at] = *self.rng.of(&[1, 1, u16::MAX, u16::MAX, any]);
    }

    /// How many records count.
    fn counted(&self) -> usize {
        let count = self.lists.beside.first().map_or(0, |count| (*count).into());
        self.lists.threads.len().min(count)
    }

    /// Changes a thread that counts.
    fn set_thread(&mut self, change: impl FnOnce(&mut Thread)) {
        let count = self.counted();
        if count > 0 {
            change(&mut self.lists.threads[self.rng.index(count)]);
        }
    }

    /// A counted thread at a node of the file that fits.
    fn thread_where(&mut self, will_do: impl Fn(&Thread) -> bool) -> Option<&mut Thread> {
        let counted = &self.lists.threads[..self.counted()];
        let nodes = 1..=self.clinic.draft.nodes.len();
        let is_there = |thread: &Thread| nodes.contains(&usize::from(thread.node));
        let found = self
            .rng
            .find(counted, |thread| is_there(thread) && will_do(thread))?;
        Some(&mut self.lists.threads[found])
    }

    /// Adds roles that the user lacks: one of them, or several; often juniors of
    /// the user's roles, if there are any.
    fn add_role(&mut self) {
        let clinic = self.clinic;
        let (one, several) = (1 << self.rng.below(16), self.rng.word());
        let juniors = self.rng.once_in(2);
        let lacks = |thread: &Thread| {
            let assigned = clinic.assigned(thread);
            match juniors::reached(&clinic.draft, assigned) & !assigned {
                found if juniors && found != 0 => found,
                _ => !assigned,
            }
        };
        if let Some(thread) = self.thread_where(|thread| lacks(thread) != 0) {
            let lacks = lacks(thread);
            let lowest = lacks & lacks.wrapping_neg();
            let drawn = [one, several, lowest].map(|roles| roles & lacks);
            thread.mask |= drawn.into_iter().find(|roles| *roles != 0).unwrap_or(0);
        }
    }

    /// Gives a variable a value before it is bound: mostly the next to be, of a
    /// thread at the node that binds it if there is one.
    fn bind_early(&mut self) {
        let clinic = self.clinic;
        let at_binder = self.rng.once_in(2);
        let (any, far) = (self.rng.word(), self.rng.below(8));
        let value = *self.rng.of(&[1, 257, 385, any]);
        let next = !self.rng.once_in(3);
        let will_do = |thread: &Thread| {
            let bound = clinic.kinds(thread).len();
            bound < 8 && (!at_binder || matches!(clinic.tag(thread), 3 | 5))
        };
        if let Some(thread) = self.thread_where(will_do) {
            let bound = clinic.kinds(thread).len();
            let at = if next { bound } else { bound.max(far) };
            thread.variables[at] = value.max(1);
        }
    }

    /// Gives a variable that is bound a value that will not do.
    fn set_bound(&mut self, unfit: Unfit) {
        let clinic = self.clinic;
        if self.lists.beside.len() < BESIDE {
            return;
        }
        let number = usize::from(self.lists.beside[1]).min(64);
        let words = self.lists.beside[2..BEFORE_TOTALS].to_vec();
        let (made, past) = words.as_chunks().0.split_at(number);
        let plain = unfit == Unfit::ChannelForPlain;
        let will_do = |kind: &u16| unfit == Unfit::Nothing || (*kind == 0) == plain;
        let any = |thread: &Thread| clinic.kinds(thread).iter().any(will_do);
        let Some(thread) = self.thread_where(any).copied() else {
            return;
        };
        let kinds = clinic.kinds(&thread);
        let at = self.rng.find(kinds, will_do).expect("one of them will do");
        let kind = kinds[at];
        // One that would do, if it counted.
        let found = past.iter().position(|&[_, found]| found == kind);
        let not_yet = found.filter(|_| unfit == Unfit::Nothing && self.rng.once_in(2));
        let not_yet = not_yet.map(|at| 385 + (number + at) as u16);
        let Some(value) = not_yet.or_else(|| self.wrong_value(unfit, kind, made)) else {
            return;
        };
        if let Some(found) = self.thread_where(|other| *other == thread) {
            found.variables[at] = value;
        }
    }

    /// A value that will not do for a variable of the kind, if there is one.
    fn wrong_value(&mut self, unfit: Unfit, kind: u16, made: &[[u16; 2]]) -> Option<u16> {
        let (rng, draft) = (&mut *self.rng, &self.clinic.draft);
        let (users, channels) = (draft.users.len() as u16, draft.channels.len() as u16);
        if unfit == Unfit::PlainForChannel {
            return Some(rng.from(1, users));
        }
        if unfit == Unfit::Nothing {
            let edges = [users + 1, channels + 257, 0, 33, 256, 321, 384, 449, 512];
            let past = 385 + made.len() as u16;
            return Some(match rng.below(4) {
                0 => *rng.of(&edges),
                1 => past,
                2 => rng.from(past, 449),
                _ => rng.word(),
            });
        }
        let channels: Vec<_> = self.clinic.channels(made).collect();
        let made_only = rng.once_in(2);
        let other = |(value, found): &(u16, u16)| *found != kind && (!made_only || *value >= 385);
        let at = rng.find(&channels, other)?;
        Some(channels[at].0)
    }
}

/// A number above the count.
fn above(rng: &mut Rng, count: usize) -> u16 {
    let least = count as u16 + 1;
    let any = rng.from(least, u16::MAX);
    *rng.of(&[least, least, least, any, u16::MAX])
}
