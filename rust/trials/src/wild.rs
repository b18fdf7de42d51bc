//! Nodes that are wrong in one respect.

use crate::grow::{Grower, Heed, Name, Point, VARIABLES};

/// What the wild node ignores.
#[derive(Clone, Copy)]
pub enum Wild {
    /// Which numbers name something.
    Names,
    /// The kind and owner of what is named.
    Kinds,
    /// The active set.
    Roles,
    /// Who may send or receive.
    Permission,
}

impl Grower<'_> {
    /// A node that ignores the active set.
    pub fn reckless(&mut self, point: &mut Point) -> Option<[u16; 3]> {
        match self.rng.from(5, 8) {
            5 => self.receive(point, Heed::Nothing),
            6 => self.send(point, Heed::Nothing),
            7 => self.on(point, u16::MAX),
            _ => self.off(point, u16::MAX),
        }
    }

    /// A send or receive that ignores grants and owners.
    pub fn unpermitted(&mut self, point: &mut Point) -> Option<[u16; 3]> {
        match self.rng.below(2) {
            0 => self.receive(point, Heed::Nothing),
            _ => self.send(point, Heed::Nothing),
        }
    }

    /// A node whose operands name anything, of whatever kind or owner.
    pub fn mistaken(&mut self, point: &mut Point) -> Option<[u16; 3]> {
        let tag = *self.rng.of(&[4, 5, 5, 5, 6]);
        let mut names = [0; 2];
        for name in &mut names {
            let least = *self.rng.of(&[1, 257, 512, 512]);
            let will_do = |name: &Name| tag != 5 || !name.receivable;
            let found = self
                .name(point, |name| name.operand >= least && will_do(name))
                .or_else(|| self.name(point, will_do));
            *name = found?.operand;
        }
        if tag == 5 {
            names[1] = 0;
        }
        point.bind_unknown(tag)?;
        Some([tag, names[0], names[1]])
    }

    /// A node with a field that names nothing, or a role or kind out of count.
    pub fn misnamed(&mut self, point: &mut Point) -> Option<[u16; 3]> {
        let tag = self.rng.from(3, 8);
        let [wrong, right] = match tag {
            3 => [self.out_of_count(self.draft.kinds.len()), 0],
            7 | 8 => [self.out_of_count(self.draft.roles.len()), 0],
            5 => [self.no_operand(), 0],
            _ => [self.no_operand(), self.name(point, |_| true)?.operand],
        };
        point.bind_unknown(tag)?;
        let swap = right != 0 && self.rng.once_in(2);
        Some(if swap {
            [tag, right, wrong]
        } else {
            [tag, wrong, right]
        })
    }

    fn out_of_count(&mut self, count: usize) -> u16 {
        match self.rng.below(3) {
            0 => 0,
            1 => count as u16 + 1,
            _ => self.rng.from(count as u16 + 1, u16::MAX),
        }
    }

    /// An operand that is mostly wrong.
    fn no_operand(&mut self) -> u16 {
        let users = self.draft.users.len() as u16;
        let channels = self.draft.channels.len() as u16;
        match self.rng.below(6) {
            0 => self.rng.from((users + 1).min(32), 32),
            1 => 256 + self.rng.from((channels + 1).min(64), 64),
            2 => self.rng.from(385, 448),
            3 => self.rng.from(512, 519),
            4 => *self.rng.of(&[0, 33, 256, 321, 384, 449, 511, 520, 65535]),
            _ => self.rng.word(),
        }
    }
}

impl Point {
    /// Binds a variable that nothing is known of, if the tag is a binder's;
    /// none if there is no room.
    fn bind_unknown(&mut self, tag: u16) -> Option<()> {
        if matches!(tag, 3 | 5) {
            if self.variables.len() == VARIABLES {
                return None;
            }
            self.bind(0, false);
        }
        Some(())
    }
}
