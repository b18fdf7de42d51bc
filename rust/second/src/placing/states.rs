//! The states with the fewest on steps, among those with the fewest idle nodes
//! (tags 0 to 4 in a role), and among those the smallest list.
//!
//! A tree is gone through from the right. What a node's tree costs is known for
//! each state of its parent once its children's trees are done: the parent's
//! state is kept, or another is entered, and which one is entered is the same
//! for all that are left. Only what one state costs more or less than another
//! matters, so a row is kept less what it costs to enter.

use super::{COMPARE, END, FORK, MOST_ENDS};
use crate::file::Section;

const ROLES: usize = Section::Roles.most() as usize;

/// Each role's bit in a mask.
const BITS: [u16; ROLES] = {
    let mut bits = [1; ROLES];
    let mut role = 1;
    while role < ROLES {
        bits[role] = bits[role - 1] << 1;
        role += 1;
    }
    bits
};

/// What an on step costs, where an idle node costs 1: more than all nodes of a
/// tree that is 1,024 nodes large.
const STEP: i16 = 1_025;

/// A tree's cost by a node's state: no role, or one of them. Signed, as that is
/// what machines without more than SSE2 can compare at once.
#[derive(Clone, Copy)]
struct Row {
    none: i16,
    roles: [i16; ROLES],
}

/// More than any state costs that a node can have: a row is within two on steps
/// of 0, and a node adds one at most.
const NEVER: i16 = 1 << 13;

/// The state that a node takes: its parent's if that is a role in `kept`, else
/// `entered`. State 0 is no role, another is the role of that number.
#[derive(Clone, Copy, Default)]
pub struct Choice {
    kept: u16,
    entered: u16,
}

impl Choice {
    pub fn below(self, parent: u16) -> u16 {
        let states = u32::from(self.kept) << 1;
        if states >> parent & 1 != 0 {
            parent
        } else {
            self.entered
        }
    }
}

/// The rows of second children whose forks are yet to come.
pub struct Waiting {
    rows: [Row; MOST_ENDS],
    len: usize,
}

impl Waiting {
    pub fn new() -> Waiting {
        Waiting {
            rows: [Row::NOTHING; MOST_ENDS],
            len: 0,
        }
    }

    fn push(&mut self, row: &Row) {
        self.rows[self.len] = *row;
        self.len += 1;
    }

    fn pop(&mut self) -> &Row {
        self.len -= 1;
        &self.rows[self.len]
    }
}

/// Sets the choices of one tree's nodes. `needs` has the roles that permit a
/// node, 0 if it may have any state.
pub fn choose(
    tags: &[u16],
    assigned: u16,
    needs: &[u16],
    waiting: &mut Waiting,
    choices: &mut [Choice],
) {
    // Of the tree at the next node, by that node's parent's state.
    let mut next = Row::NOTHING;
    waiting.len = 0;
    let rows = tags.iter().zip(needs).zip(choices);
    for ((&tag, &need), choice) in rows.rev() {
        let mut own = match tag {
            // The next node is a second child, or there is none.
            END => {
                waiting.push(&next);
                Row::NOTHING
            }
            FORK => next.plus(waiting.pop()),
            _ => next,
        };
        if need == 0 {
            own.allow(assigned, i16::from(tag <= COMPARE));
        } else {
            own.allow(need, 0);
            own.none = NEVER;
        }
        let entering = own.entering();
        *choice = own.choice(entering);
        next = own.or(entering);
    }
}

impl Row {
    const NOTHING: Row = Row {
        none: 0,
        roles: [0; ROLES],
    };

    fn plus(&self, other: &Row) -> Row {
        Row {
            none: self.none + other.none,
            roles: std::array::from_fn(|role| self.roles[role] + other.roles[role]),
        }
    }

    /// Has these roles cost so much more, and rules all others out.
    fn allow(&mut self, mask: u16, idle: i16) {
        for (cost, bit) in self.roles.iter_mut().zip(BITS) {
            *cost = if mask & bit == 0 { NEVER } else { *cost + idle };
        }
    }

    /// The least that it costs to come from another state: a step for a role,
    /// and none for no role.
    fn entering(&self) -> i16 {
        let role = self
            .roles
            .iter()
            .fold(NEVER, |least, cost| least.min(*cost));
        self.none.min(role + STEP)
    }

    /// To stay, or to enter if that is less; less what it costs to enter.
    fn or(&self, entering: i16) -> Row {
        Row {
            none: self.none.min(entering) - entering,
            roles: self.roles.map(|staying| staying.min(entering) - entering),
        }
    }

    /// A role is kept where that costs less than to enter, or as much and it is
    /// smaller than what would be entered. The smallest state is entered of
    /// those that cost the least: no role, or one that costs a step less to
    /// keep.
    fn choice(&self, entering: i16) -> Choice {
        let less = self.roles_where(|cost| cost < entering);
        if self.none == entering {
            return Choice {
                kept: less,
                entered: 0,
            };
        }
        let best = self.roles_where(|cost| cost + STEP == entering);
        let smaller = (best & best.wrapping_neg()) - 1;
        let even = self.roles_where(|cost| cost == entering);
        Choice {
            kept: less | even & smaller,
            entered: best.trailing_zeros() as u16 + 1,
        }
    }

    /// The mask of the roles whose cost is low enough.
    fn roles_where(&self, will_do: impl Fn(i16) -> bool) -> u16 {
        let bit = |(&cost, bit)| if will_do(cost) { bit } else { 0 };
        let bits = self.roles.iter().zip(BITS).map(bit);
        bits.fold(0, |mask, bit| mask | bit)
    }
}
