//! One thread of a run, and the steps that concern it alone.

use super::Halt;
use crate::roles::has;
use crate::tree::VARIABLES;

const MOST: usize = VARIABLES as usize;

/// The operand that names the first variable.
const FIRST_VARIABLE: usize = 512;

/// A thread as it stands, and its record in a list that is lent.
#[derive(Clone, Copy, Debug, Default, PartialEq, Eq)]
pub struct Thread {
    pub user: u16,
    pub node: u16,
    /// The active roles.
    pub mask: u16,
    /// The values of the variables, 0 where nothing is bound.
    pub variables: [u16; MOST],
}

impl Thread {
    /// The thread of a session at its start.
    pub(super) fn start([user, mask, root]: [u16; 3]) -> Thread {
        Thread {
            user,
            node: root,
            mask,
            variables: [0; MOST],
        }
    }

    /// A thread at another node, with the same user, mask and eight values.
    pub(super) fn twin(&self, node: u16) -> Thread {
        Thread { node, ..*self }
    }

    /// The value that an operand of its node stands for.
    pub(super) fn value_of(&self, operand: u16) -> u16 {
        let variable = usize::from(operand).wrapping_sub(FIRST_VARIABLE);
        self.variables.get(variable).copied().unwrap_or(operand)
    }

    /// Goes to the next node, the first child.
    pub(super) fn advance(&mut self) {
        self.node += 1;
    }

    /// Gives the next variable on the path its value: the first that is 0. In a run all
    /// that are bound have a value, and none is 0; in a lent row all eight may have one,
    /// and then stay.
    pub(super) fn bind(&mut self, value: u16) {
        if let Some(free) = self.variables.iter_mut().find(|value| **value == 0) {
            *free = value;
        }
        self.advance();
    }

    pub(super) fn compare(&mut self, one: u16, other: u16) -> Result<(), Halt> {
        if self.value_of(one) != self.value_of(other) {
            return Err(Halt::CompareUnequal);
        }
        self.advance();
        Ok(())
    }

    pub(super) fn put_on(&mut self, role: u16, assigned: u16) -> Result<(), Halt> {
        if !has(assigned.into(), role) {
            return Err(Halt::OnNotAssigned);
        }
        self.mask |= 1 << (role - 1);
        self.advance();
        Ok(())
    }

    pub(super) fn put_off(&mut self, role: u16) -> Result<(), Halt> {
        if !has(self.mask.into(), role) {
            return Err(Halt::OffNotActive);
        }
        self.mask &= !(1 << (role - 1));
        self.advance();
        Ok(())
    }

    /// The thread of a record in a run's output.
    pub(super) fn of(&[user, node, mask, _, ref variables @ ..]: &[u16; 4 + MOST]) -> Thread {
        Thread {
            user,
            node,
            mask,
            variables: *variables,
        }
    }

    /// Its record in a run's output.
    pub(super) fn words(&self) -> [u16; 4 + MOST] {
        let mut words = [0; 4 + MOST];
        let roles = self.mask.count_ones() as u16;
        words[..4].copy_from_slice(&[self.user, self.node, self.mask, roles]);
        words[4..].copy_from_slice(&self.variables);
        words
    }
}
