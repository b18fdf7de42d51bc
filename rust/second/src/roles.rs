//! The active set and what it permits: refusals 11 to 13.

use crate::cause::Cause;
use crate::file::{File, Section};
use crate::schema::grants;

const MOST_ROLES: usize = Section::Roles.most() as usize;
const MOST_KINDS: usize = Section::Kinds.most() as usize;

/// What a node does that asks for a role.
pub enum Act {
    On { role: u16 },
    Off { role: u16 },
    Send { kind: u16 },
    Receive { kind: u16 },
}

/// Whose roles are asked for, and which roles are open.
pub struct Whose {
    pub assigned: u16,
    pub open: u16,
    /// Whether the node stands in a fork's second branch.
    pub second: bool,
}

/// The active set after the act, or why it is refused.
pub fn step(rights: &impl Rights, whose: Whose, active: u16, act: Act) -> Result<u16, Cause> {
    let Whose {
        assigned,
        open,
        second,
    } = whose;
    match act {
        Act::On { role } if !has(assigned.into(), role) => Err(Cause::OnNotAssigned { second }),
        Act::On { role } if !has(open.into(), role) => Err(Cause::OnClosed { second }),
        Act::On { role } => Ok(active | 1 << (role - 1)),
        Act::Off { role } if !has(active.into(), role) => Err(Cause::OffNotActive { second }),
        Act::Off { role } => Ok(active & !(1 << (role - 1))),
        Act::Send { kind } if !rights.may_send(active, kind) => {
            Err(Cause::SendNotAllowed { second })
        }
        Act::Receive { kind } if !rights.may_receive(active, kind) => {
            Err(Cause::ReceiveNotAllowed { second })
        }
        Act::Send { .. } | Act::Receive { .. } => Ok(active),
    }
}

/// Whether an item is in a mask.
pub fn has(mask: u32, item: u16) -> bool {
    mask >> (item - 1) & 1 != 0
}

/// What is known of who may act on a kind.
pub trait Rights {
    /// Whether an active role may send on the kind.
    fn may_send(&self, active: u16, kind: u16) -> bool;

    /// Whether an active role may receive on it.
    fn may_receive(&self, active: u16, kind: u16) -> bool;
}

/// For each role the kinds that it may send on, and those that it may receive
/// on: by its own record, or by what its juniors may.
pub struct Grants([(u32, u32); MOST_ROLES]);

impl Grants {
    /// A junior has a lower number than its senior, so that what it may is known
    /// before.
    pub fn of(file: &File) -> Grants {
        let mut known = Grants([(0, 0); MOST_ROLES]);
        for (role, record) in file.roles.iter().enumerate() {
            let (mut sends, mut receives) = grants(record);
            let mut juniors = file.juniors_of(role);
            while juniors != 0 {
                let (more_sends, more_receives) = known.0[juniors.trailing_zeros() as usize];
                sends |= more_sends;
                receives |= more_receives;
                juniors &= juniors - 1;
            }
            known.0[role] = (sends, receives);
        }
        known
    }

    /// Whether one active role permits it.
    fn any(&self, mut active: u16, will_do: impl Fn((u32, u32)) -> bool) -> bool {
        while active != 0 {
            if will_do(self.0[active.trailing_zeros() as usize]) {
                return true;
            }
            active &= active - 1;
        }
        false
    }
}

impl Rights for Grants {
    fn may_send(&self, active: u16, kind: u16) -> bool {
        self.any(active, |(sends, _)| has(sends, kind))
    }

    fn may_receive(&self, active: u16, kind: u16) -> bool {
        self.any(active, |(_, receives)| has(receives, kind))
    }
}

/// For each kind the masks of the roles that may send and receive on it.
#[derive(Clone)]
pub struct Permitted {
    pub to_send: [u16; MOST_KINDS],
    pub to_receive: [u16; MOST_KINDS],
}

impl Permitted {
    pub fn of(file: &File) -> Permitted {
        let mut permitted = Permitted {
            to_send: [0; MOST_KINDS],
            to_receive: [0; MOST_KINDS],
        };
        let grants = Grants::of(file);
        for (role, &(sends, receives)) in grants.0[..file.roles.len()].iter().enumerate() {
            add(&mut permitted.to_send, sends, role);
            add(&mut permitted.to_receive, receives, role);
        }
        permitted
    }
}

impl Rights for Permitted {
    fn may_send(&self, active: u16, kind: u16) -> bool {
        roles_for(&self.to_send, kind) & active != 0
    }

    fn may_receive(&self, active: u16, kind: u16) -> bool {
        roles_for(&self.to_receive, kind) & active != 0
    }
}

/// The mask of a kind: no role for what is no kind.
fn roles_for(masks: &[u16; MOST_KINDS], kind: u16) -> u16 {
    let mask = masks.get(usize::from(kind).wrapping_sub(1));
    mask.copied().unwrap_or(0)
}

/// Adds a role to the masks of the kinds that it is granted.
fn add(masks: &mut [u16; MOST_KINDS], grant: u32, role: usize) {
    for (kind, mask) in masks.iter_mut().enumerate() {
        *mask |= ((grant >> kind & 1) as u16) << role;
    }
}
