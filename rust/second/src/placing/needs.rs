//! The roles that permit each send and receive: refusals 14 and 15.

use super::{refuse, MOST_NODES};
use crate::cause::{Cause, Refusal};
use crate::file::{word, File};
use crate::names::{self, Context};
use crate::roles::{Act, Permitted};

/// What the nodes ask for.
pub struct Needs {
    /// For each send and receive the open roles of its user that permit it; 0
    /// for the other nodes.
    pub roles: [u16; MOST_NODES],
    /// The first 14 and the first 15 among the nodes.
    changes: Result<(), Refusal>,
    unmet: Result<(), Refusal>,
}

impl Needs {
    /// Judges 9 and 10, then 14 and 15, on a file that 1 to 8 leave clean, where
    /// these roles are open.
    pub fn of(file: &File, open: u16) -> Result<Needs, Refusal> {
        let permitted = Permitted::of(file);
        let mut needs = Needs {
            roles: [0; MOST_NODES],
            changes: Ok(()),
            unmet: Ok(()),
        };
        names::each_act(file, |context, place, act| {
            needs.note(&permitted, open, context, place, act);
        })?;
        if file.sessions.iter().any(|session| word(session, 1) != 0) {
            return refuse(Cause::StartPresent, 0);
        }
        needs.changes?;
        needs.unmet?;
        Ok(needs)
    }

    fn note(&mut self, permitted: &Permitted, open: u16, context: &Context, place: u16, act: Act) {
        let second = context.second;
        let (roles, cause) = match act {
            Act::On { .. } => return self.note_change(Cause::OnPresent, place),
            Act::Off { .. } => return self.note_change(Cause::OffPresent, place),
            Act::Send { kind } => (
                permitted.to_send[usize::from(kind) - 1],
                Cause::NoRoleSends { second },
            ),
            Act::Receive { kind } => (
                permitted.to_receive[usize::from(kind) - 1],
                Cause::NoRoleReceives { second },
            ),
        };
        let roles = roles & open & context.assigned;
        if roles == 0 && self.unmet.is_ok() {
            self.unmet = refuse(cause, place);
        }
        self.roles[usize::from(place) - 1] = roles;
    }

    fn note_change(&mut self, cause: Cause, place: u16) {
        if self.changes.is_ok() {
            self.changes = refuse(cause, place);
        }
    }
}
