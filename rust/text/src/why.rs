//! What the engine refuses in a text: its line, and who or what is to blame, in names.
//! The engine judges; this module looks up the place that it names.

use crate::line::At;
use crate::pack::{pack, Packed};
use crate::records::{items, Node, NEW, RECEIVE, SEND};
use crate::tree::{self, Spot};
use crate::unpack::unpack;

/// A place in a text, and what is wrong with it.
#[derive(Clone, Debug, PartialEq, Eq)]
pub struct Culprit {
    pub at: At,
    pub what: String,
}

/// What an operand stands for: 0 a plain value, j a channel of kind j.
type Kind = u16;

/// Where a refusal of this number and place stands in a text, in names. `None` if it has
/// no place there.
pub fn why(packed: &Packed, number: u16, place: u16) -> Option<Culprit> {
    let spots = tree::follow(&packed.records)?;
    let told = Told {
        packed,
        spots: &spots,
    };
    let index = usize::from(place).checked_sub(1);
    match number {
        2 => Some(Culprit {
            at: packed.source.clinic,
            what: format!(
                "version {} can't be used here",
                packed.records.version.number()
            ),
        }),
        7 => told.session(index?),
        26 => told.unseated(index?),
        21 => told.juniors(place.into()),
        14 if place == 0 => told.start(),
        10..=15 | 24 => told.node(number, index?),
        _ => None,
    }
}

/// What is wrong in a file's bytes, which have no names: `user 1 has no role that may send
/// on kind 2`.
pub fn why_in_numbers(bytes: &[u8], number: u16, place: u16) -> Option<String> {
    let mut packed = pack(&unpack(bytes)?).ok()?;
    packed.names = packed.names.numbered();
    let what = why(&packed, number, place)?.what;
    Some(what.replace("of kind kind ", "of kind "))
}

struct Told<'a> {
    packed: &'a Packed,
    spots: &'a [Spot],
}

impl Told<'_> {
    fn user(&self, number: u16) -> &str {
        name(&self.packed.names.users, number)
    }

    fn role(&self, number: u16) -> &str {
        name(&self.packed.names.roles, number)
    }

    fn kind(&self, number: u16) -> &str {
        name(&self.packed.names.kinds, number)
    }

    fn roles(&self, mask: u16) -> String {
        let names: Vec<&str> = items(mask.into())
            .map(|role| self.role(role as u16))
            .collect();
        match &names[..] {
            [] => "none".to_string(),
            names => names.join(", "),
        }
    }

    fn assigned(&self, user: u16) -> u16 {
        let index = usize::from(user).checked_sub(1);
        let mask = index.and_then(|index| self.packed.records.users.get(index));
        mask.copied().unwrap_or(0)
    }

    /// 7: a starting role that isn't assigned.
    fn session(&self, index: usize) -> Option<Culprit> {
        let session = self.packed.records.sessions.get(index)?;
        let assigned = self.assigned(session.user);
        let (user, has) = (self.user(session.user), self.roles(assigned));
        let mut starts = items(session.mask.into()).zip(self.packed.source.starts.get(index)?);
        let (role, &at) = starts.find(|(role, _)| assigned >> (role - 1) & 1 == 0)?;
        let role = self.role(role as u16);
        Some(Culprit {
            at,
            what: format!("{role} isn't a role of {user} (roles of {user}: {has})"),
        })
    }

    /// 26 before the first choice: the starting roles of a session, of which one has
    /// no seat left. The table of seats decides which.
    fn unseated(&self, index: usize) -> Option<Culprit> {
        let session = self.packed.records.sessions.get(index)?;
        let at = *self.packed.source.starts.get(index)?.first()?;
        let (user, starts) = (self.user(session.user), self.roles(session.mask));
        Some(Culprit {
            at,
            what: format!("{user} starts as {starts}, and the sessions above leave no seat"),
        })
    }

    /// 21: a junior that doesn't stand before its senior. The place is the word of
    /// the role's juniors.
    fn juniors(&self, word: usize) -> Option<Culprit> {
        let records = &self.packed.records;
        // The head of version 2 has 14 words.
        let index = word.checked_sub(14 + records.users.len() + 4 * records.roles.len())?;
        let juniors = items(records.roles.get(index)?.juniors.into());
        let mut juniors = juniors.zip(self.packed.source.juniors.get(index)?);
        let (junior, &at) = juniors.find(|&(junior, _)| junior > index)?;
        let senior = self.role(index as u16 + 1);
        let junior = self.role(junior as u16);
        let what = match junior == senior {
            true => format!("{senior} is its own junior"),
            false => format!("{junior} is a junior of {senior}, and must stand above it"),
        };
        Some(Culprit { at, what })
    }

    /// 14 for a starting mask: the first session that has one.
    fn start(&self) -> Option<Culprit> {
        let sessions = self.packed.records.sessions.iter();
        let mut starts = sessions.zip(&self.packed.source.starts);
        let (_, places) = starts.find(|(session, _)| session.mask != 0)?;
        let what = "a session to be placed starts without a role".to_string();
        let at = *places.first()?;
        Some(Culprit { at, what })
    }

    fn node(&self, number: u16, index: usize) -> Option<Culprit> {
        let &node = self.packed.records.nodes.get(index)?;
        let spot = self.spots.get(index)?;
        let at = self.packed.source.nodes.get(index)?.at;
        let session = self.packed.records.sessions.get(spot.session)?;
        let (user, role) = (self.user(session.user), self.role(node[1]));
        let what = match number {
            10 => self.mistaken(node, spot, session.user)?,
            11 => {
                let has = self.roles(self.assigned(session.user));
                format!("{role} isn't a role of {user} (roles of {user}: {has})")
            }
            12 => {
                let held = self.roles(spot.active);
                format!("{role} is not on here (roles on: {held})")
            }
            13 => {
                let (act, kind, may) = self.act(node, spot)?;
                let held = self.roles(spot.active);
                format!(
                    "{user} has no role on that may {act} on {} (roles on: {held}; roles that may: {})",
                    self.kind(kind),
                    self.roles(may)
                )
            }
            14 => "placing adds every on and off itself, and this one is there already".to_string(),
            15 => {
                let (act, kind, may) = self.act(node, spot)?;
                // A role that is assigned and may is one that is shut at the minute asked for.
                let open = match may & self.assigned(session.user) {
                    0 => "",
                    _ => "open ",
                };
                format!(
                    "{user} has no {open}role that may {act} on {} (roles that may: {})",
                    self.kind(kind),
                    self.roles(may)
                )
            }
            24 => format!("{role} is closed at that minute"),
            _ => return None,
        };
        Some(Culprit { at, what })
    }

    /// What a send or receive does, the kind it does that on, and the roles that may.
    fn act(&self, [tag, f1, _]: Node, spot: &Spot) -> Option<(&'static str, Kind, u16)> {
        let kind = self.kind_of(f1, spot)?;
        let act = match tag {
            SEND => "send",
            RECEIVE => "receive",
            _ => return None,
        };
        let roles = 1..=self.packed.records.roles.len();
        let may = roles
            .filter(|&role| self.permits(role, tag, kind))
            .fold(0, |mask, role| mask | 1 << (role - 1));
        Some((act, kind, may))
    }

    /// Whether a role may, by itself or by a junior.
    fn permits(&self, role: usize, tag: u16, kind: Kind) -> bool {
        let Some(record) = self.packed.records.roles.get(role - 1) else {
            return false;
        };
        let grants = if tag == SEND {
            record.sends
        } else {
            record.receives
        };
        let own = kind > 0 && grants >> (kind - 1) & 1 == 1;
        // Juniors have lower numbers than their seniors.
        let mut juniors = items(record.juniors.into()).filter(|&junior| junior < role);
        own || juniors.any(|junior| self.permits(junior, tag, kind))
    }

    /// What an operand stands for, by rule 1; `None` if that isn't known.
    fn kind_of(&self, operand: u16, spot: &Spot) -> Option<Kind> {
        let records = &self.packed.records;
        match operand {
            257..=320 => Some(records.channels.get(usize::from(operand) - 257)?.kind),
            512..=519 => {
                let &binder = spot.binders.get(usize::from(operand) - 512)?;
                let [tag, f1, _] = records.nodes[binder];
                match tag {
                    NEW => Some(f1),
                    _ => {
                        let kind = self.kind_of(f1, &self.spots[binder])?;
                        let index = usize::from(kind).checked_sub(1)?;
                        records.kinds.get(index).copied()
                    }
                }
            }
            _ => Some(0),
        }
    }

    /// The name that an operand has at a node.
    fn operand(&self, word: u16, spot: &Spot) -> &str {
        match word {
            257..=320 => name(&self.packed.names.channels, word - 256),
            512..=519 => {
                let binder = spot.binders.get(usize::from(word) - 512);
                binder.map_or("?", |&binder| self.variable(binder))
            }
            _ => self.user(word),
        }
    }

    /// The name that a node binds.
    fn variable(&self, binder: usize) -> &str {
        let session = self.spots[binder].session;
        let nodes = self.spots.iter().zip(&self.packed.records.nodes);
        let before = nodes
            .take(binder)
            .filter(|(spot, node)| spot.session == session && matches!(node[0], NEW | RECEIVE));
        let names = self.packed.names.sessions.get(session);
        let variable = names.and_then(|names| names.variables.get(before.count()));
        variable.map_or("?", String::as_str)
    }

    /// `a plain value`, or `a channel of kind answer`.
    fn sort(&self, kind: Kind) -> String {
        match kind {
            0 => "a plain value".to_string(),
            kind => format!("a channel of kind {}", self.kind(kind)),
        }
    }

    /// 10: what is against rules 2 to 4.
    fn mistaken(&self, [tag, f1, f2]: Node, spot: &Spot, user: u16) -> Option<String> {
        let kind = self.kind_of(f1, spot)?;
        let one = self.operand(f1, spot);
        if matches!(tag, SEND | RECEIVE) && kind == 0 {
            return Some(format!("{one} is {}, and no channel", self.sort(kind)));
        }
        Some(match tag {
            SEND => {
                let carried = self.packed.records.kinds[usize::from(kind) - 1];
                let (due, found) = (self.sort(carried), self.sort(self.kind_of(f2, spot)?));
                let other = self.operand(f2, spot);
                format!("{one} carries {due}, and {other} is {found}")
            }
            RECEIVE if f1 >= 512 => format!(
                "{one} was received, so it serves for sending alone: a channel is received on by its owner, or below the new that makes it"
            ),
            RECEIVE => {
                let channel = self.packed.records.channels.get(usize::from(f1) - 257)?;
                let (owner, user) = (self.user(channel.owner), self.user(user));
                format!("{user} receives on {one}, and its owner is {owner}")
            }
            _ => {
                let (first, second) = (self.sort(kind), self.sort(self.kind_of(f2, spot)?));
                let other = self.operand(f2, spot);
                format!("{one} is {first}, and {other} is {second}")
            }
        })
    }
}

/// The name of this number.
fn name(names: &[String], number: u16) -> &str {
    let index = usize::from(number).checked_sub(1);
    let name = index.and_then(|index| names.get(index));
    name.map_or("?", String::as_str)
}

/// The names of the variables that are bound above the node of this number, the first
/// bound first.
pub fn variables_at(packed: &Packed, node: u16) -> Vec<String> {
    let at = usize::from(node).checked_sub(1);
    let found = at.and_then(|at| variables(packed).into_iter().nth(at));
    found.unwrap_or_default()
}

/// These names for each node.
pub fn variables(packed: &Packed) -> Vec<Vec<String>> {
    let spots = tree::follow(&packed.records).unwrap_or_default();
    let told = Told {
        packed,
        spots: &spots,
    };
    let name = |&binder: &usize| told.variable(binder).to_string();
    let above = spots.iter().map(|spot| &spot.binders);
    above
        .map(|binders| binders.iter().map(name).collect())
        .collect()
}

/// The mask of the roles that are active at each node when it is reached.
pub fn held(packed: &Packed) -> Vec<u16> {
    let spots = tree::follow(&packed.records).unwrap_or_default();
    spots.iter().map(|spot| spot.active).collect()
}
