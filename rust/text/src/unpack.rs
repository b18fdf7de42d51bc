//! Bytes to text.

use crate::limits::Limits;
use crate::names::Names;
use crate::records::{items, Node, Records, Version};
use crate::records::{COMPARE, FORK, NEW, OFF, ON, RECEIVE, REPEAT, SEND};
use crate::tree::{self, Spot};
use crate::{pack, Packed};

/// The canonical text of a file, with invented names. `None` if 1 to 6, 8 or 9 refuse
/// the file.
pub fn unpack(bytes: &[u8]) -> Option<String> {
    let records = Records::of(bytes)?;
    let spots = tree::follow(&records)?;
    let names = Names::invented(&records, &spots);
    write(&records, &spots, &names)
}

/// The canonical text with these names. `None` also if they don't fit the file.
pub fn unpack_named(bytes: &[u8], names: &Names) -> Option<String> {
    let records = Records::of(bytes)?;
    let spots = tree::follow(&records)?;
    let text = write(&records, &spots, names)?;
    let fits = |packed: &Packed| packed.records == records && packed.names == *names;
    pack(&text)
        .is_ok_and(|packed| fits(&packed))
        .then_some(text)
}

/// The canonical text of what was read from another.
pub fn canonical(packed: &Packed) -> Option<String> {
    let spots = tree::follow(&packed.records)?;
    write(&packed.records, &spots, &packed.names)
}

/// The canonical text.
pub(crate) fn write(records: &Records, spots: &[Spot], names: &Names) -> Option<String> {
    let writer = Writer {
        records,
        names,
        variables: variables(records, spots, names)?,
    };
    if records.version == Version::Nothing {
        return Some("clinic nothing planned\n".to_string());
    }
    let mut text = format!("clinic {}\n", records.version.number());
    writer.tables(&mut text)?;
    writer.sessions(spots, &mut text)?;
    Some(text)
}

/// The name that each node binds, if it binds one.
fn variables<'a>(
    records: &Records,
    spots: &[Spot],
    names: &'a Names,
) -> Option<Vec<Option<&'a str>>> {
    let sessions = names.sessions.iter();
    let mut left: Vec<_> = sessions.map(|session| session.variables.iter()).collect();
    let mut variables = Vec::with_capacity(spots.len());
    for (spot, node) in spots.iter().zip(&records.nodes) {
        variables.push(match node[0] {
            NEW | RECEIVE => Some(left.get_mut(spot.session)?.next()?.as_str()),
            _ => None,
        });
    }
    Some(variables)
}

struct Writer<'a> {
    records: &'a Records,
    names: &'a Names,
    /// The name that each node binds.
    variables: Vec<Option<&'a str>>,
}

impl Writer<'_> {
    fn tables(&self, text: &mut String) -> Option<()> {
        let Writer { records, names, .. } = self;
        for (&carried, name) in records.kinds.iter().zip(&names.kinds) {
            *text += &match carried {
                0 => format!("kind {name}\n"),
                kind => format!("kind {name} carries {}\n", one(&names.kinds, kind)?),
            };
        }
        for (index, (role, name)) in records.roles.iter().zip(&names.roles).enumerate() {
            let grants = [
                ("send", role.sends, &names.kinds),
                ("receive", role.receives, &names.kinds),
                ("juniors", role.juniors.into(), &names.roles),
            ];
            let mut parts = Vec::new();
            for (word, mask, names) in grants {
                if mask != 0 {
                    parts.push(format!("{word} {}", all(names, mask)?));
                }
            }
            parts.extend(names.limits.get(index).into_iter().flat_map(Limits::parts));
            *text += &format!("role {name}{}\n", behind(": ", &parts.join("; ")));
        }
        for (&mask, name) in records.users.iter().zip(&names.users) {
            let roles = all(&names.roles, mask.into())?;
            *text += &format!("user {name}{}\n", behind(": ", &roles));
        }
        for (channel, name) in records.channels.iter().zip(&names.channels) {
            let kind = one(&names.kinds, channel.kind)?;
            let owner = one(&names.users, channel.owner)?;
            *text += &format!("channel {name}: {kind}, owner {owner}\n");
        }
        Some(())
    }

    fn sessions(&self, spots: &[Spot], text: &mut String) -> Option<()> {
        let Writer { records, names, .. } = self;
        for (at, (spot, &node)) in spots.iter().zip(&records.nodes).enumerate() {
            let parent = spot.parent.map(|parent| records.nodes[parent][0]);
            if parent.is_none() {
                let session = records.sessions.get(spot.session)?;
                let name = &names.sessions.get(spot.session)?.name;
                let user = one(&names.users, session.user)?;
                let roles = all(&names.roles, session.mask.into())?;
                *text += &format!("\nsession {name} by {user}{}\n", behind(" as ", &roles));
            }
            if parent == Some(FORK) {
                *text += &indented(spot.level - 1, "branch");
            }
            if node[0] != 0 {
                *text += &indented(spot.level, &self.step(at, node, spot)?);
            }
        }
        Some(())
    }

    /// The words of a node that is no end.
    fn step(&self, at: usize, [tag, f1, f2]: Node, spot: &Spot) -> Option<String> {
        let operand = |word| self.operand(word, spot);
        let bound = || self.variables[at];
        Some(match tag {
            FORK => "fork".to_string(),
            REPEAT => "repeat".to_string(),
            NEW => format!("new {}: {}", bound()?, one(&self.names.kinds, f1)?),
            COMPARE => format!("compare {} with {}", operand(f1)?, operand(f2)?),
            RECEIVE => format!("receive {} on {}", bound()?, operand(f1)?),
            SEND => format!("send {} on {}", operand(f2)?, operand(f1)?),
            ON => format!("on {}", one(&self.names.roles, f1)?),
            OFF => format!("off {}", one(&self.names.roles, f1)?),
            _ => return None,
        })
    }

    /// What an operand names at a node.
    fn operand(&self, word: u16, spot: &Spot) -> Option<&str> {
        match word {
            1..=32 => one(&self.names.users, word),
            257..=320 => one(&self.names.channels, word - 256),
            512..=519 => self.variables[*spot.binders.get(usize::from(word) - 512)?],
            _ => None,
        }
    }
}

/// The name of this number.
fn one(names: &[String], number: u16) -> Option<&str> {
    let index = usize::from(number).checked_sub(1)?;
    names.get(index).map(String::as_str)
}

/// The names of a mask, with commas between.
fn all(names: &[String], mask: u32) -> Option<String> {
    let names: Option<Vec<&str>> = items(mask)
        .map(|item| names.get(item - 1).map(String::as_str))
        .collect();
    Some(names?.join(", "))
}

/// Text with a sign before it, or nothing.
fn behind(sign: &str, text: &str) -> String {
    match text {
        "" => String::new(),
        _ => format!("{sign}{text}"),
    }
}

fn indented(level: usize, words: &str) -> String {
    format!("{}{words}\n", "  ".repeat(level))
}
