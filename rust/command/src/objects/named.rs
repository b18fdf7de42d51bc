//! Records by number, and by name where there are names.

use crate::input::{Input, Text};
use crate::json::{list, object, Json};
use crate::names::items;
use text::{Limits, Names};

/// A table whose records have names.
#[derive(Clone, Copy)]
pub enum Table {
    Users,
    Roles,
    Kinds,
    Channels,
    Sessions,
}

/// The names of an input, if it has some.
#[derive(Clone, Copy)]
pub struct Named<'a> {
    names: Option<&'a Names>,
}

impl<'a> Named<'a> {
    pub fn of(input: &'a Input) -> Named<'a> {
        let names = input.text.as_ref().map(|text| &text.packed.names);
        Named { names }
    }

    /// The name of a record.
    pub fn name(&self, table: Table, number: usize) -> Option<&'a str> {
        let (names, at) = (self.names?, number.checked_sub(1)?);
        let name = match table {
            Table::Users => names.users.get(at)?,
            Table::Roles => names.roles.get(at)?,
            Table::Kinds => names.kinds.get(at)?,
            Table::Channels => names.channels.get(at)?,
            Table::Sessions => &names.sessions.get(at)?.name,
        };
        Some(name)
    }

    /// The seats and hours of the role of this index.
    pub fn limits(&self, at: usize) -> Limits {
        let limits = self.names.and_then(|names| names.limits.get(at));
        limits.cloned().unwrap_or_default()
    }

    /// A record.
    pub fn one(&self, table: Table, number: u16) -> Json {
        let name = self.name(table, number.into());
        reference(number.into(), name)
    }

    /// The records of a mask, lowest first.
    pub fn masked(&self, table: Table, mask: u32) -> Json {
        list(items(mask).map(|item| self.one(table, item as u16)))
    }

    /// What an operand of a node names, where these variables are bound above it.
    pub fn operand(&self, word: u16, variables: &[String]) -> Json {
        match word {
            512..=519 => {
                let name = variables.get(usize::from(word) - 512);
                meant(word, "variable", word - 511, name.map(String::as_str))
            }
            _ => self.constant(word),
        }
    }

    /// A value in a run.
    pub fn value(&self, word: u16) -> Json {
        match word {
            385..=448 => meant(word, "made channel", word - 384, None),
            _ => self.constant(word),
        }
    }

    /// A user or a channel by its word.
    fn constant(&self, word: u16) -> Json {
        match word {
            1..=32 => self.record("user", Table::Users, word, word),
            257..=320 => self.record("channel", Table::Channels, word, word - 256),
            _ => object([
                ("word", word.into()),
                ("is", "nothing".into()),
                ("number", Json::Null),
                ("name", Json::Null),
            ]),
        }
    }

    /// A word that means the record of this number.
    pub fn record(&self, is: &str, table: Table, word: u16, number: u16) -> Json {
        meant(word, is, number, self.name(table, number.into()))
    }
}

/// The text whose lines an object speaks of, if the file came as one.
pub fn lines(input: &Input) -> Option<&Text> {
    input.source_text()
}

/// A number, and the name that belongs to it.
pub fn reference(number: usize, name: Option<&str>) -> Json {
    object([("number", number.into()), ("name", name.into())])
}

fn meant(word: u16, is: &str, number: u16, name: Option<&str>) -> Json {
    object([
        ("word", word.into()),
        ("is", is.into()),
        ("number", number.into()),
        ("name", name.into()),
    ])
}
