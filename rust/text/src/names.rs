//! The names in a text, which bytes don't have.

use crate::limits::{self, Limits};
use crate::line::{shown, Flaw, Line, MOST_FLAWS};
use crate::records::{Records, NEW, RECEIVE};
use crate::tables::{unknown, LISTED};
use crate::tree::Spot;
use crate::words::Cursor;
use std::collections::HashMap;

/// The names of a file's records, in their order, and what else a text has and bytes don't.
#[derive(Clone, Debug, Default, PartialEq, Eq)]
pub struct Names {
    pub kinds: Vec<String>,
    pub roles: Vec<String>,
    /// The seats and hours of each role.
    pub limits: Vec<Limits>,
    pub users: Vec<String>,
    pub channels: Vec<String>,
    pub sessions: Vec<SessionNames>,
}

#[derive(Clone, Debug, Default, PartialEq, Eq)]
pub struct SessionNames {
    pub name: String,
    /// The variables, in the order of the nodes that bind them.
    pub variables: Vec<String>,
}

impl Names {
    /// Names for records that have none: k1, r1, u1, c1, s1, and v1 to v8 by the
    /// variable's number on its path.
    pub fn invented(records: &Records, spots: &[Spot]) -> Names {
        let numbered = |letter: char, count: usize| {
            let name = |number| format!("{letter}{number}");
            (1..=count).map(name).collect()
        };
        let binders = |session: usize| {
            let nodes = spots.iter().zip(&records.nodes);
            let own = nodes.filter(move |(spot, _)| spot.session == session);
            own.filter(|(_, node)| matches!(node[0], NEW | RECEIVE))
                .map(|(spot, _)| format!("v{}", spot.binders.len() + 1))
                .collect()
        };
        let session = |index| SessionNames {
            name: format!("s{}", index + 1),
            variables: binders(index),
        };
        Names {
            kinds: numbered('k', records.kinds.len()),
            roles: numbered('r', records.roles.len()),
            limits: vec![Limits::default(); records.roles.len()],
            users: numbered('u', records.users.len()),
            channels: numbered('c', records.channels.len()),
            sessions: (0..records.sessions.len()).map(session).collect(),
        }
    }

    /// The names as a text of their own, to be kept beside a binary file.
    pub fn text(&self) -> String {
        let tables = [
            ("kinds", &self.kinds),
            ("roles", &self.roles),
            ("users", &self.users),
            ("channels", &self.channels),
        ];
        let mut text = "names\n".to_string();
        for (word, names) in tables {
            if !names.is_empty() {
                text += &format!("{word} {}\n", names.join(", "));
            }
            if word == "roles" {
                text += &self.limited();
            }
        }
        for session in &self.sessions {
            text += &format!("session {}", session.name);
            if !session.variables.is_empty() {
                text += &format!(": {}", session.variables.join(", "));
            }
            text.push('\n');
        }
        text
    }

    /// A line for each role with seats or hours.
    fn limited(&self) -> String {
        let roles = self.roles.iter().zip(&self.limits);
        let line = |(role, limits): (&String, &Limits)| match limits.parts().join("; ") {
            none if none.is_empty() => none,
            parts => format!("role {role}: {parts}\n"),
        };
        roles.map(line).collect()
    }

    /// The table of seats to be lent to the engine: a word for each role, 0 for no limit.
    pub fn seats(&self) -> Vec<u16> {
        self.limits.iter().map(|limits| limits.seats).collect()
    }

    /// The rows of the table of hours to be lent to the engine, each with its role's index.
    pub fn hours(&self) -> Vec<(usize, [u16; 3])> {
        let open = self.limits.iter().enumerate();
        let rows = open.flat_map(|(index, limits)| {
            let rows = limits.open.iter();
            let rows = rows.flat_map(move |open| open.rows(index as u16 + 1));
            rows.map(move |row| (index, row))
        });
        rows.collect()
    }

    /// Names that are numbers, of names that were invented: `user 1`, `variable 2`.
    pub(crate) fn numbered(self) -> Names {
        let told = |noun: &str, names: Vec<String>| {
            let numbers = names
                .iter()
                .map(|name| name.trim_start_matches(char::is_alphabetic));
            numbers.map(|number| format!("{noun} {number}")).collect()
        };
        let session = |session: SessionNames| SessionNames {
            name: session.name,
            variables: told("variable", session.variables),
        };
        Names {
            kinds: told("kind", self.kinds),
            roles: told("role", self.roles),
            limits: self.limits,
            users: told("user", self.users),
            channels: told("channel", self.channels),
            sessions: self.sessions.into_iter().map(session).collect(),
        }
    }

    /// Reads the lines of the roles' seats and hours, when all roles are known.
    pub(crate) fn limit_all(&mut self, lines: &[&Line]) -> Vec<Flaw> {
        self.limits = vec![Limits::default(); self.roles.len()];
        // Of two with one name the first counts.
        let roles = self.roles.iter().cloned().zip(0..self.roles.len());
        let numbers: HashMap<String, usize> = roles.rev().collect();
        let read = lines.iter().map(|line| self.limit(line, &numbers));
        read.filter_map(Result::err).take(MOST_FLAWS).collect()
    }

    /// Reads the line of a role's seats and hours.
    fn limit(&mut self, line: &Line, numbers: &HashMap<String, usize>) -> Result<(), Flaw> {
        let mut cursor = Cursor::new(line);
        cursor.word("role")?;
        let role = cursor.name("a role")?;
        let Some(&index) = numbers.get(&role.text) else {
            let roles = self.roles.iter().take(LISTED + 1).map(shown);
            let what = unknown("role", &role.text, &roles.collect::<Vec<_>>());
            return Err(Flaw { at: role.at, what });
        };
        cursor.word(":")?;
        let limits = &mut self.limits[index];
        loop {
            let at = cursor.token().map(|token| token.at).unwrap_or_default();
            let Some(word) = cursor.peek().and_then(limits::begun) else {
                return cursor.expected("'open' or a number of seats");
            };
            let is_there = match word {
                "open" => !limits.open.is_empty(),
                _ => limits.seats != 0,
            };
            if is_there {
                let what = format!("'{word}' of this role is there twice");
                return Err(Flaw { at, what });
            }
            limits.read(word, &mut cursor)?;
            if !cursor.takes(";") {
                return cursor.end_or("';' or ");
            }
        }
    }

    /// Takes the names of a line of such a text.
    pub(crate) fn add(&mut self, line: &Line) -> Result<(), Flaw> {
        let mut cursor = Cursor::new(line);
        let table = match cursor.peek() {
            Some("kinds") => &mut self.kinds,
            Some("roles") => &mut self.roles,
            Some("users") => &mut self.users,
            Some("channels") => &mut self.channels,
            Some("session") => {
                cursor.skip();
                let name = cursor.name("the session's name")?.text.clone();
                let (variables, more) = match cursor.takes(":") {
                    true => (list(&mut cursor, "a variable's name")?, "',' or "),
                    false => (Vec::new(), "':' or "),
                };
                self.sessions.push(SessionNames { name, variables });
                return cursor.end_or(more);
            }
            _ => {
                let words = "'sum', 'kinds', 'roles', 'role', 'users', 'channels' or 'session'";
                return cursor.expected(words);
            }
        };
        cursor.skip();
        table.extend(list(&mut cursor, "a name")?);
        cursor.end_or("',' or ")
    }
}

/// Names with commas between.
fn list(cursor: &mut Cursor, what: &str) -> Result<Vec<String>, Flaw> {
    let mut names = vec![cursor.name(what)?.text.clone()];
    while cursor.takes(",") {
        names.push(cursor.name(what)?.text.clone());
    }
    Ok(names)
}
