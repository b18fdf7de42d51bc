//! The names that a text defines, wherever they stand in it.

use crate::line::{shown, At, Flaw, Line, MOST_FLAWS};
use crate::records::MOST;
use crate::words::is_reserved;
use std::collections::HashMap;

/// How many names a message lists.
pub const LISTED: usize = 8;

/// A table's names, in their order.
pub struct Table {
    /// What one of its records is called.
    pub one: &'static str,
    most: usize,
    pub names: Vec<(String, At)>,
    /// The number of each name, by its first record.
    numbers: HashMap<String, usize>,
    /// The first names, one more than a message lists, each as it stands in one.
    first: Vec<String>,
}

impl Table {
    fn new(one: &'static str, most: usize) -> Table {
        Table {
            one,
            most,
            names: Vec::new(),
            numbers: HashMap::new(),
            first: Vec::new(),
        }
    }

    /// Adds a record; one without a proper name has an empty one, which nothing finds.
    fn add(&mut self, name: &str, at: At) {
        self.names.push((name.to_string(), at));
        if name.is_empty() || self.numbers.contains_key(name) {
            return;
        }
        self.numbers.insert(name.to_string(), self.names.len());
        if self.first.len() <= LISTED {
            self.first.push(shown(name));
        }
    }

    /// The number of the record with this name, from 1.
    pub fn number(&self, name: &str) -> Option<usize> {
        self.numbers.get(name).copied()
    }

    /// What is said of a name that nothing has.
    pub fn unknown(&self, name: &str) -> String {
        unknown(self.one, name, &self.first)
    }

    /// Where a name is defined.
    pub fn at(&self, name: &str) -> Option<At> {
        self.number(name).map(|number| self.names[number - 1].1)
    }

    /// The names alone.
    pub fn only_names(&self) -> Vec<String> {
        self.names.iter().map(|(name, _)| name.clone()).collect()
    }
}

/// What is said of a name that none of these has, which are as they stand in a message.
pub fn unknown(one: &str, name: &str, first: &[String]) -> String {
    let there = match first {
        [] => format!("there are no {one}s"),
        names => format!("{one}s: {}", listed(names)),
    };
    format!("there is no {one} '{}' ({there})", shown(name))
}

/// Names with commas between, as many as a message lists.
pub fn listed(names: &[String]) -> String {
    match names.get(..LISTED).filter(|_| names.len() > LISTED) {
        Some(first) => first.join(", ") + ", ...",
        None => names.join(", "),
    }
}

/// All names but those of variables.
pub struct Tables {
    pub users: Table,
    pub roles: Table,
    pub kinds: Table,
    pub channels: Table,
    pub sessions: Table,
}

impl Tables {
    /// Those that the lines at the margin define. A name that is a word of the form is
    /// reported when the line is read.
    pub fn of(lines: &[Line], flaws: &mut Vec<Flaw>) -> Tables {
        let mut tables = Tables {
            users: Table::new("user", MOST[0]),
            roles: Table::new("role", MOST[1]),
            kinds: Table::new("kind", MOST[2]),
            channels: Table::new("channel", MOST[3]),
            sessions: Table::new("session", MOST[4]),
        };
        let mut found = Vec::new();
        for line in lines.iter().filter(|line| line.indent == 0) {
            let flaw = tables.define(line).err();
            found.extend(flaw.filter(|_| found.len() < MOST_FLAWS));
        }
        flaws.extend(found);
        tables
    }

    fn define(&mut self, line: &Line) -> Result<(), Flaw> {
        let [word, rest @ ..] = &line.tokens[..] else {
            return Ok(());
        };
        // A line without a proper name still defines a record, so that later ones
        // keep their numbers.
        let (name, at) = match rest.first() {
            Some(name) if name.is_name() && !is_reserved(&name.text) => (&name.text[..], name.at),
            _ => ("", line.at()),
        };
        let other = match word.text.as_str() {
            "user" => self.channels.at(name).map(|at| ("channel", at)),
            "channel" => self.users.at(name).map(|at| ("user", at)),
            _ => None,
        };
        let table = match word.text.as_str() {
            "user" => &mut self.users,
            "role" => &mut self.roles,
            "kind" => &mut self.kinds,
            "channel" => &mut self.channels,
            "session" => &mut self.sessions,
            _ => return Ok(()),
        };
        let known = table.at(name).map(|at| (table.one, at)).or(other);
        table.add(name, at);
        let flaw = |what| Err(Flaw { at, what });
        if table.names.len() > table.most {
            let (one, most) = (table.one, table.most);
            return flaw(format!("one {one} too many: a clinic has at most {most}"));
        }
        match known {
            Some((one, first)) => flaw(format!(
                "'{}' is the name of a {one} already (line {})",
                shown(name),
                first.line
            )),
            None => Ok(()),
        }
    }
}
