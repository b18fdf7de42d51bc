//! Two texts in one: their tables compared by name, and names that clash told apart.

use crate::limits::Limits;
use crate::line::{tokens, At, Token};
use crate::names::Names;
use crate::pack::Packed;
use crate::records::{bit, items, Records, Role, NEW, OFF, ON};
use crate::words::LONGEST_NAME;
use std::collections::{BTreeMap, BTreeSet};

/// A kind or a role that two texts don't have alike.
#[derive(Debug, PartialEq, Eq)]
pub struct Difference {
    /// `kind` or `role`.
    pub one: &'static str,
    pub name: String,
    /// What differs, of a role that both have: `differs`, `has other seats`.
    pub how: &'static str,
    /// Where its name stands in either text, if it is there.
    pub at: [Option<At>; 2],
}

/// The kinds and roles that two texts don't have alike, by their names: those of the first,
/// and then those that only the second has.
pub fn differences(both: [&Packed; 2]) -> Vec<Difference> {
    let kinds =
        both.map(|packed| table(packed, &packed.names.kinds, &packed.source.kinds, carried));
    let roles = both.map(|packed| table(packed, &packed.names.roles, &packed.source.roles, grants));
    let mut found = unlike("kind", "differs", kinds);
    found.extend(unlike("role", "differs", roles));
    found
}

/// The roles whose seats or hours two texts don't have alike. No byte has these, so that the
/// engine doesn't compare them.
pub fn other_limits(both: [&Packed; 2]) -> Vec<Difference> {
    let seats = both.map(|packed| table(packed, &packed.names.roles, &packed.source.roles, seats));
    let hours = both.map(|packed| table(packed, &packed.names.roles, &packed.source.roles, hours));
    let mut found = unlike("role", "has other seats", seats);
    found.extend(unlike("role", "has other hours", hours));
    found
}

/// A record by its name: where that stands, and what the record says in names.
type Said<'a, T> = (&'a str, At, T);

fn table<'a, T>(
    packed: &'a Packed,
    names: &'a [String],
    places: &[At],
    says: fn(&'a Packed, usize) -> T,
) -> Vec<Said<'a, T>> {
    let named = names.iter().zip(places).enumerate();
    named
        .map(|(index, (name, &at))| (name.as_str(), at, says(packed, index)))
        .collect()
}

/// What a kind carries.
fn carried(packed: &Packed, index: usize) -> Vec<BTreeSet<&str>> {
    let carried = packed.records.kinds.get(index).copied().unwrap_or(0);
    let carried = usize::from(carried).checked_sub(1);
    let name = carried.and_then(|kind| packed.names.kinds.get(kind));
    vec![name.into_iter().map(String::as_str).collect()]
}

/// What a role may send on and receive on, and its juniors.
fn grants(packed: &Packed, index: usize) -> Vec<BTreeSet<&str>> {
    let role = packed.records.roles.get(index).copied().unwrap_or_default();
    let Names { kinds, roles, .. } = &packed.names;
    vec![
        named(kinds, role.sends),
        named(kinds, role.receives),
        named(roles, role.juniors.into()),
    ]
}

fn seats(packed: &Packed, index: usize) -> u16 {
    let limits = packed.names.limits.get(index);
    limits.map_or(0, |limits| limits.seats)
}

/// When a role is open, however that is written.
fn hours(packed: &Packed, index: usize) -> Vec<[u16; 2]> {
    let limits = packed.names.limits.get(index);
    limits.map_or(Vec::new(), Limits::minutes)
}

/// The names of a mask.
fn named(names: &[String], mask: u32) -> BTreeSet<&str> {
    let names = items(mask).filter_map(|item| names.get(item - 1));
    names.map(String::as_str).collect()
}

fn unlike<T: PartialEq>(
    one: &'static str,
    how: &'static str,
    [first, second]: [Vec<Said<T>>; 2],
) -> Vec<Difference> {
    let find = |table: &[Said<T>], name: &str| table.iter().position(|(known, ..)| *known == name);
    let mut found = Vec::new();
    for (name, at, says) in &first {
        let other = find(&second, name).map(|other| &second[other]);
        if other.is_none_or(|(.., said)| said != says) {
            let at = [Some(*at), other.map(|&(_, at, _)| at)];
            let name = name.to_string();
            found.push(Difference { one, name, how, at });
        }
    }
    for (name, at, _) in &second {
        if find(&first, name).is_none() {
            let (name, at) = (name.to_string(), [None, Some(*at)]);
            found.push(Difference { one, name, how, at });
        }
    }
    found
}

/// A text's records with its kinds and roles in the order of these names. `None` if one of
/// them isn't there.
pub fn ordered(names: &Names, packed: &Packed) -> Option<Records> {
    let kinds = Order::of(&names.kinds, &packed.names.kinds)?;
    let roles = Order::of(&names.roles, &packed.names.roles)?;
    let role = |role: Role| Role {
        sends: kinds.mask(role.sends),
        receives: kinds.mask(role.receives),
        juniors: roles.mask(role.juniors.into()) as u16,
    };
    let mut records = packed.records.clone();
    records.kinds = kinds.sorted(records.kinds.iter().map(|&kind| kinds.number(kind)));
    records.roles = roles.sorted(records.roles.iter().copied().map(role));
    for mask in &mut records.users {
        *mask = roles.mask((*mask).into()) as u16;
    }
    for channel in &mut records.channels {
        channel.kind = kinds.number(channel.kind);
    }
    for session in &mut records.sessions {
        session.mask = roles.mask(session.mask.into()) as u16;
    }
    for node in &mut records.nodes {
        match node {
            [NEW, kind, _] => *kind = kinds.number(*kind),
            [ON | OFF, role, _] => *role = roles.number(*role),
            _ => (),
        }
    }
    Some(records)
}

/// For each record of a table its number in another order.
struct Order(Vec<usize>);

impl Order {
    fn of(due: &[String], names: &[String]) -> Option<Order> {
        let number = |name: &String| due.iter().position(|due| due == name).map(|at| at + 1);
        let numbers: Option<Vec<usize>> = names.iter().map(number).collect();
        numbers.filter(|_| due.len() == names.len()).map(Order)
    }

    /// The number of the record that had this one; 0 is none.
    fn number(&self, number: u16) -> u16 {
        let index = usize::from(number).checked_sub(1);
        let number = index.and_then(|index| self.0.get(index));
        number.map_or(0, |&number| number as u16)
    }

    fn mask(&self, mask: u32) -> u32 {
        let numbers = items(mask).filter_map(|item| self.0.get(item - 1));
        numbers.fold(0, |mask, &number| mask | bit(number))
    }

    fn sorted<T>(&self, records: impl Iterator<Item = T>) -> Vec<T> {
        let mut numbered: Vec<(usize, T)> = self.0.iter().copied().zip(records).collect();
        numbered.sort_by_key(|&(number, _)| number);
        numbered.into_iter().map(|(_, record)| record).collect()
    }
}

/// The names of a text that another has already, and how they are told apart.
#[derive(Debug, Default, PartialEq, Eq)]
pub struct Apart {
    /// What each is, its name, and the name that it gets.
    pub renamed: Vec<(&'static str, String, String)>,
    values: BTreeMap<String, String>,
    sessions: BTreeMap<String, String>,
}

impl Apart {
    /// The second's names that clash with the first's: `desk` becomes `desk-2`, or the next
    /// number that is free.
    pub fn of(first: &Names, second: &Names) -> Apart {
        let mut apart = Apart::default();
        let (own, bound) = (constants(first), variables(first));
        let taken: BTreeSet<&str> = own.union(&bound).copied().collect();
        let there: BTreeSet<&str> = constants(second)
            .union(&variables(second))
            .copied()
            .collect();
        let mut there: BTreeSet<String> =
            taken.union(&there).map(|name| name.to_string()).collect();
        let Names {
            users, channels, ..
        } = second;
        let users = users.iter().map(|name| ("user", name.as_str(), &taken));
        let channels = channels
            .iter()
            .map(|name| ("channel", name.as_str(), &taken));
        // A variable may have the name of another variable, but not of a user or channel.
        let bound = variables(second)
            .into_iter()
            .map(|name| ("variable", name, &own));
        for (what, name, taken) in users.chain(channels).chain(bound) {
            if taken.contains(name) {
                let to = free(name, &mut there);
                apart.values.insert(name.to_string(), to.clone());
                apart.renamed.push((what, name.to_string(), to));
            }
        }
        let sessions = |names: &Names| -> BTreeSet<String> {
            let sessions = names.sessions.iter();
            sessions.map(|session| session.name.clone()).collect()
        };
        let taken = sessions(first);
        let mut there: BTreeSet<String> = taken.union(&sessions(second)).cloned().collect();
        for session in &second.sessions {
            let name = &session.name;
            if taken.contains(name) {
                let to = free(name, &mut there);
                apart.sessions.insert(name.clone(), to.clone());
                apart.renamed.push(("session", name.clone(), to));
            }
        }
        apart
    }

    /// A line of the second text with the new names.
    fn line(&self, number: usize, line: &str) -> String {
        let tokens = tokens(number, line);
        let mut chars: Vec<char> = line.chars().collect();
        // From the last on, so that the places before it stay.
        for (token, names) in self.changed(&tokens).into_iter().rev() {
            if let Some(to) = names.get(&token.text) {
                let start = token.at.column - 1;
                chars.splice(start..start + token.at.width, to.chars());
            }
        }
        chars.into_iter().collect()
    }

    /// The words of a line that may get new names, in their order.
    fn changed<'a>(
        &'a self,
        tokens: &'a [Token],
    ) -> Vec<(&'a Token, &'a BTreeMap<String, String>)> {
        let Apart {
            values, sessions, ..
        } = self;
        let places: &[(usize, _)] = match tokens.first().map_or("", |token| &token.text) {
            "user" | "new" => &[(1, values)],
            "channel" => &[(1, values), (6, values)],
            "session" => &[(1, sessions), (3, values)],
            "send" | "receive" | "compare" => &[(1, values), (3, values)],
            _ => &[],
        };
        let found = places
            .iter()
            .map(|&(at, names)| Some((tokens.get(at)?, names)));
        found.flatten().collect()
    }
}

/// The names of users and channels.
fn constants(names: &Names) -> BTreeSet<&str> {
    let names = names.users.iter().chain(&names.channels);
    names.map(String::as_str).collect()
}

fn variables(names: &Names) -> BTreeSet<&str> {
    let names = names.sessions.iter().flat_map(|session| &session.variables);
    names.map(String::as_str).collect()
}

/// The name with the lowest number from 2 that nothing has, which is then there. One that
/// would be too long with its number loses its last letters.
fn free(name: &str, there: &mut BTreeSet<String>) -> String {
    let mut number = 2;
    loop {
        let end = format!("-{number}");
        let start = name.chars().take(LONGEST_NAME - end.len());
        let to = start.collect::<String>() + &end;
        if there.insert(to.clone()) {
            return to;
        }
        number += 1;
    }
}

/// The first text as it stands, and below it the second without its version, kinds and roles,
/// with names told apart.
pub fn joined(first: &str, second: &str, apart: &Apart) -> String {
    let is_kept = |line: &str| {
        let tokens = tokens(1, line);
        let word = tokens.first().map_or("", |token| &token.text);
        !matches!(word, "clinic" | "kind" | "role")
    };
    let lines = (1..)
        .zip(second.split('\n'))
        .filter(|(_, line)| is_kept(line));
    let lines: Vec<String> = lines
        .map(|(number, line)| apart.line(number, line))
        .collect();
    let blank = lines
        .iter()
        .take_while(|line| line.trim().is_empty())
        .count();
    let below = lines[blank..].join("\n");
    if below.is_empty() {
        return first.to_string();
    }
    let end = if first.contains("\r\n") { "\r\n" } else { "\n" };
    let ended = if first.ends_with('\n') { "" } else { end };
    format!("{first}{ended}{end}{below}")
}
