//! Tables of opening hours.

use crate::input::{flawed, Input};
use crate::named;
use crate::spaced;
use crate::WrongUse;
use text::week::Stretch;
use text::{shown, unless_flawed, At, Flaw, MOST_FLAWS};

/// A table of hours, read from text.
#[derive(Debug, Default, PartialEq)]
pub struct Table {
    /// Three words a row: role, first minute, end minute.
    pub words: Vec<u16>,
    /// The line that each row comes from, from 1.
    pub lines: Vec<usize>,
}

impl Table {
    /// The table that a source has for a file.
    pub fn read(name: &str, bytes: &[u8], input: &Input) -> Result<Table, WrongUse> {
        let roles = named::roles(input);
        match Table::of(bytes, roles) {
            Ok(table) => Ok(table),
            // A refused file is reported first, whatever names the table has.
            Err(_) if roles.is_none() && !pilzdamo::read(input).is_clean() => Ok(Table::default()),
            Err(flaws) => {
                let WrongUse(why) = flawed(name, bytes, &flaws);
                let (role, more) = match roles {
                    Some(roles) => (named::example(roles, 1), ""),
                    None => ("role 2", " (by name with --names NAMES)"),
                };
                let form = "opening hours are text, a line for each stretch";
                Err(WrongUse(format!(
                    "{why}\n  {form}: {role} Mon-Fri 07:00-15:00{more}"
                )))
            }
        }
    }

    /// The hours that a file's own text says, or the text that its names are from; none if
    /// no role has any.
    pub fn own(input: &Input) -> Option<Table> {
        let packed = &input.text.as_ref()?.packed;
        let rows = packed.names.hours();
        let line = |index: usize| packed.source.roles.get(index).map_or(0, |at| at.line);
        let table = Table {
            words: rows.iter().flat_map(|(_, row)| *row).collect(),
            lines: rows.iter().map(|&(index, _)| line(index)).collect(),
        };
        (!rows.is_empty()).then_some(table)
    }

    /// The rows of the text, with roles of these names: `admissions Mon-Fri 07:00-15:00`; without
    /// names `role 2 Mon-Fri 07:00-15:00`. `#` starts a comment.
    fn of(text: &[u8], roles: Option<&[String]>) -> Result<Table, Vec<Flaw>> {
        let (mut table, mut flaws) = (Table::default(), Vec::new());
        for (line, text) in (1..).zip(text.split(|&byte| byte == b'\n')) {
            let words = spaced::words(line, text);
            if words.is_empty() || flaws.len() > MOST_FLAWS {
                continue;
            }
            match rows(&words, roles) {
                Ok(rows) => {
                    table.lines.extend(rows.iter().map(|_| line));
                    table.words.extend(rows.as_flattened());
                }
                Err(flaw) => flaws.push(flaw),
            }
        }
        unless_flawed(table, flaws)
    }
}

/// The rows of a line that isn't empty.
fn rows(words: &[(At, &[u8])], roles: Option<&[String]>) -> Result<Vec<[u16; 3]>, Flaw> {
    let mut told = Vec::new();
    for &(at, word) in words {
        let what = |_| format!("'{}' is not written in UTF-8", shown(word));
        let text = std::str::from_utf8(word).map_err(|error| Flaw {
            at,
            what: what(error),
        })?;
        told.push((text, at));
    }
    let (role, rest) = match roles {
        Some(roles) => by_name(&told, roles)?,
        None => by_number(&told)?,
    };
    let [days, times] = rest;
    Ok(Stretch::of(days, times)?.rows(role).collect())
}

/// A word, and where it stands.
type Word<'a> = (&'a str, At);

/// The role that a line names, and the words of its stretch.
fn by_name<'a>(words: &[Word<'a>], roles: &[String]) -> Result<(u16, [Word<'a>; 2]), Flaw> {
    let flaw = |at, what| Err(Flaw { at, what });
    if let [("role", first), (role, last), ..] = *words {
        let digits = role.bytes().all(|byte| byte.is_ascii_digit());
        if digits {
            let role = named::example(roles, role.parse().unwrap_or(1));
            let width = last.column + last.width - first.column;
            let what = format!("a role by position, and roles go by name here: {role}");
            return flaw(At { width, ..first }, what);
        }
        if named::role(role.as_bytes(), roles).is_ok() {
            let rest = words[2..].iter().take(2).map(|&(word, _)| shown(word));
            let line: Vec<String> = [role.to_string()].into_iter().chain(rest).collect();
            let what = format!("leave out the word role: {}", line.join(" "));
            return flaw(first, what);
        }
    }
    let &[(role, at), days, times] = words else {
        return flaw(over(words), count(words, "three"));
    };
    match named::role(role.as_bytes(), roles) {
        Ok(number) => Ok((number, [days, times])),
        Err(what) => flaw(at, what),
    }
}

/// The role of a line by its number, and the words of its stretch.
fn by_number<'a>(words: &[Word<'a>]) -> Result<(u16, [Word<'a>; 2]), Flaw> {
    let flaw = |at, what| Err(Flaw { at, what });
    let &[(start, start_at), (role, role_at), days, times] = words else {
        return flaw(over(words), count(words, "four"));
    };
    if !start.eq_ignore_ascii_case("role") {
        let what = format!("'{}' is not the word 'role'", shown(start));
        return flaw(start_at, what);
    }
    let digits = role.bytes().all(|byte| byte.is_ascii_digit());
    match role.parse() {
        Ok(role) if digits => Ok((role, [days, times])),
        _ => flaw(
            role_at,
            format!("'{}' isn't the number of a role", shown(role)),
        ),
    }
}

/// All words of a line.
fn over(words: &[Word]) -> At {
    let first = words.first().map_or(At::default(), |&(_, at)| at);
    let last = words.last().map_or(first, |&(_, at)| at);
    At {
        width: last.column + last.width - first.column,
        ..first
    }
}

fn count(words: &[Word], due: &str) -> String {
    let words: Vec<&str> = words.iter().map(|&(word, _)| word).collect();
    format!("'{}' doesn't have {due} words", shown(words.join(" ")))
}

#[cfg(test)]
mod tests {
    use super::*;

    const ROLES: [&str; 2] = ["admissions", "night-desk"];

    fn read(text: &[u8], named: bool) -> Result<Table, Vec<Flaw>> {
        let roles = ROLES.map(str::to_string);
        Table::of(text, named.then_some(&roles[..]))
    }

    #[test]
    fn by_number_and_by_name() {
        for (text, named) in [
            (
                &b"# a\n\nrole 2 Mon 07:00-15:00 # b\nROLE 1 sun 22:00-6:00\n"[..],
                false,
            ),
            (
                b"# a\n\nnight-desk Mon 07:00-15:00 # b\nadmissions sun 22:00-6:00\n",
                true,
            ),
        ] {
            let table = read(text, named).expect("a table");
            assert_eq!(table.words, [2, 420, 900, 1, 9_960, 10_080, 1, 0, 360]);
            assert_eq!(table.lines, [3, 4, 4]);
        }
        assert_eq!(read(b"", false), Ok(Table::default()));
        assert_eq!(read(b"", true), Ok(Table::default()));
    }

    #[test]
    fn lines_that_are_no_row() {
        let flaw = |text: &[u8], named| {
            let flaws = read(text, named).expect_err("a flaw");
            let Flaw { at, what } = &flaws[0];
            format!("{}:{}+{}: {what}", at.line, at.column, at.width)
        };
        for (text, due) in [
            ("role 1 Mon", "1:1+10: 'role 1 Mon' doesn't have four words"),
            (
                "\nrole 1 Mon 1:00-2:00 x",
                "2:1+22: 'role 1 Mon 1:00-2:00 x' doesn't have four words",
            ),
            (
                "rolle 1 Mon 1:00-2:00",
                "1:1+5: 'rolle' is not the word 'role'",
            ),
            (
                "role x Mon 1:00-2:00",
                "1:6+1: 'x' isn't the number of a role",
            ),
            (
                "role -1 Mon 1:00-2:00",
                "1:6+2: '-1' isn't the number of a role",
            ),
            (
                "role 65536 Mon 1:00-2:00",
                "1:6+5: '65536' isn't the number of a role",
            ),
            (
                "role 1 Mo 1:00-2:00",
                "1:8+2: 'Mo' isn't one of the days Mon, Tue, Wed, Thu, Fri, Sat, Sun",
            ),
            (
                "role 1 Mon 1:00",
                "1:12+4: '1:00' isn't a stretch such as 07:00-15:00",
            ),
        ] {
            assert_eq!(flaw(text.as_bytes(), false), due, "{text}");
        }
        for (text, due) in [
            (
                "admissions Mon",
                "1:1+14: 'admissions Mon' doesn't have three words",
            ),
            (
                "night-desc Mon 1:00-2:00",
                "1:1+10: there is no role 'night-desc' (roles: admissions, night-desk); did you \
                 mean 'night-desk'?",
            ),
            (
                " role 2 Mon 1:00-2:00",
                "1:2+6: a role by position, and roles go by name here: night-desk",
            ),
            (
                "role 9 Mon 1:00-2:00",
                "1:1+6: a role by position, and roles go by name here: admissions",
            ),
            (
                " role night-desk Mon 1:00-2:00",
                "1:2+4: leave out the word role: night-desk Mon 1:00-2:00",
            ),
            (
                "role nobody Mon 1:00-2:00",
                "1:1+25: 'role nobody Mon 1:00-2:00' doesn't have three words",
            ),
            (
                "admissions Mon 7-8",
                "1:16+3: '7-8' isn't a stretch such as 07:00-15:00",
            ),
        ] {
            assert_eq!(flaw(text.as_bytes(), true), due, "{text}");
        }
        let text = b"role \xff Mon 1:00-2:00\n\nrole 1  Mo 1:00-2:00";
        let flaws = read(text, false).expect_err("flaws");
        let places = flaws.iter().map(|flaw| (flaw.at.line, flaw.at.column));
        assert_eq!(places.collect::<Vec<_>>(), [(1, 6), (3, 9)]);
    }
}
