//! Seats in words.

use crate::choices;
use crate::clinic::{Clinic, ROLES};
use crate::input::{flawed, Input};
use crate::named;
use crate::names;
use crate::report;
use crate::source::Source;
use crate::spaced;
use crate::WrongUse;
use pilzdamo::{Round, Seats, Verdict, SEATS};
use text::{shown, unless_flawed, At, Flaw, MOST_FLAWS};

/// A table of seats with the name of its source.
pub struct Table {
    name: String,
    pub words: Vec<u16>,
}

impl Table {
    /// The table that a source has for a file: by the names of the roles, or for bytes without
    /// names a number for each role.
    pub fn read(seats: &Source, input: &Input) -> Result<Table, WrongUse> {
        let (name, bytes) = (seats.name(), seats.table()?);
        let (read, form) = match named::roles(input) {
            Some(roles) => (by_name(&bytes, roles), by_name_form(roles)),
            None => (choices::numbers(&bytes), BY_NUMBER.to_string()),
        };
        match read {
            Ok(words) => Ok(Table { name, words }),
            // A refused file is reported first, whatever names the table has.
            Err(_) if input.text.is_none() && !pilzdamo::read(input).is_clean() => {
                let words = vec![0; Clinic::of(input).count(ROLES)];
                Ok(Table { name, words })
            }
            Err(flaws) => {
                let WrongUse(why) = flawed(&name, &bytes, &flaws);
                Err(WrongUse(format!("{why}\n  {form}")))
            }
        }
    }

    /// The seats that a file's own text says, or the text that its names are from; none if
    /// no role has a limit.
    pub fn own(input: &Input) -> Option<Table> {
        let words = input.text.as_ref()?.packed.names.seats();
        let limited = words.iter().any(|&seats| seats != 0);
        let name = input.name.clone();
        limited.then_some(Table { name, words })
    }

    #[cfg(test)]
    pub fn of(name: &str, words: &[u16]) -> Table {
        Table {
            name: name.to_string(),
            words: words.to_vec(),
        }
    }

    /// Whether it is this table that is refused, and not the list.
    pub fn is_refused(&self, input: &Input, verdict: Verdict) -> bool {
        verdict.number == 17 && !fits(&Clinic::of(input), &self.words)
    }

    /// The message for this table, which can't be one of this file's.
    pub fn refused(&self, input: &Input, verdict: Verdict) -> String {
        report::of_both(&self.name, verdict, Some(self.wrong(input)))
    }

    /// What is wrong with this table.
    pub fn wrong(&self, input: &Input) -> String {
        length(&Clinic::of(input), &self.words)
    }

    /// What 26 objects to before the first choice, of bytes without names: a role that the
    /// starting roles of the sessions overfill.
    pub fn overfilled(&self, input: &Input, verdict: Verdict) -> Option<String> {
        let session = usize::from(verdict.place).checked_sub(1);
        let session = session.filter(|_| verdict.number == 26 && input.text.is_none())?;
        let clinic = Clinic::of(input);
        let starts = clinic.sessions.get(..=session)?;
        let with = |role: u32| {
            let masks = starts.iter().map(|&[_, mask, _]| mask);
            masks.filter(|mask| mask >> (role - 1) & 1 == 1).count()
        };
        let own = names::items(clinic.sessions[session][1].into());
        let seats = |role: u32| usize::from(self.seats(role as u16));
        let role = own
            .into_iter()
            .find(|&role| (1..with(role)).contains(&seats(role)))?;
        let (place, seats) = (verdict.place, names::several(seats(role), "seat"));
        let before = names::several(with(role) - 1, "session");
        Some(format!(
            "session {place} starts with role {role}, which has {seats}, taken by {before} before it"
        ))
    }

    /// The seats of a role, 0 where it has no limit.
    pub fn seats(&self, role: u16) -> u16 {
        let at = usize::from(role).checked_sub(1);
        at.and_then(|at| self.words.get(at)).copied().unwrap_or(0)
    }

    /// Whether a role has a limit.
    pub fn limits(&self, role: u16) -> bool {
        self.seats(role) != 0
    }

    /// Whether the last of these choices gets no seat.
    pub fn waits(&self, input: &Input, choices: &[u16]) -> bool {
        let told = pilzdamo::seats(input, choices, &self.words);
        told.verdict().is_clean() && told.last == 26
    }
}

/// The form of a table for bytes without names.
const BY_NUMBER: &str = "seats are text, a number for each role: 0 for no limit, else 1 to 32 \
                         (by name with --names NAMES)";

/// The form of a table for these roles.
fn by_name_form(roles: &[String]) -> String {
    let role = named::example(roles, 1);
    format!("seats are text, a line for each role with a limit of 1 to 32: {role} 1")
}

/// The seats of each role, by lines such as `holder 1`. A role without a line has no limit.
fn by_name(text: &[u8], roles: &[String]) -> Result<Vec<u16>, Vec<Flaw>> {
    let mut lines: Vec<Vec<(At, &[u8])>> = (1..)
        .zip(text.split(|&byte| byte == b'\n'))
        .map(|(line, text)| spaced::words(line, text))
        .collect();
    lines.retain(|words| !words.is_empty());
    if let (Some(words), Ok(numbers)) = (lines.first(), choices::numbers(text)) {
        let at = spaced::over(words);
        let what = by_position(&numbers, roles);
        return Err(vec![Flaw { at, what }]);
    }
    let (mut seats, mut flaws) = (vec![None; roles.len()], Vec::new());
    for words in &lines {
        if flaws.len() > MOST_FLAWS {
            break;
        }
        match role_and_seats(words, roles) {
            Ok((at, role, _)) if seats[usize::from(role) - 1].is_some() => {
                let what = format!("'{}' is there twice", roles[usize::from(role) - 1]);
                flaws.push(Flaw { at, what });
            }
            Ok((_, role, found)) => seats[usize::from(role) - 1] = Some(found),
            Err(flaw) => flaws.push(flaw),
        }
    }
    let seats = seats.into_iter().map(Option::unwrap_or_default).collect();
    unless_flawed(seats, flaws)
}

/// What is said of a table by position, with its first limit by name.
fn by_position(numbers: &[u16], roles: &[String]) -> String {
    let mut limited = (1..).zip(numbers).filter(|&(_, &seats)| seats != 0);
    let (role, seats) = limited.next().unwrap_or((1, &1));
    let role = named::example(roles, role);
    format!("a table by position, and roles go by name here: {role} {seats}")
}

/// The role of a line, where its name stands, and its seats.
fn role_and_seats(words: &[(At, &[u8])], roles: &[String]) -> Result<(At, u16, u16), Flaw> {
    let flaw = |at, what| Flaw { at, what };
    let &[(at, role), (seats_at, seats)] = words else {
        let what = format!(
            "a role and its seats, such as {} 1, are due",
            named::example(roles, 1)
        );
        return Err(flaw(spaced::over(words), what));
    };
    let role = named::role(role, roles).map_err(|what| flaw(at, what))?;
    let number = std::str::from_utf8(seats).ok();
    let number = number.filter(|text| text.bytes().all(|byte| byte.is_ascii_digit()));
    let number = number.and_then(|text| text.parse().ok());
    match number.filter(|&number| number <= SEATS) {
        Some(number) => Ok((at, role, number)),
        None => {
            let what = format!(
                "'{}' isn't 0 for no limit, or 1 to {SEATS} seats",
                shown(seats)
            );
            Err(flaw(seats_at, what))
        }
    }
}

/// A run, with seats if there is a table of them.
pub fn run(input: &Input, choices: &[u16], table: Option<&Table>, out: &mut [u8]) -> Verdict {
    match table {
        None => pilzdamo::run(input, choices, out),
        Some(table) => pilzdamo::run_seated(input, choices, &table.words, out).verdict(),
    }
}

/// A round after these choices, with seats if there is a table of them.
pub fn round(input: &Input, choices: &[u16], table: Option<&Table>, out: &mut [u8]) -> Round {
    match table {
        None => pilzdamo::round(input, choices, out),
        Some(table) => pilzdamo::round_seated(input, choices, &table.words, out),
    }
}

/// What there is to say of the seats after these choices, if there are any.
pub fn after(table: Option<&Table>, input: &Input, choices: &[u16]) -> String {
    table.map_or(String::new(), |table| {
        let told = pilzdamo::seats(input, choices, &table.words);
        text(input, table, &told)
    })
}

/// A line for each role with a limit after these choices.
pub fn limited(table: Option<&Table>, input: &Input, choices: &[u16]) -> Vec<String> {
    let Some(table) = table else {
        return Vec::new();
    };
    let told = pilzdamo::seats(input, choices, &table.words);
    let roles = (1..).zip(&table.words).filter(|&(_, &seats)| seats != 0);
    roles
        .map(|(role, &seats)| of_role(input, role, seats, &told))
        .collect()
}

/// A line for each role, and how many choices got no seat.
fn text(input: &Input, table: &Table, told: &Seats) -> String {
    let mut lines: Vec<String> = (1..)
        .zip(&table.words)
        .map(|(role, &seats)| of_role(input, role, seats, told))
        .collect();
    lines.push(format!("choices that got no seat: {}", told.waited));
    lines.extend(last(told));
    lines.join("\n") + "\n"
}

/// A role's seats, how many sessions have it, and who waits for it.
fn of_role(input: &Input, role: u16, seats: u16, told: &Seats) -> String {
    let seats = match seats {
        0 => "no limit".to_string(),
        seats => names::several(usize::from(seats), "seat"),
    };
    let taken = names::several(usize::from(told.in_role(role)), "session");
    let line = sessions(input, told.line_of(role));
    let line = line.map_or(String::new(), |line| format!(", in line: {line}"));
    format!("role {}: {seats}, taken by {taken}{line}", input.role(role))
}

/// `session book1`, `sessions book1, book2`; none of no session.
pub fn sessions(input: &Input, sessions: &[u16]) -> Option<String> {
    let noun = match sessions {
        [] => return None,
        [_] => "session",
        _ => "sessions",
    };
    let each = sessions.iter().map(|&session| input.session(session));
    Some(format!("{noun} {}", each.collect::<Vec<_>>().join(", ")))
}

/// What the last choice done was answered, if that is 26.
fn last(told: &Seats) -> Option<String> {
    let meaning = pilzdamo::meaning(told.last)?;
    Some(format!("the last choice done: {meaning}"))
}

/// Whether a table has a word for each role, none of them too high.
fn fits(clinic: &Clinic, table: &[u16]) -> bool {
    table.len() == clinic.count(ROLES) && table.iter().all(|&seats| seats <= SEATS)
}

/// What is wrong with a table that can't be one.
fn length(clinic: &Clinic, table: &[u16]) -> String {
    let numbers = names::several(table.len(), "number");
    let roles = names::several(clinic.count(ROLES), "role");
    let above = (1..).zip(table).find(|(_, &seats)| seats > SEATS);
    let above = above.map_or(String::new(), |(at, seats)| {
        format!("\n  number {at} of the table is {seats}")
    });
    format!("the table has {numbers}, the file {roles}: one for each, 0 for no limit, else 1 to 32{above}")
}
