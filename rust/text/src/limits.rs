//! The seats and opening hours of a role. A text says them, and no byte has them: they are
//! tables that are lent to the engine beside a file.

use crate::fit::several;
use crate::line::{shown, Flaw};
use crate::week::Stretch;
use crate::words::Cursor;

/// The most seats of a role with a limit.
pub const SEATS: u16 = 32;

/// What a text says of a role beside its grants.
#[derive(Clone, Debug, Default, PartialEq, Eq)]
pub struct Limits {
    /// 0 for no limit.
    pub seats: u16,
    /// The stretches in which it is open; it is always open where there are none.
    pub open: Vec<Stretch>,
}

impl Limits {
    /// The parts of a role's line: `1 seat`, `open Mon-Fri 07:00-15:00`.
    pub fn parts(&self) -> Vec<String> {
        let seats = usize::from(self.seats);
        let seats = (seats != 0).then(|| several(seats, "seat"));
        let open: Vec<String> = self.open.iter().map(Stretch::to_string).collect();
        let open = (!open.is_empty()).then(|| format!("open {}", open.join(", ")));
        seats.into_iter().chain(open).collect()
    }

    /// The minutes of the week in which it is open, from one to before another, in their order
    /// and apart from each other.
    pub(crate) fn minutes(&self) -> Vec<[u16; 2]> {
        let rows = self.open.iter().flat_map(|open| open.rows(0));
        let mut rows: Vec<[u16; 2]> = rows.map(|[_, begin, end]| [begin, end]).collect();
        rows.sort_unstable();
        let mut apart: Vec<[u16; 2]> = Vec::new();
        for [begin, end] in rows {
            match apart.last_mut() {
                Some([_, last]) if begin <= *last => *last = end.max(*last),
                _ => apart.push([begin, end]),
            }
        }
        apart
    }

    /// Reads the part that begins with this word, as [`begun`] says it.
    pub(crate) fn read(&mut self, word: &str, cursor: &mut Cursor) -> Result<(), Flaw> {
        match word {
            "open" => {
                cursor.skip();
                self.open.push(stretch(cursor)?);
                while cursor.takes(",") {
                    self.open.push(stretch(cursor)?);
                }
            }
            _ => {
                self.seats = seats(cursor)?;
                if !cursor.takes("seat") {
                    cursor.word("seats")?;
                }
            }
        }
        Ok(())
    }
}

/// Which part of a role's line begins with a word, if it is one of these.
pub(crate) fn begun(word: &str) -> Option<&'static str> {
    match word {
        "open" => Some("open"),
        _ if word.starts_with(|c: char| c.is_ascii_digit()) => Some("seats"),
        _ => None,
    }
}

fn seats(cursor: &mut Cursor) -> Result<u16, Flaw> {
    let token = cursor.token().expect("a number stands there");
    cursor.skip();
    let digits = token.text.bytes().all(|byte| byte.is_ascii_digit());
    let number = token.text.parse().ok().filter(|_| digits);
    number
        .filter(|seats| (1..=SEATS).contains(seats))
        .ok_or_else(|| Flaw {
            at: token.at,
            what: format!(
                "a role has 1 to {SEATS} seats, or no limit if they are left out, not '{}'",
                shown(&token.text)
            ),
        })
}

fn stretch(cursor: &mut Cursor) -> Result<Stretch, Flaw> {
    let days = cursor.spaced("a day or days, such as Mon-Fri")?;
    if days.text.starts_with(|c: char| c.is_ascii_digit()) {
        let (at, time) = (days.at, shown(&days.text));
        let what = format!("a day or days, such as Mon-Fri, are due before '{time}'");
        return Err(Flaw { at, what });
    }
    let times = cursor.spaced("a stretch of the day, such as 07:00-15:00")?;
    Stretch::of((&days.text, days.at), (&times.text, times.at))
}
