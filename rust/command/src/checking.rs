//! `check FILE...`.

use crate::asked::{self, refused};
use crate::clinic::Clinic;
use crate::json::Json;
use crate::names;
use crate::objects::{self, Asked};
use crate::output;
use crate::report;
use crate::source::NamedFile;
use crate::words::At;
use crate::{Outcome, WrongUse};
use pilzdamo::Verdict;

/// What there is to say of a file.
enum Told {
    Passes(String),
    Refused(String),
    Object(Json, Verdict),
}

/// Answers for each file, also where another can't be read.
pub fn check(files: &[NamedFile], at: Option<&At>, json: bool) -> Result<Outcome, WrongUse> {
    let hours = at.map(asked::Asked::read).transpose()?;
    let mut outcome = Outcome::Answer;
    for file in files {
        outcome = outcome.max(match told(file, hours.as_ref(), json) {
            Ok(Told::Passes(line)) => {
                output::print(line.as_bytes())?;
                Outcome::Answer
            }
            Ok(Told::Refused(message)) => {
                output::say(&message);
                Outcome::Refusal
            }
            Ok(Told::Object(object, verdict)) => objects::print(&object, verdict)?,
            Err(wrong) => wrong.tell(),
        });
    }
    Ok(outcome)
}

fn told(file: &NamedFile, at: Option<&asked::Asked>, json: bool) -> Result<Told, WrongUse> {
    let bytes = file.clinic()?;
    let hours = at.map(|at| at.of(&bytes)).transpose()?;
    let hours = hours.as_ref();
    let verdict = match hours {
        None => pilzdamo::check(&bytes),
        Some(hours) => pilzdamo::check_at(&bytes, &hours.table.words, hours.minute),
    };
    if json {
        let asked = Asked::of(file, &bytes, hours);
        return Ok(Told::Object(objects::checked(&asked, verdict), verdict));
    }
    if verdict.is_clean() {
        let when = hours.map_or(String::new(), |hours| hours.when("at"));
        let planned = names::planned(&bytes);
        let line = format!("{}: passes{when}{planned}\n", file.name());
        return Ok(Told::Passes(line));
    }
    let mut message = refused(&bytes, hours, verdict);
    if verdict.number == 13 && Clinic::of(&bytes).is_bare() {
        message += &format!("\n  {}", report::UNPLACED);
    }
    Ok(Told::Refused(message))
}
