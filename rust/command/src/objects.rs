//! What `--json` prints: for each answer one object on one line. docs/JSON.md has their
//! keys. A key that has nothing to say is null, never left out.

mod explained;
mod file;
mod named;
mod nodes;
mod placing;
mod ready;
mod refused;
mod runs;

pub use explained::explained;
pub use file::shown;
pub use placing::{checked, measured, placed, Asked};
pub use ready::ready;
pub use runs::{ran, Ran};

use crate::json::Json;
use crate::output;
use crate::{Outcome, WrongUse};
use pilzdamo::Verdict;

/// An object on its line.
pub fn line(object: &Json) -> String {
    format!("{object}\n")
}

/// What stands on a line of standard output, of an answer or a refusal. Standard error
/// stays empty.
pub fn print(object: &Json, verdict: Verdict) -> Result<Outcome, WrongUse> {
    output::print(line(object).as_bytes())?;
    Ok(match verdict.is_clean() {
        true => Outcome::Answer,
        false => Outcome::Refusal,
    })
}
