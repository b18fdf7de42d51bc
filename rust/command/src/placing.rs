//! `place FILE` and `measure FILE`.

use crate::asked::{refused, Hours};
use crate::input::Input;
use crate::jobs::{answer, refusal};
use crate::names;
use crate::objects::{self, Asked};
use crate::output::{self, Out};
use crate::packing;
use crate::source::NamedFile;
use crate::words::At;
use crate::{Outcome, WrongUse};
use pilzdamo::{Placed, ROOM};

pub fn place(
    file: &NamedFile,
    at: Option<&At>,
    out: &Out,
    as_bytes: bool,
    json: bool,
) -> Result<Outcome, WrongUse> {
    let hours = at.and_then(|at| at.hours.as_ref());
    output::spare(
        &file.sources().into_iter().chain(hours).collect::<Vec<_>>(),
        out,
    )?;
    let bytes = file.clinic()?;
    let hours = Hours::read(at, &bytes)?;
    let mut room = [0; ROOM];
    let placed = match &hours {
        None => pilzdamo::place(&bytes, &mut room),
        Some(hours) => pilzdamo::place_at(&bytes, &hours.table.words, hours.minute, &mut room),
    };
    let asked = json.then(|| Asked::of(file, &bytes, hours.as_ref()));
    if !placed.is_placed() {
        return match asked {
            Some(asked) => objects::print(&objects::placed(&asked, placed, None), placed.verdict()),
            None => refusal(&refused(&bytes, hours.as_ref(), placed.verdict())),
        };
    }
    let length = usize::from(placed.length);
    let form = deliver(&bytes, &room[..length.min(ROOM)], as_bytes, out)?;
    if let Some(asked) = asked {
        let object = objects::placed(&asked, placed, Some((out, form)));
        return objects::print(&object, placed.verdict());
    }
    let (packed, there) = match form {
        "text" => (" when packed", "; the text is in"),
        _ => ("", " in"),
    };
    let (name, told) = (file.name(), size(placed) + packed);
    let when = hours.map_or(String::new(), |hours| hours.when("for"));
    let written = out.told(there);
    let planned = names::planned(&bytes);
    output::say(&format!("{name}: placed{when}, {told}{written}{planned}"));
    Ok(Outcome::Answer)
}

/// Writes a placed file in the form in which it came, or as bytes, and says the form.
fn deliver(
    input: &Input,
    placed: &[u8],
    as_bytes: bool,
    out: &Out,
) -> Result<&'static str, WrongUse> {
    match input.source_text() {
        Some(text) if !as_bytes => {
            packing::deliver_placed(text, placed, out)?;
            Ok("text")
        }
        _ => {
            output::deliver(placed, out)?;
            packing::say_lost(input);
            Ok("bytes")
        }
    }
}

pub fn measure(file: &NamedFile, at: Option<&At>, json: bool) -> Result<Outcome, WrongUse> {
    let bytes = file.clinic()?;
    let hours = Hours::read(at, &bytes)?;
    let placed = match &hours {
        None => pilzdamo::measure(&bytes),
        Some(hours) => pilzdamo::measure_at(&bytes, &hours.table.words, hours.minute),
    };
    if json {
        let asked = Asked::of(file, &bytes, hours.as_ref());
        return objects::print(&objects::measured(&asked, placed), placed.verdict());
    }
    if !placed.is_placed() {
        return refusal(&refused(&bytes, hours.as_ref(), placed.verdict()));
    }
    let when = hours.map_or(String::new(), |hours| hours.when("for"));
    let (told, planned) = (size(placed), names::planned(&bytes));
    answer(&format!(
        "{}: can be placed{when}, {told}{planned}\n",
        file.name()
    ))
}

/// The on steps and the length of a placed file.
fn size(placed: Placed) -> String {
    let on_steps = names::several(usize::from(placed.on_steps), "on step");
    format!("{on_steps}, {} bytes", placed.length)
}
