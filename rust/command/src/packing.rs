//! Text to bytes and back, and texts that are answered with texts.

use crate::input::{read_names, Input, Text};
use crate::names;
use crate::output::{self, Out, Ready};
use crate::source::Source;
use crate::words::Beside;
use crate::{Outcome, WrongUse};
use text::{At, Lent, Records};

/// `pack TEXT`: writes the file that a text says, and what else it has if that is wanted: its
/// names, and the tables of seats and hours that are lent to the engine.
pub fn pack(source: &Source, out: &Out, beside: &Beside) -> Result<Outcome, WrongUse> {
    let outs = beside.all(out);
    for (at, (name, out)) in outs.iter().enumerate() {
        output::spare(&[source], out)?;
        let mut before = outs[..at].iter();
        if let Some((other, _)) = before.find(|(_, before)| out.is_same(before)) {
            return Err(same(other, name));
        }
    }
    let bytes = source.read()?;
    if bytes.contains(&0) && !text::is_text(&bytes) {
        let (name, why) = (source.name(), "it is no text but bytes already");
        return Err(WrongUse(format!("{name}: can't be packed: {why}")));
    }
    let input = Input::of_text(source.name(), &bytes)?;
    let lent = input.text.as_ref().map(|text| Lent::of(&text.packed));
    let lent = lent.unwrap_or_default();
    let names = &lent.names;
    let seats = little_endian(names.seats());
    let hours = names.hours().into_iter().flat_map(|(_, row)| row);
    let (names, hours) = (lent.text(), little_endian(hours));
    // Nothing is put in its place before all is written.
    let mut ready: Vec<(&str, Ready)> = Vec::new();
    for (name, out) in outs {
        let one = match name {
            "NAMES" => Ready::text(names.as_bytes(), out)?,
            "SEATS" => Ready::bytes(&seats, out)?,
            "HOURS" => Ready::bytes(&hours, out)?,
            _ => Ready::bytes(&input, out)?,
        };
        if let Some((other, _)) = ready.iter().find(|(_, before)| one.is_same(before)) {
            return Err(same(other, name));
        }
        ready.push((name, one));
    }
    // The file comes last, since who finds it finds what belongs to it; but nothing waits for
    // a reader before the rest is there.
    ready.reverse();
    ready.sort_by_key(|(_, one)| one.is_stream());
    ready.into_iter().try_for_each(|(_, one)| one.put())?;
    let into = out.told(" in");
    let bytes = names::several(input.len(), "byte");
    output::say(&format!("{}: packed, {bytes}{into}", input.name));
    if beside.names.is_none() {
        let kept = [&beside.seats, &beside.hours].map(Option::is_some);
        lost(&input, kept, "")
            .iter()
            .for_each(|told| output::say(told));
    }
    Ok(Outcome::Answer)
}

/// Says of a text that was written as bytes that these don't have its seats and hours.
pub fn say_lost(input: &Input) {
    let told = lost(input, [false; 2], "pack ");
    told.iter().for_each(|told| output::say(told));
}

/// What is said of the seats and hours of a text that aren't in its bytes and aren't kept
/// elsewhere, and which options, of this command, write them.
fn lost(input: &Input, [seats, hours]: [bool; 2], command: &str) -> Option<String> {
    let names = &input.source_text()?.packed.names;
    let (mut with_seats, mut with_hours) = (false, false);
    let mut roles = Vec::new();
    for (role, limits) in names.roles.iter().zip(&names.limits) {
        let has_seats = !seats && limits.seats != 0;
        let has_hours = !hours && !limits.open.is_empty();
        with_seats |= has_seats;
        with_hours |= has_hours;
        roles.extend((has_seats || has_hours).then_some(role.as_str()));
    }
    let (what, options) = match (with_seats, with_hours) {
        (false, false) => return None,
        (true, false) => ("seats", "--names or --seats"),
        (false, true) => ("hours", "--names or --hours"),
        (true, true) => ("seats and hours", "--names, --seats or --hours"),
    };
    let many = if roles.len() == 1 { "" } else { "s" };
    let (name, roles) = (&input.name, roles.join(", "));
    Some(format!(
        "{name}: the {what} of role{many} {roles} aren't in the bytes; {command}{options} write them"
    ))
}

/// The bytes of words, the low byte first.
fn little_endian(words: impl IntoIterator<Item = u16>) -> Vec<u8> {
    words.into_iter().flat_map(u16::to_le_bytes).collect()
}

/// `unpack FILE`: writes the text of a file.
pub fn unpack(source: &Source, out: &Out, names: Option<&Source>) -> Result<Outcome, WrongUse> {
    output::spare(&[source].into_iter().chain(names).collect::<Vec<_>>(), out)?;
    let input = source.clinic()?;
    let verdict = pilzdamo::read(&input);
    if !verdict.is_clean() {
        output::say(&input.refused(verdict));
        return Ok(Outcome::Refusal);
    }
    let names = match (names, &input.text) {
        (Some(names), _) => Some((names.name(), read_names(names)?)),
        (None, Some(Text { packed, .. })) => Some((input.name.clone(), Lent::of(packed))),
        (None, None) => None,
    };
    let text = match &names {
        None => text::unpack(&input),
        Some((from, names)) => input.named_text(from, names)?,
    };
    let text = text.ok_or_else(|| WrongUse(format!("{}: has no text", input.name)))?;
    output::deliver_text(text.as_bytes(), out)?;
    Ok(Outcome::Answer)
}

/// `strip FILE`: removes on and off from a text or from bytes.
pub fn strip(source: &Source, out: &Out) -> Result<Outcome, WrongUse> {
    output::spare(&[source], out)?;
    let input = source.clinic()?;
    let verdict = pilzdamo::read(&input);
    if !verdict.is_clean() {
        output::say(&input.refused(verdict));
        return Ok(Outcome::Refusal);
    }
    if let Some(from) = &input.text {
        let stripped = text::stripped(&from.text, &from.packed);
        output::deliver_text(&from.marked(&stripped), out)?;
        return Ok(Outcome::Answer);
    }
    let stripped = text::unpack(&input).and_then(|text| {
        let packed = text::pack(&text).ok()?;
        text::pack(&text::stripped(&text, &packed)).ok()
    });
    let Some(stripped) = stripped else {
        return Err(WrongUse(format!("{}: has no text", input.name)));
    };
    output::deliver(&stripped.bytes(), out)?;
    Ok(Outcome::Answer)
}

/// Writes a placed file as the text that it came from, with on and off added.
pub fn deliver_placed(from: &Text, placed: &[u8], out: &Out) -> Result<(), WrongUse> {
    let Text { text, packed, .. } = from;
    let records = Records::of(placed);
    let placed = records.and_then(|records| text::placed(text, packed, &records));
    let why = "the placed file isn't this text with on and off added";
    let placed = placed.ok_or_else(|| WrongUse(why.to_string()))?;
    let placed = match packed.bytes()[..] {
        [] => without_records(&placed, packed.source.clinic),
        _ => placed,
    };
    output::deliver_text(&from.marked(&placed), out)
}

fn same(one: &str, other: &str) -> WrongUse {
    WrongUse(format!("pack: {one} and {other} are the same file"))
}

/// The text of a file without records, for that of zero bytes, which placing makes it.
pub fn without_records(text: &str, clinic: At) -> String {
    let mut lines: Vec<String> = text.split('\n').map(str::to_string).collect();
    if let Some(line) = lines.get_mut(clinic.line.saturating_sub(1)) {
        let before: String = line.chars().take(clinic.column - 1).collect();
        let behind = line.chars().skip(clinic.column - 1 + clinic.width);
        *line = before + "clinic 1" + &behind.collect::<String>();
    }
    lines.join("\n")
}
