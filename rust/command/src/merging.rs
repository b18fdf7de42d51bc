//! Two files in one: whose refusal it is, and what differs.

use crate::clinic::{Clinic, Section};
use crate::clinic::{CHANNELS, KINDS, NODES, ROLES, SESSIONS, USERS};
use crate::input::Input;
use crate::jobs::refusal;
use crate::joining;
use crate::names::{carries, grants, items, planned, several};
use crate::output::{self, Out};
use crate::packing;
use crate::report;
use crate::source::Source;
use crate::{Outcome, WrongUse};
use pilzdamo::{Verdict, ROOM_1};
use text::At;

/// The two files, with their names.
pub type Files<'a> = [(String, &'a Input); 2];

/// The sections that both files fill.
const FILLED: [Section; 4] = [USERS, CHANNELS, SESSIONS, NODES];

/// `merge A B`: two texts by name, and bytes, also beside a text, by position.
pub fn merge(
    first: &Source,
    second: &Source,
    out: &Out,
    as_bytes: bool,
) -> Result<Outcome, WrongUse> {
    output::spare(&[first, second], out)?;
    let (one, other) = (first.clinic()?, second.clinic()?);
    let files = [(first.name(), &one), (second.name(), &other)];
    if let (Some(one), Some(other)) = (one.source_text(), other.source_text()) {
        return joining::join(&files, [one, other], out, as_bytes);
    }
    let mut room = [0; ROOM_1];
    let written = pilzdamo::merge(&one, &other, &mut room);
    if !written.is_written() {
        return refusal(&refused(&files, written.verdict()));
    }
    let merged = &room[..usize::from(written.length).min(ROOM_1)];
    output::deliver(merged, out)?;
    let (names, told) = (names(&files), size(merged));
    let into = out.told(" in");
    output::say(&format!("{names}: merged, {told}{into}"));
    [&one, &other].into_iter().for_each(packing::say_lost);
    Ok(Outcome::Answer)
}

/// How messages name both.
pub fn names(files: &Files) -> String {
    let named = files
        .each_ref()
        .map(|(name, bytes)| format!("{name}{}", planned(bytes)));
    named.join(", ")
}

/// What the merged file has.
pub fn size(merged: &[u8]) -> String {
    let clinic = Clinic::of(merged);
    let counts = FILLED.map(|section| several(clinic.count(section), section.one));
    format!("{}, {} bytes", counts.join(", "), merged.len())
}

/// The message for what is refused of either file whatever the other is, the first's before
/// the second's.
pub fn refused_alone(files: &Files) -> Option<String> {
    let mut refused = files.iter().filter_map(|(_, input)| {
        let verdict = own(input)?;
        Some(of_one(input, verdict))
    });
    refused.next()
}

/// The message for two files that are refused.
pub fn refused(files: &Files, verdict: Verdict) -> String {
    if let Some(message) = refused_alone(files) {
        return message;
    }
    let clinics = files.each_ref().map(|(_, bytes)| Clinic::of(*bytes));
    let lines = match verdict.number {
        25 => difference(files, &clinics),
        _ => too_many(files, &clinics),
    };
    let more = (!lines.is_empty()).then(|| lines.join("\n  "));
    report::of_both(&names(files), verdict, more)
}

/// What a file is refused with whatever the other is, by the engine: it is asked to
/// merge it with zero bytes, which have no records and are refused by nothing.
fn own(bytes: &[u8]) -> Option<Verdict> {
    let written = pilzdamo::merge(bytes, &[], &mut [0; ROOM_1]);
    (1..=10)
        .contains(&written.number)
        .then(|| written.verdict())
}

fn of_one(input: &Input, verdict: Verdict) -> String {
    let message = input.refused(verdict);
    match (verdict.number, Clinic::of(input).version()) {
        (2, version @ (2 | 3)) => {
            message
                + &format!(
                    "\n  this file has version {version}, and two are merged in version 1 alone"
                )
        }
        _ => message,
    }
}

/// The first record that differs, or the counts of a table: a line, and one for each
/// file.
fn difference(files: &Files, [first, second]: &[Clinic; 2]) -> Vec<String> {
    let kinds = [first, second].map(|clinic| clinic.count(KINDS));
    let say = |what: String, told: [String; 2]| {
        let lines = files.iter().zip(told);
        let lines = lines.map(|((name, _), told)| format!("  in {name}{told}"));
        std::iter::once(format!("{what} differs"))
            .chain(lines)
            .collect()
    };
    let counts = |section: Section| {
        let count = |clinic: &Clinic| several(clinic.count(section), section.one);
        let told = [first, second].map(|clinic| format!(": {}", count(clinic)));
        say(format!("the number of {}", section.name), told)
    };
    let [(_, one), (_, other)] = files;
    if first.count(ROLES) != second.count(ROLES) {
        return counts(ROLES);
    }
    if let Some((number, roles)) = unequal(&first.roles, &second.roles) {
        let told = [
            role(one, number, roles[0], kinds[0]),
            role(other, number, roles[1], kinds[1]),
        ];
        return say(format!("role {}", one.role(number)), told);
    }
    if first.count(KINDS) != second.count(KINDS) {
        return counts(KINDS);
    }
    match unequal(&first.kinds, &second.kinds) {
        Some((number, records)) => {
            let told = [
                kind(one, number, records[0], kinds[0]),
                kind(other, number, records[1], kinds[1]),
            ];
            say(format!("kind {}", one.kind(number)), told)
        }
        None => Vec::new(),
    }
}

/// The first two records of one number that aren't the same.
fn unequal<const W: usize>(one: &[[u16; W]], other: &[[u16; W]]) -> Option<(u16, [[u16; W]; 2])> {
    let pairs = (1..).zip(one.iter().zip(other));
    let mut unequal = pairs.filter(|(_, (one, other))| one != other);
    let (number, (one, other)) = unequal.next()?;
    Some((number, [*one, *other]))
}

/// What a role may, after the file's name: of a text at its place and in its names. The
/// kinds' numbers stand with them, since those are what is compared.
fn role(input: &Input, number: u16, record: [u16; 4], kinds: usize) -> String {
    let Some(text) = &input.text else {
        return format!(": {}", grants(record, kinds));
    };
    let at = place(&text.packed.source.roles, number);
    let [low, high, low_in, high_in] = record;
    let [sends, receives] = [(low, high), (low_in, high_in)].map(|(low, high)| {
        let kinds = items(u32::from(high) << 16 | u32::from(low));
        let kinds: Vec<String> = kinds.map(|kind| numbered(input, kind as u16)).collect();
        match &kinds[..] {
            [] => "no kind".to_string(),
            kinds => kinds.join(", "),
        }
    });
    let name = input.role(number);
    format!("{at}: {name} sends on {sends}; receives on {receives}")
}

/// What a kind carries, in the same way.
fn kind(input: &Input, number: u16, record: [u16; 1], kinds: usize) -> String {
    let Some(text) = &input.text else {
        return format!(": {}", carries(record, kinds));
    };
    let at = place(&text.packed.source.kinds, number);
    let name = input.kind(number);
    match record {
        [0] => format!("{at}: {name} carries a plain value"),
        [kind] => format!(
            "{at}: {name} carries a channel of {}",
            numbered(input, kind)
        ),
    }
}

/// A text's kind by its name and number.
fn numbered(input: &Input, kind: u16) -> String {
    format!("{} (kind {kind})", input.kind(kind))
}

/// The line and column of the record of this number.
fn place(places: &[At], number: u16) -> String {
    let index = usize::from(number).checked_sub(1);
    let at = index.and_then(|index| places.get(index));
    at.map_or(String::new(), |at| format!(":{}:{}", at.line, at.column))
}

/// The sums that are too large, a line each.
fn too_many(files: &Files, clinics: &[Clinic; 2]) -> Vec<String> {
    let [(first, _), (second, _)] = files;
    let line = |section: Section| {
        let [one, other] = clinics.each_ref().map(|clinic| clinic.count(section));
        let (name, most, sum) = (section.name, section.most, one + other);
        (sum > usize::from(most)).then(|| {
            format!(
                "{name}: {one} in {first}, {other} in {second}, {sum} together (at most {most})"
            )
        })
    };
    FILLED.into_iter().filter_map(line).collect()
}
