//! `merge` of two texts, which goes by names and gives a text.

use crate::input::Text;
use crate::jobs::refusal;
use crate::merging::{self, Files};
use crate::output::{self, Out};
use crate::packing::{self, without_records};
use crate::report;
use crate::{Outcome, WrongUse};
use pilzdamo::{Verdict, ROOM_1};
use text::{Apart, Difference, Version};

/// How many kinds and roles that differ are reported.
const TOLD: usize = 10;

/// Merges two texts with the same kinds and roles, whatever their order.
pub fn join(
    files: &Files,
    [one, other]: [&Text; 2],
    out: &Out,
    as_bytes: bool,
) -> Result<Outcome, WrongUse> {
    if let Some(message) = merging::refused_alone(files) {
        return refusal(&message);
    }
    let differences = text::differences([&one.packed, &other.packed]);
    let (names, second) = (&one.packed.names, &other.packed);
    let Some(ordered) = text::ordered(names, second).filter(|_| differences.is_empty()) else {
        return refusal(&differ(files, [one, other], &differences));
    };
    let limits = text::other_limits([&one.packed, &other.packed]);
    if !limits.is_empty() {
        return refusal(&limit_otherwise(files, [one, other], &limits));
    }
    let mut room = [0; ROOM_1];
    let written = pilzdamo::merge(files[0].1, &ordered.bytes(), &mut room);
    if !written.is_written() {
        return refusal(&merging::refused(files, written.verdict()));
    }
    let merged = &room[..usize::from(written.length).min(ROOM_1)];
    let mut lines = vec![format!(
        "{}: merged, {}",
        merging::names(files),
        merging::size(merged)
    )];
    if ordered != second.records {
        let [(first, _), (second, _)] = files;
        lines.push(format!(
            "the kinds and roles of {second} are put into the order of {first}"
        ));
    }
    if as_bytes {
        output::deliver(merged, out)?;
        lines[0] += &out.told(" in");
    } else {
        let apart = Apart::of(names, &second.names);
        deliver([one, other], &apart, merged, out)?;
        lines[0] += &format!(" when packed{}", out.told("; the text is in"));
        lines.extend(renamed(&files[1].0, &apart));
    }
    output::say(&lines.join("\n  "));
    if as_bytes {
        // Both have the same.
        packing::say_lost(files[0].1);
    }
    Ok(Outcome::Answer)
}

/// Writes the text of both, if it says what the engine made of them.
fn deliver(
    [one, other]: [&Text; 2],
    apart: &Apart,
    merged: &[u8],
    out: &Out,
) -> Result<(), WrongUse> {
    let first = match one.packed.records.version {
        Version::Nothing => without_records(&one.text, one.packed.source.clinic),
        _ => one.text.clone(),
    };
    let joined = text::joined(&first, &other.text, apart);
    if !text::pack(&joined).is_ok_and(|packed| packed.bytes() == merged) {
        let why = "the merged file isn't the text of both";
        return Err(WrongUse(format!("merge: {why}")));
    }
    output::deliver_text(&one.marked(&joined), out)
}

/// The names of the second text that are told apart.
fn renamed(file: &str, apart: &Apart) -> Option<String> {
    let each = apart.renamed.iter();
    let each: Vec<String> = each
        .map(|(what, name, to)| format!("{what} {name} is now {to}"))
        .collect();
    (!each.is_empty()).then(|| format!("of {file}: {}", each.join(", ")))
}

/// The message for two texts whose kinds or roles differ.
fn differ(files: &Files, texts: [&Text; 2], differences: &[Difference]) -> String {
    let verdict = Verdict {
        number: 25,
        place: 0,
    };
    let more = lines(files, texts, differences);
    let more = (!more.is_empty()).then(|| more.join("\n  "));
    report::of_both(&merging::names(files), verdict, more)
}

/// The message for two texts whose roles have other seats or hours. It has no number, since
/// the engine doesn't refuse the bytes.
fn limit_otherwise(files: &Files, texts: [&Text; 2], differences: &[Difference]) -> String {
    let names = merging::names(files);
    let why = "not merged: the seats or hours of roles differ";
    let lines = lines(files, texts, differences).join("\n  ");
    let mend = "write the same seats and hours of each role in both";
    format!("pilzdamo: {names}: {why}\n  {lines}\n  {mend}")
}

/// What differs, each with its lines in both texts.
fn lines(files: &Files, texts: [&Text; 2], differences: &[Difference]) -> Vec<String> {
    let mut lines = Vec::new();
    for Difference { one, name, how, at } in differences.iter().take(TOLD) {
        let name = text::shown(name);
        let [(first, _), (second, _)] = files;
        lines.push(match at {
            [_, None] => format!("{one} {name} is in {first} alone"),
            [None, _] => format!("{one} {name} is in {second} alone"),
            _ => format!("{one} {name} {how}"),
        });
        for (((file, _), text), at) in files.iter().zip(texts).zip(at) {
            lines.extend(at.map(|at| format!("  {file}:{}: {}", at.line, line(text, at.line))));
        }
    }
    if let Some(more @ 1..) = differences.len().checked_sub(TOLD) {
        lines.push(format!("{more} more differ"));
    }
    lines
}

/// A line of a text in a message.
fn line(text: &Text, number: usize) -> String {
    let line = text.text.split('\n').nth(number - 1).unwrap_or_default();
    let shown = text::printable(line.trim());
    match shown.char_indices().nth(LONGEST) {
        Some((end, _)) => format!("{} ...", &shown[..end]),
        None => shown,
    }
}

/// The most characters of a line that a message shows.
const LONGEST: usize = 200;
