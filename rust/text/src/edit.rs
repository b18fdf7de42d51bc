//! On and off put into a text, and taken out, with every other line as it was.

use crate::line::tokens;
use crate::pack::Packed;
use crate::records::{Records, OFF, ON};
use std::collections::HashSet;

/// Lines to be put in before the line of an index, from 0.
struct Insertion {
    before: usize,
    lines: Vec<String>,
}

/// The text with the on and off steps of its placed file added. `None` if that file isn't
/// this text's file with on and off added.
pub fn placed(text: &str, packed: &Packed, placed: &Records) -> Option<String> {
    let lines: Vec<&str> = text.split('\n').collect();
    let mut insertions: Vec<Insertion> = Vec::new();
    let mut nodes = placed.nodes.iter();
    for (&[tag, ..], place) in packed.records.nodes.iter().zip(&packed.source.nodes) {
        let mut steps = Vec::new();
        let found = loop {
            match *nodes.next()? {
                [put @ (ON | OFF), role, _] => {
                    let word = if put == ON { "on" } else { "off" };
                    let role = packed.names.roles.get(usize::from(role).checked_sub(1)?)?;
                    steps.push(format!("{}{word} {role}", " ".repeat(place.indent)));
                }
                [other, ..] => break other,
            }
        };
        if found != tag {
            return None;
        }
        let before = match place.behind {
            true => place.at.line,
            false => above_comments(&lines, place.at.line - 1),
        };
        if !steps.is_empty() {
            insertions.push(Insertion {
                before,
                lines: steps,
            });
        }
    }
    let whole = nodes.next().is_none();
    whole.then(|| inserted(&lines, insertions))
}

/// The first of the lines of comments that stand right above the line of an index, or
/// that line itself.
fn above_comments(lines: &[&str], mut index: usize) -> usize {
    while index > 0 && lines[index - 1].trim_start().starts_with('#') {
        index -= 1;
    }
    index
}

/// The lines with others put in. These end as the line before them does.
fn inserted(lines: &[&str], insertions: Vec<Insertion>) -> String {
    let mut all: Vec<String> = Vec::new();
    let mut insertions = insertions.into_iter().peekable();
    for (index, line) in lines.iter().enumerate() {
        while let Some(found) = insertions.next_if(|insertion| insertion.before <= index) {
            put(&mut all, found);
        }
        all.push(line.to_string());
    }
    insertions.for_each(|insertion| put_behind(&mut all, insertion));
    all.join("\n")
}

/// Adds lines after the last, which has no line end. It gets that of the line above it,
/// and the last line added has none.
fn put_behind(all: &mut Vec<String>, insertion: Insertion) {
    let above = all.iter().rev().nth(1);
    if above.is_some_and(|line| line.ends_with('\r')) {
        all.last_mut().expect("a line").push('\r');
    }
    put(all, insertion);
    without_end(all);
}

/// The last line without an end.
fn without_end(lines: &mut [String]) {
    if let Some(last) = lines.last_mut().filter(|line| line.ends_with('\r')) {
        last.pop();
    }
}

fn put(all: &mut Vec<String>, insertion: Insertion) {
    let end = match all.last() {
        Some(line) if line.ends_with('\r') => "\r",
        _ => "",
    };
    all.extend(insertion.lines.into_iter().map(|line| line + end));
}

/// The text without its on and off steps. A comment after one of them stays.
pub fn stripped(text: &str, packed: &Packed) -> String {
    let nodes = packed.records.nodes.iter().zip(&packed.source.nodes);
    let gone: HashSet<usize> = nodes
        .filter(|([tag, ..], _)| matches!(*tag, ON | OFF))
        .map(|(_, place)| place.at.line)
        .collect();
    let mut kept: Vec<String> = Vec::new();
    for (number, line) in (1..).zip(text.split('\n')) {
        if !gone.contains(&number) {
            kept.push(line.to_string());
        } else if let Some(comment) = line.find('#') {
            let indent = tokens(number, line).first().map_or(0, |t| t.at.column - 1);
            kept.push(" ".repeat(indent) + &line[comment..]);
        }
    }
    if gone.contains(&text.split('\n').count()) {
        without_end(&mut kept);
    }
    kept.join("\n")
}
