//! A text shown: its own lines, with the roles held at each step. Bytes with names beside
//! them are shown as the text that they have with them.

use crate::clinic::Clinic;
use crate::input::{Input, Text};
use crate::names::{items, several};
use crate::show;
use text::NodeAt;

/// The most characters for which every line makes room before it.
const WIDEST: usize = 60;

/// The page for a file: of a text its lines, of bytes their records.
pub fn page(input: &Input) -> String {
    match &input.text {
        Some(text) => of_text(input, text),
        None => show::of(input),
    }
}

fn of_text(input: &Input, text: &Text) -> String {
    let verdict = pilzdamo::check(input);
    let bytes = several(input.len(), "byte");
    let on_steps = text.packed.records.nodes.iter().filter(|node| node[0] == 7);
    let mut page = format!("check: {}\n", show::judged(&Clinic::of(input), verdict));
    let as_file = if text.has_lines { " as a file" } else { "" };
    page += &format!("length: {bytes}{as_file}\n");
    page += &format!("on steps: {}\n\n", on_steps.count());
    let rows = rows(text);
    let width = rows.iter().map(|row| row.held.chars().count()).max();
    let width = width.unwrap_or(0).clamp(4, WIDEST);
    page += match text.has_lines {
        true => "  node  line  held\n",
        false => "  node  held\n",
    };
    let culprit = text::why(&text.packed, verdict.number, verdict.place);
    let mut rows = rows.into_iter().peekable();
    for (number, line) in (1..).zip(text.text.lines()) {
        let start = page.len();
        let row = rows.next_if(|row| row.line == number);
        let (node, held) = row.map_or_else(Default::default, |row| (row.node, row.held));
        page += &format!("  {node:>4}  ");
        if text.has_lines {
            page += &format!("{number:4}  ");
        }
        page += &format!("{held:width$}  ");
        page += &text::printable_line(line);
        page.truncate(start + page[start..].trim_end().len());
        page.push('\n');
        if let Some(culprit) = culprit.as_ref().filter(|found| found.at.line == number) {
            page += &format!("!! refused {}: {}\n", verdict.number, culprit.what);
        }
    }
    if culprit.is_none() && !verdict.is_clean() {
        page += &format!("!! {}\n", input.refused(verdict));
    }
    page
}

/// What stands before the line of a step: its node, and the roles that are held there.
struct Row {
    line: usize,
    node: String,
    held: String,
}

/// The rows of the lines that have a step, in their order.
fn rows(text: &Text) -> Vec<Row> {
    let packed = &text.packed;
    let nodes = packed.source.nodes.iter().zip(text::held(packed));
    let steps = (1..).zip(nodes).filter(|(_, (place, _))| !place.behind);
    let row = |(number, (place, held)): (usize, (&NodeAt, u16))| {
        let roles: Vec<&str> = items(held.into())
            .filter_map(|role| packed.names.roles.get(role as usize - 1))
            .map(String::as_str)
            .collect();
        Row {
            line: place.at.line,
            node: number.to_string(),
            held: match &roles[..] {
                [] => "-".to_string(),
                roles => roles.join(","),
            },
        }
    };
    steps.map(row).collect()
}
