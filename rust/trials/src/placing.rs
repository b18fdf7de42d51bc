//! Placing by both implementations: compared, judged and counted.

mod tally;

pub use tally::PlaceTally;

use crate::bare::deal_bare;
use crate::columns::{assert_placed_as_rows, row_file};
use crate::measuring::{agreed_measure, engine_measure};
use crate::trees::Trees;
use second::cases::NOTHING;
use second::draft::{to_bytes, Draft};
use second::{Placed, Verdict, Version};
use std::fmt::Display;

/// The engine's answer, in the second implementation's form.
pub fn engine_place(file: &[u8], out: &mut [u8]) -> Placed {
    in_form(pilzdamo::place(file, out))
}

/// The same answer in the second implementation's form.
pub fn in_form(placed: pilzdamo::Placed) -> Placed {
    Placed {
        number: placed.number,
        place: placed.place,
        length: placed.length,
        on_steps: placed.on_steps,
    }
}

/// What both answer, given an output and what it holds, and what both leave in it.
/// Panics if they differ, or if the answer is wrong.
pub fn agreed_placing(file: &[u8], before: &[u8], origin: impl Display) -> (Placed, Vec<u8>) {
    let (mut out, mut of_second) = (before.to_vec(), before.to_vec());
    let placed = engine_place(file, &mut out);
    let second = second::place(file, &mut of_second);
    let fault = differences((placed, &out), (second, &of_second)).or_else(|| {
        let judged = judge(file, before, &out, placed, second::check);
        judged.err().map(str::to_string)
    });
    if let Some(fault) = fault {
        let hex: String = file.iter().map(|byte| format!("{byte:02x}")).collect();
        panic!(
            "{fault} at {origin}: engine {placed:?}, second {second:?}, output of {} bytes, on {} \
             bytes, to be had back by `xxd -r -p`:\n{hex}",
            before.len(),
            file.len(),
        )
    }
    (placed, out)
}

/// How two answers and outputs differ, if they do.
pub fn differences(
    (placed, out): (Placed, &[u8]),
    (second, of_second): (Placed, &[u8]),
) -> Option<String> {
    if placed != second {
        return Some("place differs".to_string());
    }
    let at = (0..out.len()).find(|&at| out[at] != of_second[at])?;
    Some(format!("output byte {at} differs"))
}

/// Judges what is known of every answer without doing the placing anew.
pub fn judge(
    file: &[u8],
    before: &[u8],
    out: &[u8],
    placed: Placed,
    check: impl Fn(&[u8]) -> Verdict,
) -> Result<(), &'static str> {
    let unless = |wrong: bool, fault| if wrong { Err(fault) } else { Ok(()) };
    let length = usize::from(placed.length);
    unless(out[length..] != before[length..], "a byte past the length")?;
    if placed.number != 0 {
        return unless(placed.length | placed.on_steps != 0, "more than a refusal");
    }
    let out = &out[..length];
    unless(placed.place != 0, "a place, but no refusal")?;
    unless(check(out) != Verdict::CLEAN, "the check refuses it")?;
    let draft = Draft::of(out);
    let on_nodes = draft.nodes.iter().filter(|node| node[0] == 7).count();
    unless(on_nodes != placed.on_steps.into(), "other on steps")?;
    unless(!holds_one_role(&draft), "two roles, or one at an end")?;
    let bare = erased(draft).bytes();
    let same = match file {
        [] => bare == to_bytes(&NOTHING),
        _ => bare == file,
    };
    unless(!same, "another file without on and off")
}

/// Whether every node is reached with at most one role, and an end with none.
fn holds_one_role(draft: &Draft) -> bool {
    let mut nodes = active_sets(draft).zip(&draft.nodes);
    nodes.all(|(active, node)| active.count_ones() <= u32::from(node[0] != 0))
}

/// The set of roles with which each node is reached, where none is active from
/// the start.
pub fn active_sets(draft: &Draft) -> impl Iterator<Item = u16> {
    let trees = Trees::of(draft);
    let (mut sets, mut after) = (Vec::new(), Vec::new());
    for (at, &[tag, f1, _]) in draft.nodes.iter().enumerate() {
        let active = trees.above(&after, at);
        sets.push(active);
        after.push(match tag {
            7 => active | 1 << (f1 - 1),
            8 => active & !(1 << (f1 - 1)),
            _ => active,
        });
    }
    sets.into_iter()
}

/// The file with each on and off node replaced by its child.
fn erased(mut draft: Draft) -> Draft {
    let stays = |node: &[u16; 3]| !matches!(node[0], 7 | 8);
    let mut numbers = Vec::new();
    let mut next = 1;
    for node in &draft.nodes {
        numbers.push(next);
        next += u16::from(stays(node));
    }
    let number = |old: u16| numbers[usize::from(old) - 1];
    draft.nodes.retain(stays);
    for node in draft.nodes.iter_mut().filter(|node| node[0] == 1) {
        node[1] = number(node[1]);
    }
    for session in &mut draft.sessions {
        session[2] = number(session[2]);
    }
    draft
}

/// Deals `files` files of a version to both and panics at the first difference.
pub fn compare_placing(version: Version, seed: u64, files: u64) -> PlaceTally {
    let mut tally = PlaceTally::new(version);
    for index in 0..files {
        let (file, before) = deal_bare(version, seed, index);
        let origin = format_args!("trials::deal_bare(Version::{version:?}, {seed}, {index})");
        let (placed, out) = agreed_placing(&file, &before, origin);
        if let Some(rows) = row_file(&file) {
            let place = |out: &mut [u8]| engine_place(&rows, out);
            assert_placed_as_rows(placed, &out, &before, place, origin);
            let measured = engine_measure(&rows);
            assert_eq!(agreed_measure(&file, origin), measured, "by row: {origin}");
        }
        tally.count(&file, placed, &out);
    }
    tally
}
