//! What a refusal of bytes objects to, in words, with the numbers that are there and those
//! that are due.

use crate::clinic::{Clinic, NODES};
use crate::length::Bytes;
use crate::names::{list, several, step, Above};
use crate::records;
use crate::tree::{self, Ended, Tree};
use pilzdamo::{Counts, Verdict};

/// The lines for a refusal of a file: the record or the step, and why it is refused.
pub fn lines<B: Bytes + ?Sized>(file: &B, verdict: Verdict, counts: Counts) -> Vec<String> {
    let clinic = Clinic::of(file);
    let Verdict { number, place } = verdict;
    let mut lines = Vec::new();
    if counts == Counts::Node {
        let step = step_at(&clinic, place.into());
        lines.extend(step.map(|step| format!("node {place}: {step}")));
    }
    lines.extend(match number {
        8 => shape(&clinic, place.into()),
        14 if place == 0 => start(&clinic),
        10..=15 => text::why_in_numbers(file.start(), number, place),
        16 => Some(too_long(&clinic)),
        _ => records::told(&clinic, verdict),
    });
    lines
}

/// A node's step, if a session's tree comes to it.
fn step_at(clinic: &Clinic, number: usize) -> Option<String> {
    let (trees, _) = tree::follow(clinic);
    let mut visits = trees.iter().flat_map(|tree| &tree.visits);
    let visit = visits.find(|visit| visit.node == number)?;
    let node = clinic.nodes.get(number.checked_sub(1)?)?;
    let above = Above {
        bound: Some(visit.bound),
        due: visit.due,
    };
    Some(step(clinic, *node, above))
}

/// What is wrong with the trees at a node, where its own step doesn't say it: a root that
/// isn't the one due, a tree without an end, or nodes that are in none.
fn shape(clinic: &Clinic, place: usize) -> Option<String> {
    let (trees, reached) = tree::follow(clinic);
    let count = clinic.nodes.len();
    let mut due = 1;
    for (number, (&[.., root], tree)) in (1..).zip(clinic.sessions.iter().zip(&trees)) {
        if place > count {
            if let Some(what) = past_last(clinic, number, tree) {
                return Some(what);
            }
        } else if due == place && usize::from(root) != place && tree.ended != Ended::Unknown {
            return Some(format!(
                "session {number}'s root is node {root}, and {place} is due"
            ));
        }
        due += tree.visits.len();
    }
    let (in_trees, all) = (several(reached, NODES.one), several(count, NODES.one));
    let left_over = place == reached + 1 && place <= count;
    left_over.then(|| format!("the sessions' trees have {in_trees}, and the file has {all}"))
}

/// What is said of a session whose tree needs more nodes than there are.
fn past_last(clinic: &Clinic, number: usize, tree: &Tree) -> Option<String> {
    let all = several(clinic.nodes.len(), NODES.one);
    match (tree.ended, tree.visits.as_slice()) {
        (Ended::PastLast, []) => Some(format!(
            "no node is left for session {number}: the file has {all}"
        )),
        (Ended::PastLast, _) => Some(format!(
            "session {number}'s tree runs past the last node: the file has {all}"
        )),
        _ => None,
    }
}

/// The first session that starts with a role.
fn start(clinic: &Clinic) -> Option<String> {
    let mut sessions = (1..).zip(&clinic.sessions);
    let (number, &[_, mask, _]) = sessions.find(|(_, [_, mask, _])| *mask != 0)?;
    let roles = list("role", mask.into(), 16);
    Some(format!(
        "session {number} starts with {roles}, and a session to be placed starts with none"
    ))
}

/// The nodes of a file that has no room for a placement.
fn too_long(clinic: &Clinic) -> String {
    let nodes = several(clinic.count(NODES), NODES.one);
    let most = NODES.most;
    format!("it has {nodes} before placing, and a file has at most {most}")
}
