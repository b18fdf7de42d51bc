//! The states by the tie rule before idle nodes counted: the fewest on steps, and
//! among those the smallest list.

use crate::states::possible;
use crate::trees::Trees;

/// No role, or one of 16.
const STATES: usize = 17;

/// More on steps than any tree has.
const NEVER: u16 = 1 << 14;

/// A tree's fewest on steps by a state.
type Row = [u16; STATES];

/// The list of a file in which every node has a state.
pub fn states(trees: &Trees) -> Vec<u16> {
    let mut states = Vec::with_capacity(trees.nodes.len());
    for (at, own) in rows(trees).iter().enumerate() {
        let above = trees.above(&states, at);
        let steps = |&state: &u16| own[usize::from(state)] + step(above, state);
        // The first of several is the smallest.
        let taken = (0..STATES as u16).min_by_key(steps);
        states.push(taken.expect("there are states"));
    }
    states
}

/// One on step where a role follows on something else.
fn step(above: u16, state: u16) -> u16 {
    u16::from(state != 0 && state != above)
}

/// Each node's row by its own state.
fn rows(trees: &Trees) -> Vec<Row> {
    let mut rows = vec![[NEVER; STATES]; trees.nodes.len()];
    // By the parent's state.
    let mut below = rows.clone();
    for (at, node) in trees.nodes.iter().enumerate().rev() {
        for state in possible(node).into_iter().map(usize::from) {
            rows[at][state] = node.children().map(|child| below[child][state]).sum();
        }
        let entering = entering(&rows[at]);
        below[at] = rows[at].map(|staying| staying.min(entering));
    }
    rows
}

/// The fewest on steps from a state that isn't kept.
fn entering(own: &Row) -> u16 {
    let roles = own[1..].iter().min();
    own[0].min(roles.expect("there are roles") + 1)
}
