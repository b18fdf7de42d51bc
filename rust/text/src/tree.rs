//! The sessions' trees, followed node by node.

use crate::records::{Node, Records};
use crate::records::{COMPARE, END, FORK, NEW, OFF, ON, RECEIVE, REPEAT, SEND, VARIABLES};

/// Where a node stands.
#[derive(Clone, Debug)]
pub struct Spot {
    /// The session's index.
    pub session: usize,
    /// The parent's index; a root has none.
    pub parent: Option<usize>,
    /// How many levels its line is indented by.
    pub level: usize,
    /// The indices of the nodes above it that bind a variable, from the root on.
    pub binders: Vec<usize>,
    /// The roles that are active when it is reached.
    pub active: u16,
}

/// Where each node stands, if 8 finds no fault with the trees.
pub fn follow(records: &Records) -> Option<Vec<Spot>> {
    let mut spots = Vec::with_capacity(records.nodes.len());
    for (index, session) in records.sessions.iter().enumerate() {
        if usize::from(session.root) != spots.len() + 1 {
            return None;
        }
        let root = Spot {
            session: index,
            parent: None,
            level: 1,
            binders: Vec::new(),
            active: session.mask,
        };
        tree(records, root, &mut spots)?;
    }
    (spots.len() == records.nodes.len()).then_some(spots)
}

/// Follows one session's tree.
fn tree(records: &Records, root: Spot, spots: &mut Vec<Spot>) -> Option<()> {
    // The second children that are due, with the forks' own words for them.
    let mut waiting: Vec<(Spot, u16)> = Vec::new();
    let mut spot = root;
    loop {
        let at = spots.len();
        let node = *records.nodes.get(at)?;
        spots.push(spot.clone());
        let [tag, f1, _] = node;
        if !is_tidy(node) {
            return None;
        }
        spot.parent = Some(at);
        match tag {
            END => {
                let Some((second, number)) = waiting.pop() else {
                    return Some(());
                };
                if usize::from(number) != at + 2 {
                    return None;
                }
                spot = second;
            }
            FORK => {
                spot.level += 2;
                waiting.push((spot.clone(), f1));
            }
            REPEAT => spot.level += 1,
            NEW | RECEIVE => spot.binders.push(at),
            ON => spot.active |= role_bit(f1),
            OFF => spot.active &= !role_bit(f1),
            _ => (),
        }
        if spot.binders.len() > VARIABLES {
            return None;
        }
    }
}

/// Whether there is such a tag, and its unused fields are 0.
fn is_tidy([tag, f1, f2]: Node) -> bool {
    match tag {
        END | REPEAT => f1 == 0 && f2 == 0,
        FORK | NEW | RECEIVE | ON | OFF => f2 == 0,
        COMPARE | SEND => true,
        _ => false,
    }
}

fn role_bit(role: u16) -> u16 {
    match role {
        1..=16 => 1 << (role - 1),
        _ => 0,
    }
}
