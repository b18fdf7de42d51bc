//! All placements of a small file that put up to three nodes before each of
//! its nodes, by sets of roles.

use crate::cost::Cost;
use crate::trees::Trees;
use std::collections::HashMap;

/// The most on and off nodes before a node.
const MOST: u32 = 3;

/// The least cost of a rival: a placement that passes by rules 5 and 6, with at
/// most one role at every node and none at an end. None if there is no such
/// placement.
pub fn least(trees: &Trees) -> Option<Cost> {
    let mut search = Search {
        trees,
        known: HashMap::new(),
    };
    (0..trees.nodes.len())
        .filter(|&at| trees.nodes[at].parent.is_none())
        .map(|root| search.tree(root, 0))
        .sum()
}

struct Search<'a> {
    trees: &'a Trees,
    /// What came of each tree and set: it depends on nothing else, so it is
    /// searched once.
    known: HashMap<(usize, u16), Option<Cost>>,
}

impl Search<'_> {
    /// The least cost of the tree at a node and of what is put in before it, if
    /// this set is active above.
    fn tree(&mut self, at: usize, active: u16) -> Option<Cost> {
        if let Some(&known) = self.known.get(&(at, active)) {
            return known;
        }
        let found = self.put_in(at, active, MOST);
        self.known.insert((at, active), found);
        found
    }

    /// Tries all lists of up to `most` nodes before this one: every role on,
    /// every role off, assigned or not, active or not.
    fn put_in(&mut self, at: usize, active: u16, most: u32) -> Option<Cost> {
        // Whichever node comes next, it is reached with this set.
        if active.count_ones() > 1 {
            return None;
        }
        let mut least = self.reach(at, active);
        if most == 0 {
            return least;
        }
        for role in 0..self.trees.roles {
            let bit = 1 << role;
            let assigned = self.trees.nodes[at].assigned & bit != 0;
            let on = assigned.then_some(active | bit);
            let off = (active & bit != 0).then_some(active & !bit);
            for (after, on_steps) in [(on, 1), (off, 0)] {
                let Some(after) = after else {
                    continue; // Against rule 5.
                };
                let rest = self.put_in(at, after, most - 1);
                let found = rest.map(|rest| Cost { on_steps, idle: 0 } + rest);
                least = least.into_iter().chain(found).min();
            }
        }
        least
    }

    /// The node itself with this set, and the trees below it, each with its
    /// own copy.
    fn reach(&mut self, at: usize, active: u16) -> Option<Cost> {
        let trees = self.trees;
        let node = &trees.nodes[at];
        if node.is_end() && active != 0 {
            return None;
        }
        if node.permitted.is_some_and(|roles| roles & active == 0) {
            return None; // Against rule 6.
        }
        let idle = u32::from(node.permitted.is_none() && active != 0);
        let below: Option<Cost> = node.children().map(|child| self.tree(child, active)).sum();
        below.map(|below| Cost { on_steps: 0, idle } + below)
    }
}
