//! The sessions' trees, followed by tags alone.

use crate::clinic::Clinic;
use crate::names::{self, Above};

/// A node on its path.
pub struct Visit {
    /// Its number, from 1.
    pub node: usize,
    /// The roles held when it is reached.
    pub held: u16,
    /// How many variables are bound above it.
    pub bound: usize,
    /// What stands before it in the drawn tree.
    pub lead: String,
    /// The second child that is due to a fork, if its first child's tree ends.
    pub due: Option<usize>,
}

impl Visit {
    /// The node in words.
    pub fn step(&self, clinic: &Clinic) -> String {
        let above = Above {
            bound: Some(self.bound),
            due: self.due,
        };
        names::step(clinic, clinic.nodes[self.node - 1], above)
    }
}

/// How following a tree ended.
#[derive(Clone, Copy, PartialEq)]
pub enum Ended {
    /// At its last end node.
    Whole,
    /// The nodes ran out.
    PastLast,
    /// At a tag that says nothing.
    Lost,
    /// An earlier tree was lost, so that nobody knows where this one begins.
    Unknown,
}

/// A session's tree.
pub struct Tree {
    pub visits: Vec<Visit>,
    pub ended: Ended,
}

/// What holds on the way to the next node.
#[derive(Clone)]
struct Branch {
    held: u16,
    bound: usize,
    /// What stands before the next node in the drawn tree.
    lead: String,
    /// What stands before those after it.
    rest: String,
}

impl Branch {
    fn root(mask: u16) -> Branch {
        Branch {
            held: mask,
            bound: 0,
            lead: String::new(),
            rest: String::new(),
        }
    }

    /// The branch below a node that doesn't end it or part it.
    fn past(mut self, [tag, f1, _]: [u16; 3]) -> Branch {
        match tag {
            3 | 5 => self.bound += 1,
            7 => self.held |= bit(f1),
            8 => self.held &= !bit(f1),
            _ => (),
        }
        self.lead = self.rest.clone();
        self
    }

    /// The branch to a child that is drawn below its parent.
    fn below(mut self, lead: &str, rest: &str) -> Branch {
        self.lead = self.rest.clone() + lead;
        self.rest += rest;
        self
    }

    fn visit(&self, node: usize) -> Visit {
        Visit {
            node,
            held: self.held,
            bound: self.bound,
            lead: self.lead.clone(),
            due: None,
        }
    }
}

/// The bit of a role, if there can be one of this number.
fn bit(role: u16) -> u16 {
    match role {
        1..=16 => 1 << (role - 1),
        _ => 0,
    }
}

/// The trees of all sessions, and how many nodes they have together.
pub fn follow(clinic: &Clinic) -> (Vec<Tree>, usize) {
    let mut trees: Vec<Tree> = Vec::new();
    let mut next = 0;
    let mut lost = false;
    for &[_, mask, _] in &clinic.sessions {
        let tree = if lost {
            Tree {
                visits: Vec::new(),
                ended: Ended::Unknown,
            }
        } else {
            tree_at(&clinic.nodes, next, mask)
        };
        lost |= tree.ended == Ended::Lost;
        next += tree.visits.len();
        trees.push(tree);
    }
    (trees, next)
}

/// The tree whose root has this index.
fn tree_at(nodes: &[[u16; 3]], root: usize, mask: u16) -> Tree {
    let mut visits = Vec::new();
    let mut waiting = Vec::new();
    let mut branch = Branch::root(mask);
    let mut ended = Ended::PastLast;
    for (number, &node) in (root + 1..).zip(nodes.get(root..).unwrap_or_default()) {
        visits.push(branch.visit(number));
        match node[0] {
            0 => match waiting.pop() {
                Some((fork, second)) => {
                    branch = second;
                    set_due(&mut visits, fork, number + 1);
                }
                None => {
                    ended = Ended::Whole;
                    break;
                }
            },
            1 => {
                waiting.push((visits.len() - 1, branch.clone().below("'- ", "   ")));
                branch = branch.below("|- ", "|  ");
            }
            2 => branch = branch.below("'- ", "   "),
            3..=8 => branch = branch.past(node),
            _ => {
                ended = Ended::Lost;
                break;
            }
        }
    }
    Tree { visits, ended }
}

fn set_due(visits: &mut [Visit], fork: usize, due: usize) {
    if let Some(visit) = visits.get_mut(fork) {
        visit.due = Some(due);
    }
}
