//! What a picture shows: each session's nodes in words, with the roles that are held.

use crate::clinic::{Clinic, NODES, SESSIONS};
use crate::input::{Input, Text};
use crate::names::{self, Above};
use crate::page::Spot;
use crate::sessions;
use crate::show;
use crate::tree::{self, Tree, Visit};
use pilzdamo::Verdict;

/// A node.
pub struct Step {
    pub node: usize,
    pub tag: u16,
    pub words: String,
    /// The roles held when it is reached.
    pub held: u16,
    /// The role that it puts on or off.
    pub turned: Option<Turned>,
    pub is_refused: bool,
}

/// A role that goes on or off.
pub struct Turned {
    pub is_on: bool,
    /// None if there can be no role of its number.
    pub role: Option<u16>,
}

impl Turned {
    fn of([tag, role, _]: [u16; 3]) -> Option<Turned> {
        matches!(tag, 7 | 8).then_some(Turned {
            is_on: tag == 7,
            role: Some(role).filter(|role| (1..=16).contains(role)),
        })
    }
}

/// A session; or the nodes that are in none, as a list.
pub struct Figure {
    pub heading: String,
    pub is_refused: bool,
    pub is_tree: bool,
    pub steps: Vec<Step>,
    pub remark: Option<&'static str>,
}

/// A file to draw.
pub struct Subject<'a> {
    pub input: &'a Input,
    pub clinic: Clinic,
    pub verdict: Verdict,
    /// Where the check's refusal stands.
    spot: Option<Spot>,
}

impl Subject<'_> {
    pub fn of(input: &Input) -> Subject<'_> {
        let verdict = pilzdamo::check(input);
        Subject {
            input,
            clinic: Clinic::of(input),
            verdict,
            spot: (!verdict.is_clean()).then(|| Spot::of(verdict)),
        }
    }

    /// The sessions, and the nodes after their trees.
    pub fn figures(&self) -> Vec<Figure> {
        let (trees, reached) = tree::follow(&self.clinic);
        let mut figures = Vec::new();
        let mut root = 1;
        for (number, tree) in (1..).zip(&trees) {
            figures.push(self.session(number, root, tree));
            root += tree.visits.len();
        }
        let loose = self.clinic.nodes.get(reached..).unwrap_or_default();
        if !loose.is_empty() {
            figures.push(self.loose(loose, reached + 1));
        }
        figures
    }

    fn session(&self, number: usize, root: usize, tree: &Tree) -> Figure {
        let record = self.clinic.sessions[number - 1];
        let heading = match &self.input.text {
            Some(text) => session_in_names(text, number, record),
            None => sessions::session_line(&self.clinic, number, record, root, tree),
        };
        Figure {
            heading,
            is_refused: self.spot == Some(Spot::Session(number)),
            is_tree: true,
            steps: tree.visits.iter().map(|visit| self.step(visit)).collect(),
            remark: sessions::unended(tree),
        }
    }

    fn step(&self, visit: &Visit) -> Step {
        let words = || visit.step(&self.clinic);
        self.node(
            visit.node,
            self.written(visit.node).unwrap_or_else(words),
            visit.held,
        )
    }

    /// The nodes from this one on, which no tree has.
    fn loose(&self, nodes: &[[u16; 3]], first: usize) -> Figure {
        let steps = (first..).zip(nodes).map(|(number, &node)| {
            let words = names::step(&self.clinic, node, Above::default());
            self.node(number, words, 0)
        });
        Figure {
            heading: "nodes in no tree that can be followed".to_string(),
            is_refused: false,
            is_tree: false,
            steps: steps.collect(),
            remark: Some("which roles are held is not known"),
        }
    }

    fn node(&self, number: usize, words: String, held: u16) -> Step {
        let node = self.clinic.nodes[number - 1];
        Step {
            node: number,
            tag: node[0],
            words,
            held,
            turned: Turned::of(node),
            is_refused: self.spot == Some(Spot::Node(number)),
        }
    }

    /// A node's step as the text has it.
    fn written(&self, node: usize) -> Option<String> {
        let text = self.input.text.as_ref()?;
        text.step(node).map(str::to_string)
    }

    /// What there is to say of records that are missing.
    pub fn remarks(&self) -> Vec<String> {
        let clinic = &self.clinic;
        if clinic.counts.is_none() {
            return vec![show::NO_RECORDS.to_string()];
        }
        let sessions = show::missing(clinic, SESSIONS, clinic.sessions.len());
        let nodes = show::missing(clinic, NODES, clinic.nodes.len());
        sessions.into_iter().chain(nodes).collect()
    }
}

/// A session's line in a text, in one form.
fn session_in_names(text: &Text, number: usize, [user, mask, _]: [u16; 3]) -> String {
    let names = &text.packed.names;
    let session = names.sessions.get(number - 1);
    let session = session.map_or("?", |session| &session.name);
    let one = |names: &[String], number: usize| {
        let name = names.get(number.wrapping_sub(1));
        name.map_or("?".to_string(), String::clone)
    };
    let roles: Vec<String> = names::items(mask.into())
        .map(|role| one(&names.roles, role as usize))
        .collect();
    let starts = match &roles[..] {
        [] => String::new(),
        roles => format!(" as {}", roles.join(", ")),
    };
    let user = one(&names.users, user.into());
    format!("session {session} by {user}{starts}")
}
