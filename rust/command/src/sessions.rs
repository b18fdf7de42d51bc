//! The sessions of a shown file.

use crate::clinic::{Clinic, NODES, ROLES, SESSIONS, USERS};
use crate::names::{self, list, record, Above};
use crate::page::{Page, Spot};
use crate::show::cut_off;
use crate::tree::{self, Ended, Tree, Visit};

/// The sessions with their trees, and nodes that are in none.
pub fn show(page: &mut Page, clinic: &Clinic) {
    let (trees, reached) = tree::follow(clinic);
    let mut root = 1;
    for (i, (session, tree)) in clinic.sessions.iter().zip(&trees).enumerate() {
        let line = session_line(clinic, i + 1, *session, root, tree);
        page.line("");
        page.marked(&line, Spot::Session(i + 1));
        let rows = tree.visits.iter().map(|visit| row(clinic, visit)).collect();
        print_rows(page, rows);
        past_end(page, clinic, tree);
        root += tree.visits.len();
    }
    if clinic.count(SESSIONS) > clinic.sessions.len() {
        page.line("");
    }
    cut_off(page, clinic, SESSIONS, clinic.sessions.len());
    loose_nodes(page, clinic, reached);
    cut_off(page, clinic, NODES, clinic.nodes.len());
}

/// A session with its user, the roles that it starts with, and its root.
pub fn session_line(
    clinic: &Clinic,
    number: usize,
    [user, mask, root]: [u16; 3],
    due: usize,
    tree: &Tree,
) -> String {
    let user_text = record("user", user, clinic.count(USERS));
    let roles = list("role", u32::from(mask), clinic.count(ROLES));
    let root = match tree.ended {
        Ended::Unknown => format!("root {root} (not followed)"),
        _ if usize::from(root) != due => format!("root {root} ({due} is due)"),
        _ => format!("root {root}"),
    };
    format!("session {number}: {user_text}, {roles} at the start, {root}")
}

/// The line below a tree that has no end.
fn past_end(page: &mut Page, clinic: &Clinic, tree: &Tree) {
    if let Some(remark) = unended(tree) {
        page.line(&format!("  ({remark})"));
    }
    if tree.ended == Ended::PastLast {
        page.mark(Spot::Node(clinic.nodes.len() + 1));
    }
}

/// Why a tree that was begun has no end.
pub fn unended(tree: &Tree) -> Option<&'static str> {
    match tree.ended {
        Ended::PastLast if tree.visits.is_empty() => Some("no node is left for it"),
        Ended::PastLast => Some("the tree runs past the last node"),
        Ended::Lost => Some("the tree can't be followed from here"),
        Ended::Whole | Ended::Unknown => None,
    }
}

/// The nodes after those that the sessions' trees have.
fn loose_nodes(page: &mut Page, clinic: &Clinic, reached: usize) {
    let loose = clinic.nodes.get(reached..).unwrap_or_default();
    if loose.is_empty() {
        return;
    }
    page.line("");
    page.line("nodes in no tree that can be followed");
    let rows = loose.iter().enumerate().map(|(i, &node)| Row {
        mark: margin(node),
        node: reached + i + 1,
        held: "?".to_string(),
        step: names::step(clinic, node, Above::default()),
    });
    print_rows(page, rows.collect());
}

/// A node's line.
struct Row {
    mark: String,
    node: usize,
    held: String,
    step: String,
}

fn row(clinic: &Clinic, visit: &Visit) -> Row {
    let node = clinic.nodes[visit.node - 1];
    let held: Vec<String> = names::items(u32::from(visit.held))
        .map(|role| role.to_string())
        .collect();
    Row {
        mark: margin(node),
        node: visit.node,
        held: if held.is_empty() {
            "-".to_string()
        } else {
            held.join(",")
        },
        step: format!("{}{}", visit.lead, visit.step(clinic)),
    }
}

/// The role that goes on or off, if there can be one of its number.
fn margin([tag, role, _]: [u16; 3]) -> String {
    let role = match role {
        1..=16 => role.to_string(),
        _ => "?".to_string(),
    };
    match tag {
        7 => format!("+{role}"),
        8 => format!("-{role}"),
        _ => String::new(),
    }
}

/// The rows in columns.
fn print_rows(page: &mut Page, rows: Vec<Row>) {
    if rows.is_empty() {
        return;
    }
    let width = rows
        .iter()
        .map(|row| row.held.len())
        .max()
        .unwrap_or(0)
        .max(4);
    page.line(&format!("  {:4}  node  {:width$}  step", "", "held"));
    for Row {
        mark,
        node,
        held,
        step,
    } in rows
    {
        let line = format!("  {mark:4}  {node:4}  {held:width$}  {step}");
        page.marked(&line, Spot::Node(node));
    }
}
