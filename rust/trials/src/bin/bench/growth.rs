//! The inputs of the tables of growth.

use crate::case::{Case, Input};
use second::Version;

/// The counts of nodes, with the most roles.
pub const NODES: [u16; 4] = [128, 256, 512, 1_024];

/// The counts of roles, with the most nodes.
pub const ROLES: [u16; 3] = [4, 8, 16];

/// A question to a file of so many nodes and roles. What is placed has two nodes
/// less, and its result has so many.
pub struct Row {
    pub nodes: u16,
    pub roles: u16,
    pub case: Case,
}

/// Reading, checking and placing, each by the counts of nodes.
pub fn by_nodes(seed: u64) -> Vec<Row> {
    rows(seed, &NODES.map(|nodes| (16, nodes)))
}

/// The same by the counts of roles.
pub fn by_roles(seed: u64) -> Vec<Row> {
    rows(seed, &ROLES.map(|roles| (roles, 1_024)))
}

fn rows(seed: u64, sizes: &[(u16, u16)]) -> Vec<Row> {
    let rows = |name: &'static str, input: fn(u64, u16, u16) -> Input| {
        sizes.iter().map(move |&(roles, nodes)| Row {
            nodes,
            roles,
            case: Case::new(name, input(seed, roles, nodes), 50),
        })
    };
    let read = rows("read", |seed, roles, nodes| {
        Input::Read(trials::sized(seed, roles, nodes))
    });
    let check = rows("check", |seed, roles, nodes| {
        Input::Check(trials::sized(seed, roles, nodes))
    });
    let place = rows("place", |seed, roles, nodes| Input::Place {
        file: trials::chain_bare(Version::One, seed, roles, nodes),
        number: 0,
    });
    read.chain(check).chain(place).collect()
}
