//! What another ward can change in a session: two files that agree on its user, its tree
//! and the tables, placed by both implementations, compared and counted.

mod deal;
mod tally;

pub use deal::{deal_wards, Wards};
pub use tally::WardsTally;

use crate::hours::{agreed_placing_at, At};
use crate::placing::agreed_placing;
use second::draft::word_at;
use second::{Placed, Version};
use std::fmt::Display;

/// The session that two files agree on, as it stands in one of them placed.
#[derive(Clone, Debug, PartialEq)]
pub struct OwnTree {
    /// Tag, f1 and f2 of each node; a fork's f1 is counted from the root.
    pub nodes: Vec<[u16; 3]>,
    pub on_steps: usize,
}

impl OwnTree {
    /// By the words of a placed file of version 1.
    fn of(file: &[u8], session: usize) -> OwnTree {
        let [sessions, count] = [5, 6].map(|at| word_at(file, at));
        let [sessions_at, nodes_at] = [11, 12].map(|at| usize::from(word_at(file, at)));
        let root = |session: usize| match session == usize::from(sessions) {
            true => count + 1,
            false => word_at(file, sessions_at + 3 * session + 2),
        };
        let (first, next) = (root(session), root(session + 1));
        let node = |number: u16| {
            let at = nodes_at + 3 * (usize::from(number) - 1);
            let [tag, f1, f2] = [0, 1, 2].map(|word| word_at(file, at + word));
            match tag {
                1 => [tag, f1 - first, f2],
                _ => [tag, f1, f2],
            }
        };
        let nodes: Vec<_> = (first..next).map(node).collect();
        let on_steps = nodes.iter().filter(|[tag, ..]| *tag == 7).count();
        OwnTree { nodes, on_steps }
    }
}

/// What placing both files came to, if both are placed.
pub struct Both {
    pub placed: [Placed; 2],
    /// The roots of the session.
    pub roots: [u16; 2],
    pub own: OwnTree,
}

/// Panics unless the session is placed alike in both files, where both are placed.
fn judge(wards: &Wards, placed: [(Placed, Vec<u8>); 2], origin: impl Display) -> Option<Both> {
    if placed.iter().any(|(placed, _)| placed.number != 0) {
        return None;
    }
    let session = |at: usize| {
        let (placed, out) = &placed[at];
        let file = &out[..placed.length.into()];
        assert_eq!(Version::claimed(file), Version::One);
        let root = word_at(
            file,
            usize::from(word_at(file, 11)) + 3 * wards.sessions[at] + 2,
        );
        (root, OwnTree::of(file, wards.sessions[at]))
    };
    let [(one_root, one), (other_root, other)] = [0, 1].map(session);
    assert_eq!(one, other, "placed otherwise: {origin}, {}", wards.told());
    Some(Both {
        placed: placed.map(|(placed, _)| placed),
        roots: [one_root, other_root],
        own: one,
    })
}

/// Deals `pairs` pairs to both, without hours and at a minute, and panics at the first
/// difference.
pub fn compare_wards(seed: u64, pairs: u64) -> WardsTally {
    let mut tally = WardsTally::default();
    for index in 0..pairs {
        let wards = deal_wards(seed, index);
        let origin = format_args!("trials::deal_wards({seed}, {index})");
        let files = wards.files.each_ref().map(|draft| draft.bytes());
        let before = vec![0x5a; Version::One.largest()];
        let placed = files
            .each_ref()
            .map(|file| agreed_placing(file, &before, origin));
        let plain = judge(&wards, placed, origin);
        let placed = files.map(|file| {
            let at = At {
                file,
                hours: wards.hours.clone(),
                minute: wards.minute,
            };
            agreed_placing_at(&at, &before, origin)
        });
        let at_a_minute = judge(&wards, placed, origin);
        tally.count(&wards, plain.as_ref(), at_a_minute.as_ref());
    }
    tally
}
