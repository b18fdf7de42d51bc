//! Cases of refusals 1 to 8.

use super::{case, checked, clinic, Case, CLEAN, END};
use crate::draft::{set_word, Draft};

const NEW: [u16; 3] = [3, 1, 0];

/// A tree in the clinic that reading refuses with 8 at this place.
fn shape(name: &'static str, nodes: &[[u16; 3]], place: u16) -> Case {
    case(name, clinic(nodes).bytes(), (8, place))
}

/// The clinic with a lone end, changed.
fn changed(name: &'static str, answer: (u16, u16), change: impl Fn(&mut Draft)) -> Case {
    let mut draft = clinic(&[END]);
    change(&mut draft);
    case(name, draft.bytes(), answer)
}

/// The clinic with a lone end, with one word of the file set.
fn with_word(name: &'static str, at: usize, word: u16, answer: (u16, u16)) -> Case {
    let mut file = clinic(&[END]).bytes();
    set_word(&mut file, at, word);
    case(name, file, answer)
}

/// A chain of this many binders, ended.
fn binders(count: usize) -> Vec<[u16; 3]> {
    [vec![NEW; count], vec![END]].concat()
}

pub fn head() -> Vec<Case> {
    let lone = clinic(&[END]).bytes();
    let longer = |more: usize| [lone.clone(), vec![0; more]].concat();
    vec![
        case("25 bytes", lone[..25].to_vec(), (1, 0)),
        case("26 bytes of the header alone", lone[..26].to_vec(), (5, 0)),
        case("odd length", longer(1), (1, 0)),
        case("odd length, another version", vec![2; 27], (1, 0)),
        case("one word too many", longer(2), (5, 0)),
        case("one word too few", lone[..lone.len() - 2].to_vec(), (5, 0)),
        case("nothing at all in it", Draft::default().bytes(), CLEAN),
        with_word("version 0", 0, 0, (2, 0)),
        with_word("version 2 with the offsets of version 1", 0, 2, (4, 0)),
        with_word("version 3 with the offsets of version 1", 0, 3, (4, 0)),
        with_word("version 4", 0, 4, (2, 0)),
        with_word("33 users", 1, 33, (3, 0)),
        with_word("17 roles", 2, 17, (3, 0)),
        with_word("33 kinds", 3, 33, (3, 0)),
        with_word("65 channels", 4, 65, (3, 0)),
        with_word("33 sessions", 5, 33, (3, 0)),
        with_word("1,025 nodes", 6, 1025, (3, 0)),
        with_word("32 users where there are 2", 1, 32, (4, 0)),
        with_word("first offset", 7, 12, (4, 0)),
        with_word("last offset", 12, 0, (4, 0)),
        with_word("1,024 nodes where there is 1", 6, 1024, (5, 0)),
    ]
}

pub fn records() -> Vec<Case> {
    vec![
        changed("user with role 3 of 2", (6, 14), |d| d.users[1] = [4]),
        changed("role sends on kind 3 of 2", (6, 15), |d| d.roles[0][0] = 4),
        changed("role receives on kind 32", (6, 19), |d| {
            d.roles[1][3] = 0x8000
        }),
        changed("kind carries kind 3 of 2", (6, 24), |d| d.kinds[1] = [3]),
        changed("kinds in a circle", CLEAN, |d| d.kinds = vec![[2], [1]]),
        changed("owner 0", (6, 25), |d| d.channels[0][0] = 0),
        changed("owner above", (6, 27), |d| d.channels[1][0] = 3),
        changed("channel of kind 0", (6, 29), |d| d.channels[2][1] = 0),
        changed("channel of kind 3", (6, 27), |d| d.channels[1][1] = 3),
        changed("session of user 0", (7, 1), |d| d.sessions[0][0] = 0),
        changed("session of user 3", (7, 1), |d| d.sessions[0][0] = 3),
        changed("starting role 3 of 2", (7, 1), |d| d.sessions[0][1] = 4),
        changed("starting role not assigned", (7, 2), |d| {
            d.sessions.push([2, 1, 2])
        }),
        changed("a late 6 before a 7", (6, 29), |d| {
            d.sessions[0][0] = 0;
            d.channels[2][1] = 9;
        }),
        changed("a late 7 before an 8", (7, 2), |d| {
            d.sessions.push([0, 0, 2]);
            d.nodes[0] = [9, 0, 0];
        }),
    ]
}

pub fn trees() -> Vec<Case> {
    let fork = [1, 99, 0];
    let tag = [9, 0, 0];
    let full = [vec![NEW; 8], vec![[1, 11, 0]], vec![END; 2]].concat();
    let ninth = [vec![NEW; 7], vec![[1, 11, 0], NEW, END, NEW, NEW, END]].concat();
    vec![
        shape("first child cut off by a tag", &[fork, tag, END], 2),
        shape("second child cut off by a tag", &[fork, END, tag], 1),
        shape("unused field does not hinder", &[fork, [0, 5, 0], END], 1),
        shape("inner fork judged, outer not", &[fork, fork, END, tag], 2),
        shape("first child runs past the end", &[fork, [2, 0, 0]], 3),
        shape("fork right, no second child", &[[1, 3, 0], END], 3),
        shape("fork wrong, no second child", &[[1, 2, 0], END], 1),
        shape("no nodes", &[], 1),
        shape("a node left over", &[END, END], 2),
        shape("tree past the last node", &[NEW], 2),
        shape("unused f1 of end", &[[0, 1, 0]], 1),
        shape("unused f2 of end", &[[0, 0, 1]], 1),
        shape("unused f2 of fork", &[[1, 3, 1], END, END], 1),
        shape("unused f1 of repeat", &[[2, 1, 0], END], 1),
        shape("unused f2 of repeat", &[[2, 0, 1], END], 1),
        shape("unused f2 of new", &[[3, 1, 1], END], 1),
        shape("unused f2 of receive", &[[5, 257, 1], END], 1),
        shape("unused f2 of on", &[[7, 1, 1], END], 1),
        shape("unused f2 of off", &[[8, 1, 1], END], 1),
        shape("nine variables", &binders(9), 9),
        shape("ninth variable in a second branch", &ninth, 12),
        checked("eight variables", &binders(8), CLEAN),
        checked("eight variables above a fork", &full, CLEAN),
        checked("two branches do not add up", &two_branches(), CLEAN),
        changed("no sessions but a node", (8, 1), |d| d.sessions.clear()),
        changed("root word wrong", (8, 1), |d| d.sessions[0][2] = 2),
        changed("no nodes left for a session", (8, 2), |d| {
            d.sessions.push([1, 0, 2])
        }),
        changed("first root wrong, second right", (8, 1), |d| {
            d.sessions = vec![[1, 0, 7], [2, 0, 2]];
            d.nodes.push(END);
        }),
        changed("an 8 before a 9 at a lower node", (8, 2), |d| {
            d.nodes = vec![[3, 0, 0], [0, 0, 1]]
        }),
    ]
}

/// A fork with seven binders in each branch, and one above it.
fn two_branches() -> Vec<[u16; 3]> {
    let fork = [1, 11, 0];
    [vec![NEW, fork], binders(7), binders(7)].concat()
}
