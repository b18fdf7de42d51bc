//! Cases of placing.

use super::BOOKING;
use crate::draft::{to_bytes, Draft};
use crate::{room_for, Placed};

/// A file, the length of the output, and what placing does with them.
pub struct PlaceCase {
    pub name: &'static str,
    pub file: Vec<u8>,
    pub room: usize,
    pub due: Due,
}

/// What is due: a refusal's number and place, or the placed file and its on
/// steps.
pub enum Due {
    Refused(u16, u16),
    Placed(Vec<u8>, u16),
}

impl PlaceCase {
    fn answer(&self) -> Placed {
        match &self.due {
            &Due::Refused(number, place) => Placed::refused(number, place),
            Due::Placed(file, on_steps) => Placed::written(file.len() as u16, *on_steps),
        }
    }

    /// Fails unless `place` gives the answer that is due and leaves the output
    /// as it should be, whatever that held before.
    pub fn demand(&self, who: &str, place: impl Fn(&[u8], &mut [u8]) -> Placed) {
        let name = self.name;
        for fill in [0, 0xa5] {
            let mut due = vec![fill; self.room];
            if let Due::Placed(file, _) = &self.due {
                due[..file.len()].copy_from_slice(file);
            }
            let mut out = vec![fill; self.room];
            assert_eq!(place(&self.file, &mut out), self.answer(), "{who}: {name}");
            let differs = out.iter().zip(&due).position(|(byte, due)| byte != due);
            assert_eq!(differs, None, "{who}: a byte of the output of {name}");
        }
    }

    /// Fails unless `measure` gives the answer that is due in an output that is
    /// long enough, where this one is.
    pub fn demand_measured(&self, who: &str, measure: impl Fn(&[u8]) -> Placed) {
        if self.room >= room_for(&self.file) {
            let answer = measure(&self.file);
            assert_eq!(answer, self.answer(), "{who}: {} measured", self.name);
        }
    }

    pub fn with_room(self, room: usize) -> PlaceCase {
        PlaceCase { room, ..self }
    }
}

/// Nodes by name, with a number where the name takes one: a kind for `new`,
/// the channel of that kind for `send` and `receive`, a role for `on` and
/// `off`, the second child for `fork`.
pub fn nodes(names: &str) -> Vec<[u16; 3]> {
    names.split_whitespace().map(node).collect()
}

fn node(name: &str) -> [u16; 3] {
    let word = name.trim_end_matches(|c: char| c.is_ascii_digit());
    let number = name[word.len()..].parse().unwrap_or(0);
    match word {
        "end" => [0, 0, 0],
        "fork" => [1, number, 0],
        "repeat" => [2, 0, 0],
        "new" => [3, number, 0],
        "compare" => [4, 1, 1],
        "receive" => [5, 256 + number, 0],
        "send" => [6, 256 + number, 1],
        "on" => [7, number, 0],
        "off" => [8, number, 0],
        _ => panic!("no node: {name}"),
    }
}

/// Kind k, of 1 to 7, may be used by the roles whose bits are in k. On kind 8
/// role 1 may receive, on kind 9 role 2 may send, on kind 17 role 3 may do
/// both; nothing else is granted. Channel k is user 1's, of kind k. User 1 has
/// all three roles, user 2 has role 2, user 3 none.
fn shared(sessions: &[[u16; 3]], names: &str) -> Draft {
    Draft {
        users: vec![[7], [2], [0]],
        roles: vec![
            [0x055, 0, 0x0d5, 0],
            [0x166, 0, 0x066, 0],
            [0x078, 1, 0x078, 1],
        ],
        kinds: vec![[0]; 17],
        channels: (1..=17).map(|kind| [1, kind]).collect(),
        sessions: sessions.to_vec(),
        nodes: nodes(names),
        ..Draft::default()
    }
}

/// One session of user 1, which starts with this mask.
fn started(start: u16, names: &str) -> Draft {
    shared(&[[1, start, 1]], names)
}

/// One session of user 1.
fn desk(names: &str) -> Draft {
    started(0, names)
}

/// In an output that is just long enough.
pub fn placing(name: &'static str, file: Vec<u8>, due: Due) -> PlaceCase {
    PlaceCase {
        name,
        room: room_for(&file),
        file,
        due,
    }
}

/// A tree of user 1, and the tree that it becomes.
fn placed(name: &'static str, from: &str, to: &str, on_steps: u16) -> PlaceCase {
    let due = Due::Placed(desk(to).bytes(), on_steps);
    placing(name, desk(from).bytes(), due)
}

/// A tree of user 1 that stays as it is.
fn same(name: &'static str, names: &str) -> PlaceCase {
    placed(name, names, names, 0)
}

pub fn refused(name: &'static str, file: Draft, number: u16, place: u16) -> PlaceCase {
    placing(name, file.bytes(), Due::Refused(number, place))
}

/// The cases that the paper stars, as far as they concern placing.
pub fn starred() -> Vec<PlaceCase> {
    let bare = Draft {
        users: vec![[0]],
        kinds: vec![[0]],
        sessions: vec![[1, 0, 1]],
        nodes: nodes("new1 end"),
        ..Draft::default()
    };
    vec![
        booking(),
        placed(
            "a fork of two {2} sends",
            "fork4 send2 end send2 end",
            "on2 fork6 send2 off2 end send2 off2 end",
            1,
        ),
        placed(
            "{1}, {2}, {1}",
            "send1 send2 send1 end",
            "on1 send1 off1 on2 send2 off2 on1 send1 off1 end",
            3,
        ),
        placed("{1,2} alone", "send3 end", "on1 send3 off1 end", 1),
        placed(
            "{1}, compare, {1}",
            "send1 compare send1 end",
            "on1 send1 compare send1 off1 end",
            1,
        ),
        placed(
            "{1}, compare, {2}",
            "send1 compare send2 end",
            "on1 send1 off1 compare on2 send2 off2 end",
            2,
        ),
        placing("no roles, new", bare.bytes(), Due::Placed(bare.bytes(), 0)),
        refused("send, no role", shared(&[[3, 0, 1]], "send7 end"), 15, 1),
    ]
}

/// The booking of the paper, word by word, and its 94 bytes.
fn booking() -> PlaceCase {
    let nodes = [7, 2, 0, 6, 257, 2, 6, 258, 2, 8, 2, 0, 0, 0, 0];
    let mut words = [&BOOKING[..32], &nodes].concat();
    words[6] = 5;
    let due = Due::Placed(to_bytes(&words), 1);
    placing("the booking", to_bytes(&BOOKING), due)
}

/// Which states are taken among those with the fewest on steps, in a chain: those
/// with the fewest idle nodes in a role, and then the smallest.
pub fn chains() -> Vec<PlaceCase> {
    vec![
        same("a lone end", "end"),
        same("no role asked for", "compare repeat new1 end"),
        placed(
            "{1,2} and {2} by one role",
            "send3 send2 end",
            "on2 send3 send2 off2 end",
            1,
        ),
        placed(
            "{2}, {1,2}: role 2 is kept",
            "send2 send3 end",
            "on2 send2 send3 off2 end",
            1,
        ),
        placed(
            "{1,2}, {2,3}, {3}: 1, 3, 3",
            "send3 send6 send4 end",
            "on1 send3 off1 on3 send6 send4 off3 end",
            2,
        ),
        placed(
            "{2}, {1,2}, {1}: 2, 1, 1",
            "send2 send3 send1 end",
            "on2 send2 off2 on1 send3 send1 off1 end",
            2,
        ),
        placed(
            "{1}, {1,2}, {2}: 1, 1, 2",
            "send1 send3 send2 end",
            "on1 send1 send3 off1 on2 send2 off2 end",
            2,
        ),
        placed(
            "{1,2}, {1,2,3}, {2,3}: role 2 throughout",
            "send3 send7 send6 end",
            "on2 send3 send7 send6 off2 end",
            1,
        ),
        placed(
            "{1,2}, idle, {2,3}: the role of both is kept",
            "send3 compare new1 send6 end",
            "on2 send3 compare new1 send6 off2 end",
            1,
        ),
        placed(
            "{2}, idle, {1,2}, idle, {1}: 2, 0, 1, 1, 1",
            "send2 compare send3 compare send1 end",
            "on2 send2 off2 compare on1 send3 compare send1 off1 end",
            2,
        ),
        placed(
            "{2}, idle, {1,2}, two idle, {1}: 2, 2, 2, 0, 0, 1",
            "send2 compare send3 repeat compare send1 end",
            "on2 send2 compare send3 off2 repeat compare on1 send1 off1 end",
            2,
        ),
        placed(
            "idle nodes before and behind have no role",
            "compare repeat receive4 new1 compare end",
            "compare repeat on3 receive4 off3 new1 compare end",
            1,
        ),
        placed(
            "a receive goes by what may be received",
            "receive8 end",
            "on1 receive8 off1 end",
            1,
        ),
        placed(
            "a kind above 16",
            "receive17 send17 end",
            "on3 receive17 send17 off3 end",
            1,
        ),
        placed(
            "a variable of the kind named: operand 512",
            "new17 send256 receive256 end",
            "new17 on3 send256 receive256 off3 end",
            1,
        ),
        placed(
            "eight variables",
            &format!("{} receive3 end", "new1 ".repeat(7)),
            &format!("{} on1 receive3 off1 end", "new1 ".repeat(7)),
            1,
        ),
    ]
}

/// Forks, and several sessions.
pub fn forks() -> Vec<PlaceCase> {
    let empty = Draft::default().bytes();
    let from = shared(
        &[[1, 0, 1], [3, 0, 4], [2, 0, 6], [1, 0, 8]],
        "send4 send3 end  compare end  send3 end  send3 end",
    );
    let to = shared(
        &[[1, 0, 1], [3, 0, 8], [2, 0, 10], [1, 0, 14]],
        "on3 send4 off3 on1 send3 off1 end  compare end  on2 send3 off2 end  on1 send3 off1 end",
    );
    vec![
        same("a fork of ends", "fork3 end end"),
        placed(
            "branches with different roles",
            "fork4 send1 end send2 end",
            "fork6 on1 send1 off1 end on2 send2 off2 end",
            2,
        ),
        placed(
            "branches with one role in common",
            "fork4 send3 end send6 end",
            "on2 fork6 send3 off2 end send6 off2 end",
            1,
        ),
        placed(
            "one branch alone asks for a role",
            "fork3 end send1 end",
            "fork3 end on1 send1 off1 end",
            1,
        ),
        placed(
            "a second child behind off",
            "send1 fork5 send1 end end",
            "on1 send1 fork7 send1 off1 end off1 end",
            1,
        ),
        placed(
            "a second child behind off and on",
            "send1 fork5 send1 end send2 end",
            "on1 send1 fork7 send1 off1 end off1 on2 send2 off2 end",
            2,
        ),
        placed(
            "a role for both branches, though another is on above",
            "send2 fork5 send1 end send3 end",
            "on2 send2 off2 on1 fork9 send1 off1 end send3 off1 end",
            2,
        ),
        placed(
            "a fork in a fork",
            "fork7 fork5 send1 end send1 end send2 end",
            "fork10 on1 fork7 send1 off1 end send1 off1 end on2 send2 off2 end",
            2,
        ),
        placed(
            "five compares in a branch without the role that is on behind them",
            "fork11 send2 send3 compare compare compare compare compare send1 end end",
            "fork15 on2 send2 send3 off2 compare compare compare compare compare on1 send1 off1 \
             end end",
            2,
        ),
        placed(
            "role 2 at two forks, where role 1 would be at a fork and two compares",
            "send3 fork7 compare compare send1 end fork10 send2 end end",
            "on2 send3 fork11 off2 compare compare on1 send1 off1 end fork15 send2 off2 end off2 \
             end",
            2,
        ),
        placed(
            "role 1 at a fork and a compare, as role 2 would be at two forks",
            "send3 fork6 compare send1 end fork9 send2 end end",
            "on1 send3 fork8 compare send1 off1 end off1 fork14 on2 send2 off2 end end",
            2,
        ),
        placing("no sessions", empty.clone(), Due::Placed(empty, 0)),
        placing("several sessions", from.bytes(), Due::Placed(to.bytes(), 4)),
    ]
}

/// The refusals and their order.
pub fn refusals() -> Vec<PlaceCase> {
    let byte = |number| placing("one byte", vec![1], Due::Refused(number, 0));
    let nine = format!("{} receive3 end", "new1 ".repeat(8));
    vec![
        byte(1),
        byte(17).with_room(0),
        byte(17).with_room(6_873),
        refused("17 before 14", started(1, "end"), 17, 0).with_room(6_873),
        refused("17, though it would fit", desk("end"), 17, 0).with_room(6_873),
        booking().with_room(6_875),
        booking().with_room(10_000),
        refused("nine variables", desk(&nine), 8, 9),
        refused("8 before 14", started(1, "on1"), 8, 2),
        refused("a late 9 before 14", started(1, "on1 on4 end"), 9, 2),
        refused(
            "a late 10 before 14",
            Draft {
                kinds: vec![[1]; 17],
                ..started(1, "on1 send1 end")
            },
            10,
            2,
        ),
        refused("a late 9 before 15", desk("send8 send18 end"), 9, 2),
        refused("a starting mask", started(2, "end"), 14, 0),
        refused("a mask before an on", started(1, "on1 end"), 14, 0),
        refused(
            "a mask of the last session",
            shared(&[[1, 0, 1], [2, 2, 3]], "on1 end end"),
            14,
            0,
        ),
        refused("on", desk("on1 end"), 14, 1),
        refused("off of what is not on", desk("off1 end"), 14, 1),
        refused(
            "on of a role not assigned",
            shared(&[[3, 0, 1]], "on1 end"),
            14,
            1,
        ),
        refused("off, then on", desk("compare off1 on1 end"), 14, 2),
        refused("on in a second branch", desk("fork3 end on1 end"), 14, 3),
        refused("a late 14 before 15", desk("send8 compare on1 end"), 14, 3),
        refused(
            "15 at its lowest node",
            desk("send1 compare receive9 send8 end"),
            15,
            3,
        ),
        refused("15 of a send", desk("send8 end"), 15, 1),
        refused("15 of a receive", desk("receive9 end"), 15, 1),
        refused(
            "a role that this user lacks",
            shared(&[[1, 0, 1], [2, 0, 3]], "send1 end send5 end"),
            15,
            3,
        ),
        refused(
            "15 in a second branch",
            desk("fork4 send1 end send10 end"),
            15,
            4,
        ),
        refused(
            "15 before 16",
            desk(&format!("{} send8 end", "send1 send2 ".repeat(511))),
            15,
            1_023,
        ),
    ]
}

/// Results about as large as can be.
pub fn sizes() -> Vec<PlaceCase> {
    let idle = |count, rest: &str| "compare ".repeat(count) + rest;
    let turns = |pairs, rest: &str| "send1 send2 ".repeat(pairs) + rest;
    let placed_turns = |pairs, rest: &str| {
        let pair = "on1 send1 off1 on2 send2 off2 ";
        pair.repeat(pairs) + rest
    };
    let stay = |count| "send1 ".repeat(count) + "end";
    vec![
        same("1,024 nodes that stay", &idle(1_023, "end")),
        placed(
            "1,024 nodes from 342",
            &turns(170, "send1 end"),
            &placed_turns(170, "on1 send1 off1 end"),
            341,
        ),
        refused(
            "1,025 nodes from 343",
            desk(&turns(170, "send1 compare end")),
            16,
            0,
        ),
        placed(
            "1,024 nodes from 1,022",
            &stay(1_021),
            &format!("on1 {} off1 end", "send1 ".repeat(1_021)),
            1,
        ),
        refused("1,025 nodes from 1,023", desk(&stay(1_022)), 16, 0),
        refused(
            "3,070 nodes from 1,024",
            desk(&turns(511, "send1 end")),
            16,
            0,
        ),
        placed(
            "1,024 nodes by the fewest idle nodes, where the smallest list has 1,025",
            &idle(1_011, SHORTER),
            &idle(1_011, PLACED_SHORTER),
            2,
        ),
        refused(
            "1,025 nodes by the fewest idle nodes, where the smallest list has 1,024",
            desk(&idle(1_009, LONGER)),
            16,
            0,
        ),
    ]
}

/// Role 1 or role 2 at the first send, with 2 on steps either way. Role 1 is
/// the smaller, and is then on at both forks; with role 2 the inner fork has
/// none, and the result is one node less. It stands behind 1,011 nodes.
const SHORTER: &str = "send3 fork1018 fork1017 send1 end end send2 end";

/// What that becomes.
const PLACED_SHORTER: &str =
    "on2 send3 fork1022 off2 fork1021 on1 send1 off1 end end send2 off2 end";

/// Role 1 or role 2 at the first send, with 2 on steps either way. Role 1 is
/// on at a fork and two compares; with role 2 both forks have it, and the
/// result is one node more. It stands behind 1,009 nodes.
const LONGER: &str = "send3 fork1016 compare compare send1 end fork1019 send2 end end";
