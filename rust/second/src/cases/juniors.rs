//! Cases of version 2: junior roles.

use super::placing::{nodes, placing as place_case, refused, Due, PlaceCase};
use super::{case, Case, CLEAN, END};
use crate::draft::{set_word, to_bytes, Draft};

/// A head nurse's file, word by word. Role 1, the nurse's, may send on kind 1;
/// role 2, the head nurse's, on kind 2, and role 1 is its junior. User 1 has
/// role 2 alone, and sends on both kinds.
pub const HEAD_NURSE: [u16; 44] = [
    2, 2, 2, 2, 2, 1, 3, 14, 16, 24, 26, 28, 32, 35, 2, 0, 1, 0, 0, 0, 2, 0, 0, 0, 0, 1, 0, 0, 2,
    1, 2, 2, 1, 0, 1, 6, 257, 2, 6, 258, 2, 0, 0, 0,
];

/// What placing makes of it.
const PLACED: [u16; 50] = [
    2, 2, 2, 2, 2, 1, 5, 14, 16, 24, 26, 28, 32, 35, 2, 0, 1, 0, 0, 0, 2, 0, 0, 0, 0, 1, 0, 0, 2,
    1, 2, 2, 1, 0, 1, 7, 2, 0, 6, 257, 2, 6, 258, 2, 8, 2, 0, 0, 0, 0,
];

/// As many roles as there are masks of juniors. Role r may send and receive on
/// kind r, by its own record on no other. Channel r is user 1's, of kind r. User
/// 1 has these roles, user 2 none.
pub fn ladder(assigned: u16, juniors: &[u16], nodes: &[[u16; 3]]) -> Draft {
    let count = juniors.len() as u16;
    let own = |role: u16| {
        let kind = 1u32 << (role - 1);
        let (low, high) = (kind as u16, (kind >> 16) as u16);
        [low, high, low, high]
    };
    Draft {
        users: vec![[assigned], [0]],
        roles: (1..=count).map(own).collect(),
        juniors: Some(juniors.iter().map(|&mask| [mask]).collect()),
        kinds: vec![[0]; juniors.len()],
        channels: (1..=count).map(|kind| [1, kind]).collect(),
        sessions: vec![[1, 0, 1]],
        nodes: nodes.to_vec(),
        ..Draft::default()
    }
}

/// The same as version 1: the grants are those of the records alone.
fn without_juniors(draft: Draft) -> Draft {
    Draft {
        juniors: None,
        ..draft
    }
}

/// Headers of 14 words, and lengths.
pub fn heads() -> Vec<Case> {
    let file = to_bytes(&HEAD_NURSE);
    let cut = |length: usize| file[..length].to_vec();
    let longer = |more: usize| [file.clone(), vec![0; more]].concat();
    let with_word = |name, at, word, answer| {
        let mut file = file.clone();
        set_word(&mut file, at, word);
        case(name, file, answer)
    };
    let none = Draft {
        juniors: Some(vec![]),
        ..Draft::default()
    };
    let mut as_first = file.clone();
    set_word(&mut as_first, 0, 1);
    vec![
        case("2: the head nurse", file.clone(), (13, 1)),
        case("2: one byte", vec![2], (1, 0)),
        case("2: the version alone", vec![2, 0], (1, 0)),
        case("2: 25 bytes", cut(25), (1, 0)),
        case("2: 26 bytes", cut(26), (1, 0)),
        case("514: 26 bytes", vec![2; 26], (2, 0)),
        case(
            "2: 26 bytes of it, all counts out of range",
            [vec![2, 0], vec![255; 24]].concat(),
            (1, 0),
        ),
        case("2: 27 bytes", cut(27), (1, 0)),
        case("2: 28 bytes, the header alone", cut(28), (5, 0)),
        case("2: nothing at all in it", none.bytes(), CLEAN),
        case("2: odd length", longer(1), (1, 0)),
        case("2: one word too many", longer(2), (5, 0)),
        case("2: one word too few", cut(86), (5, 0)),
        case("2: as version 1", as_first, (4, 0)),
        with_word("2: as version 3", 0, 3, (8, 2)),
        with_word("2: 33 users", 1, 33, (3, 0)),
        with_word("2: 17 roles", 2, 17, (3, 0)),
        with_word("2: 33 kinds", 3, 33, (3, 0)),
        with_word("2: 65 channels", 4, 65, (3, 0)),
        with_word("2: 33 sessions", 5, 33, (3, 0)),
        with_word("2: 1,025 nodes", 6, 1_025, (3, 0)),
        with_word("2: first offset 13", 7, 13, (4, 0)),
        with_word("2: the roles' offset", 8, 15, (4, 0)),
        with_word("2: the juniors' offset", 9, 26, (4, 0)),
        with_word("2: the kinds' offset that of the juniors", 10, 24, (4, 0)),
        with_word("2: last offset", 13, 0, (4, 0)),
        with_word("2: a role more, and its junior", 2, 3, (4, 0)),
    ]
}

/// 21, and its turn.
pub fn records() -> Vec<Case> {
    let changed = |name, answer, change: &dyn Fn(&mut Draft)| {
        let mut draft = ladder(7, &[0, 1, 3], &[END]);
        change(&mut draft);
        case(name, draft.bytes(), answer)
    };
    let masks =
        |name, juniors: &[u16], answer| case(name, ladder(1, juniors, &[END]).bytes(), answer);
    let all_lower: Vec<u16> = (0..16).map(|role| (1 << role) - 1).collect();
    let with_last = |mask| [&all_lower[..15], &[mask]].concat();
    // Words 14 and 15 are the users, 16 to 27 three roles, 28 to 30 their
    // juniors, 31 to 33 the kinds, 34 to 39 the channels.
    vec![
        masks("all lower roles are juniors", &all_lower, CLEAN),
        masks("no juniors at all", &[0; 16], CLEAN),
        masks("role 1's junior is role 1", &[1, 0, 0], (21, 28)),
        masks("role 2's junior is role 2", &[0, 2, 0], (21, 29)),
        masks("role 3's juniors, itself among them", &[0, 0, 7], (21, 30)),
        masks("role 1's junior is role 3", &[4, 0, 0], (21, 28)),
        masks("role 2's junior is role 4 of 3", &[0, 8, 0], (21, 29)),
        masks("role 3's junior is role 16 of 3", &[0, 0, 0x8001], (21, 30)),
        masks("role 16's junior is role 16", &with_last(0x8000), (21, 95)),
        masks("two against it", &[0, 8, 4], (21, 29)),
        changed("2: user with role 4 of 3", (6, 15), &|d| d.users[1] = [8]),
        changed("2: role sends on kind 4 of 3", (6, 24), &|d| {
            d.roles[2][0] = 8
        }),
        changed("2: kind carries kind 4 of 3", (6, 33), &|d| {
            d.kinds[2] = [4]
        }),
        changed("2: owner 0", (6, 34), &|d| d.channels[0][0] = 0),
        changed("2: channel of kind 4", (6, 38), &|d| d.channels[2][1] = 4),
        changed("a later 6 before 21", (6, 38), &|d| {
            d.juniors = Some(vec![[1], [2], [4]]);
            d.channels[2][0] = 3;
        }),
        changed("an earlier 6 before 21", (6, 16), &|d| {
            d.juniors = Some(vec![[1], [2], [4]]);
            d.roles[0][3] = 1;
        }),
        changed("a late 21 before 7", (21, 30), &|d| {
            d.juniors = Some(vec![[0], [1], [4]]);
            d.sessions[0][0] = 0;
        }),
        changed("21 before 8", (21, 28), &|d| {
            d.juniors = Some(vec![[16], [0], [0]]);
            d.nodes[0] = [9, 0, 0];
        }),
        changed("2: session of user 3", (7, 1), &|d| d.sessions[0][0] = 3),
        changed("2: a starting role not assigned", (7, 2), &|d| {
            d.sessions.push([2, 1, 2])
        }),
        changed("2: a junior isn't assigned by this", (7, 1), &|d| {
            d.users[0] = [4];
            d.sessions[0][1] = 1;
        }),
        changed("2: a node left over", (8, 2), &|d| d.nodes.push(END)),
        changed("2: on of role 4 of 3", (9, 1), &|d| {
            d.nodes = nodes("on4 end")
        }),
        changed("2: send on a user", (10, 1), &|d| {
            d.nodes = vec![[6, 1, 1], END]
        }),
    ]
}

/// What a role permits by its juniors.
pub fn roles() -> Vec<Case> {
    let of = |name, assigned, juniors: &[u16], names: &str, answer| {
        case(
            name,
            ladder(assigned, juniors, &nodes(names)).bytes(),
            answer,
        )
    };
    let chain = [0, 1, 2, 4];
    let diamond = [0, 1, 1, 6];
    let version_1 = without_juniors(ladder(8, &chain, &nodes("on4 send1 end")));
    let started = Draft {
        sessions: vec![[1, 8, 1]],
        ..ladder(8, &chain, &nodes("send1 receive2 end"))
    };
    let mut high = ladder(0x8000, &[0; 16], &nodes("on16 send17 receive17 end"));
    high.kinds = vec![[0]; 17];
    high.channels = (1..=17).map(|kind| [1, kind]).collect();
    high.roles[0] = [0, 1, 0, 1];
    let chained = Draft {
        juniors: Some((0..16).map(|role| [1 << role >> 1]).collect()),
        ..high.clone()
    };
    vec![
        of("a junior's send", 2, &[0, 1], "on2 send1 end", CLEAN),
        of("a junior's receive", 2, &[0, 1], "on2 receive1 end", CLEAN),
        of("no junior", 2, &[0, 0], "on2 send1 end", (13, 2)),
        of(
            "a chain of four",
            8,
            &chain,
            "on4 send1 receive2 send3 send4 end",
            CLEAN,
        ),
        of(
            "a chain in the midst",
            4,
            &chain,
            "on3 send1 send4 end",
            (13, 3),
        ),
        of(
            "two ways to one junior",
            8,
            &diamond,
            "on4 send1 send2 send3 end",
            CLEAN,
        ),
        of(
            "a junior gets nothing by it",
            3,
            &[0, 1],
            "on1 send2 end",
            (13, 2),
        ),
        of(
            "a junior can't be put on by this",
            2,
            &[0, 1],
            "on1 end",
            (11, 1),
        ),
        of(
            "a junior isn't on by this",
            3,
            &[0, 1],
            "on2 off1 end",
            (12, 2),
        ),
        of(
            "off takes the junior's grants too",
            3,
            &[0, 1],
            "on2 off2 send1 end",
            (13, 3),
        ),
        of(
            "a junior that is on stays",
            3,
            &[0, 1],
            "on1 on2 off2 send1 end",
            CLEAN,
        ),
        case("the same file as version 1", version_1.bytes(), (13, 2)),
        case("a senior from the start", started.bytes(), CLEAN),
        case("kind 17, no junior", high.bytes(), (13, 2)),
        case("kind 17, by a chain of sixteen", chained.bytes(), CLEAN),
    ]
}

/// Placing with juniors.
pub fn placing() -> Vec<PlaceCase> {
    let placed = |name, assigned, juniors: &[u16], from: &str, to: &str, on_steps| {
        let [from, to] = [from, to].map(|names| ladder(assigned, juniors, &nodes(names)).bytes());
        place_case(name, from, Due::Placed(to, on_steps))
    };
    let none = Draft {
        juniors: Some(vec![]),
        ..Draft::default()
    };
    let without = Draft {
        juniors: Some(vec![[0], [0]]),
        ..Draft::of(&to_bytes(&HEAD_NURSE))
    };
    let version_1 = without_juniors(Draft::of(&to_bytes(&HEAD_NURSE)));
    vec![
        place_case(
            "the head nurse",
            to_bytes(&HEAD_NURSE),
            Due::Placed(to_bytes(&PLACED), 1),
        ),
        refused("the head nurse without her junior", without, 15, 1),
        refused("the head nurse in version 1", version_1, 15, 1),
        place_case("2: no sessions", none.bytes(), Due::Placed(none.bytes(), 0)),
        placed(
            "a chain of two: one on step",
            7,
            &[0, 1, 2],
            "send1 send2 send3 end",
            "on3 send1 send2 send3 off3 end",
            1,
        ),
        placed(
            "no chain: three",
            7,
            &[0, 0, 0],
            "send1 send2 send3 end",
            "on1 send1 off1 on2 send2 off2 on3 send3 off3 end",
            3,
        ),
        placed(
            "the junior alone, where it will do",
            7,
            &[0, 1, 2],
            "receive1 end",
            "on1 receive1 off1 end",
            1,
        ),
        placed(
            "the junior isn't assigned",
            4,
            &[0, 1, 2],
            "receive1 end",
            "on3 receive1 off3 end",
            1,
        ),
        placed(
            "a fork of what two juniors permit",
            4,
            &[0, 0, 3],
            "fork4 send1 end receive2 end",
            "on3 fork6 send1 off3 end receive2 off3 end",
            1,
        ),
        placed(
            "a junior, then its senior: the senior throughout",
            3,
            &[0, 1],
            "send1 compare send2 send1 end",
            "on2 send1 compare send2 send1 off2 end",
            1,
        ),
        refused(
            "a junior gets nothing by it",
            ladder(1, &[0, 1], &nodes("send1 send2 end")),
            15,
            2,
        ),
        refused(
            "21 before 14",
            ladder(1, &[0, 2], &nodes("on1 end")),
            21,
            25,
        ),
        refused("2: on", ladder(1, &[0, 1], &nodes("send1 on1 end")), 14, 2),
        refused(
            "2: 1,025 nodes",
            ladder(2, &[0, 1], &nodes(&("send1 ".repeat(1_022) + "end"))),
            16,
            0,
        ),
        placed(
            "2: 1,024 nodes",
            2,
            &[0, 1],
            &("send1 ".repeat(1_021) + "end"),
            &("on2 ".to_string() + &"send1 ".repeat(1_021) + "off2 end"),
            1,
        ),
    ]
}

/// The output that the first word asks for.
pub fn rooms() -> Vec<PlaceCase> {
    let of = |name, file: &[u8], room, due| place_case(name, file.to_vec(), due).with_room(room);
    let refused = |name, file: &[u8], room, number| of(name, file, room, Due::Refused(number, 0));
    let (file, due) = (to_bytes(&HEAD_NURSE), to_bytes(&PLACED));
    let placed = |name, room| of(name, &file, room, Due::Placed(due.clone(), 1));
    vec![
        refused("2: output of 6,874", &file, 6_874, 17),
        refused("2: output of 6,907", &file, 6_907, 17),
        refused("2: no output", &file, 0, 17),
        placed("2: output of 6,908", 6_908),
        placed("2: output of 6,909", 6_909),
        refused("2: one byte has no first word", &[2], 6_880, 1),
        refused("2: one byte, output of 6,873", &[2], 6_873, 17),
        refused("2: two bytes, output of 6,880", &[2, 0], 6_880, 17),
        refused("2: two bytes, output of 6,908", &[2, 0], 6_908, 1),
        refused("2: three bytes, output of 6,907", &[2, 0, 9], 6_907, 17),
        refused("258: output of 6,874", &[2, 1], 6_874, 1),
        refused("512: output of 6,874", &[0, 2], 6_874, 1),
        refused("4: output of 6,874", &[4, 0], 6_874, 1),
        refused("1: output of 6,874", &[1, 0], 6_874, 1),
    ]
}
