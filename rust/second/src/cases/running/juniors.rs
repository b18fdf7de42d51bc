//! Runs, ready pairs and lent lists of version 2.

use super::lent::{done, record, refused as refused_choice, ChooseCase, Lent};
use super::{desk, ends, halts, off, on, receive, refused, send, thread, RunCase, Session};
use crate::cases::END;
use crate::draft::Draft;

/// The desk with roles 1 and 2 as juniors of role 3, which has no other grant
/// on kinds 1, 2 and 17; or, in a chain, role 1 of role 2, and that of role 3.
pub fn seniors(chain: bool, sessions: &[Session]) -> Draft {
    let juniors = if chain {
        [[0], [1], [2]]
    } else {
        [[0], [0], [3]]
    };
    Draft {
        juniors: Some(juniors.to_vec()),
        ..desk(sessions)
    }
}

/// One session sends on a channel, another receives, in these roles.
pub fn meeting(chain: bool, sends: u16, receives: u16, channel: u16) -> Draft {
    let sender = [send(channel, 3), END];
    let receiver = [receive(channel), END];
    seniors(chain, &[(1, sends, &sender), (2, receives, &receiver)])
}

/// Role 2's junior is role 2 itself.
pub fn against_21() -> Vec<u8> {
    let mut draft = meeting(false, 4, 4, 257);
    draft.juniors = Some(vec![[0], [2], [0]]);
    draft.bytes()
}

/// The threads of a meeting, before and after it.
fn before(sends: u16, receives: u16) -> [Vec<u16>; 2] {
    [
        thread(1, 1, sends, sends.count_ones() as u16, &[]),
        thread(2, 3, receives, receives.count_ones() as u16, &[]),
    ]
}

fn after(sends: u16, receives: u16) -> [Vec<u16>; 2] {
    [
        thread(1, 2, sends, sends.count_ones() as u16, &[]),
        thread(2, 4, receives, receives.count_ones() as u16, &[3]),
    ]
}

pub fn runs() -> Vec<RunCase> {
    let met = |name, chain, sends, receives, channel| {
        let file = meeting(chain, sends, receives, channel);
        ends(name, &file, &[[1, 2]], &[], &after(sends, receives), (0, 0))
    };
    let ready = |name, chain, sends, receives, pair| {
        let file = meeting(chain, sends, receives, 257);
        ends(name, &file, &[], &[], &before(sends, receives), pair)
    };
    let halted = |name, chain, sends, receives| {
        let file = meeting(chain, sends, receives, 257);
        halts(
            name,
            &file,
            &[[1, 2]],
            (0, 13),
            &[],
            &before(sends, receives),
        )
    };
    let switches = seniors(false, &[(1, 4, &[on(1), off(1), off(2), END])]);
    let lacks = Draft {
        users: vec![[4], [7], [0]],
        ..seniors(false, &[(1, 4, &[on(1), END])])
    };
    vec![
        met("seniors send and receive", false, 4, 4, 257),
        met("seniors on a channel of kind 17", false, 4, 4, 261),
        met("a chain sends", true, 4, 2, 257),
        met("a chain receives", true, 2, 4, 257),
        ready("a ready pair by juniors", false, 4, 4, (1, 2)),
        ready("a ready pair by a chain", true, 4, 4, (1, 2)),
        ready("a junior alone does not send", true, 0, 4, (0, 0)),
        ready("a junior alone does not receive", true, 4, 1, (0, 0)),
        halted("no role, though it would be a junior", false, 0, 4),
        halted("a junior does not receive by its senior", true, 4, 1),
        halts(
            "the junior put on goes off once",
            &switches,
            &[[1, 0], [1, 0], [1, 0]],
            (2, 12),
            &[],
            &[thread(1, 3, 4, 1, &[])],
        ),
        halts(
            "a junior can't be put on",
            &lacks,
            &[[1, 0]],
            (0, 11),
            &[],
            &[thread(1, 1, 4, 1, &[])],
        ),
        refused("a refusal of 21", against_21(), vec![1, 2], (21, 30)),
        refused("17 before 21", against_21(), vec![1], (17, 0)),
    ]
}

pub fn choices() -> Vec<ChooseCase> {
    let lent = |masks: [u16; 2], nodes: [u16; 2], bound: &[u16]| {
        let threads = [
            record(1, nodes[0], masks[0], &[]),
            record(2, nodes[1], masks[1], bound),
        ];
        Lent::of(&threads, &[])
    };
    let met = |name, chain, masks: [u16; 2]| {
        let file = meeting(chain, 0, 0, 257);
        let after = lent(masks, [2, 4], &[3]);
        done(name, &file, [1, 2], lent(masks, [1, 3], &[]), after)
    };
    let not_met = |name, chain, masks: [u16; 2]| {
        let file = meeting(chain, 0, 0, 257).bytes();
        refused_choice(name, file, [1, 2], lent(masks, [1, 3], &[]), (13, 1))
    };
    let mut junior = meeting(false, 0, 0, 257);
    junior.users[0] = [4];
    vec![
        met("lent: seniors send and receive", false, [4, 4]),
        met("lent: a chain sends and receives", true, [4, 4]),
        met("lent: a junior sends", true, [1, 2]),
        not_met("lent: a junior does not receive", true, [1, 1]),
        not_met("lent: a role without this junior", false, [2, 4]),
        refused_choice(
            "lent: a junior that isn't assigned",
            junior.bytes(),
            [1, 2],
            lent([1, 4], [1, 3], &[]),
            (18, 0),
        ),
        refused_choice(
            "lent: 21 before 18",
            against_21(),
            [9, 9],
            Lent::of(&[record(9, 9, 9, &[9; 8])], &[]),
            (21, 30),
        ),
    ]
}
