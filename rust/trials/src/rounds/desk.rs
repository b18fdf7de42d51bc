//! Files whose threads have much to do with each other in a round.

use crate::desk::add_session;
use crate::juniors;
use crate::rng::Rng;
use second::draft::Draft;
use second::Version;

const END: [u16; 3] = [0, 0, 0];
const REPEAT: [u16; 3] = [2, 0, 0];

/// The most sessions of a file.
pub const SESSIONS: u16 = 32;

/// A file and choices that are all done.
pub type Done = (Draft, Vec<u16>);

/// Three roles of user 1, of which the first sends, the second receives, and the
/// third does both, in versions 2 and 3 often by a chain of juniors alone; and so many
/// channels of user 1. Kind 2 carries channels of kind 1, such as channel 1.
fn tables(rng: &mut Rng, version: Version, channels: u16) -> Draft {
    let mut draft = Draft {
        users: vec![[7], [1]],
        roles: vec![[3, 0, 0, 0], [0, 0, 3, 0], [1, 0, 1, 0]],
        kinds: vec![[0], [1]],
        by_column: version == Version::Three,
        ..Draft::default()
    };
    draft.channels.push([1, 1]);
    for _ in 1..channels {
        draft.channels.push([1, *rng.of(&[1, 1, 1, 2])]);
    }
    if version.has_juniors() {
        draft.juniors = Some(juniors::masks(rng, 3));
        if rng.once_in(2) {
            draft.roles[2] = [0; 4];
            draft.juniors = Some(vec![[0], [1], [2]]);
        }
    }
    draft
}

/// Sessions of a few steps that send and receive on few channels, most of them in
/// a role that permits it, and hand on what they have in turn.
pub fn relay(rng: &mut Rng, version: Version, most: u16) -> Draft {
    let channels = rng.from(1, 4);
    let mut draft = tables(rng, version, channels);
    for _ in 0..rng.from(2, most) {
        let few = *rng.of(&[1, 2, 3, 4, 6]);
        let mask = *rng.of(&[7, 7, few]);
        let user = if mask == 1 { rng.from(1, 2) } else { 1 };
        let root = draft.nodes.len() as u16 + 1;
        draft.sessions.push([user, mask, root]);
        if user == 1 && rng.once_in(12) {
            draft.nodes.extend(own_channel(root));
            continue;
        }
        let steps = rng.below(6);
        grow(rng, &mut draft, user, steps, 1);
    }
    draft
}

/// Makes a channel, and sends on it in one branch to the other.
fn own_channel(root: u16) -> [[u16; 3]; 7] {
    let (fork, compare) = ([1, root + 4, 0], [4, 513, 2]);
    let (send, receive) = ([6, 512, 2], [5, 512, 0]);
    [[3, 1, 0], fork, send, END, receive, compare, END]
}

/// A tree of so many steps; below a fork the first branch may have less.
fn grow(rng: &mut Rng, draft: &mut Draft, user: u16, steps: usize, forks: usize) {
    for left in (0..steps).rev() {
        let channel = rng.from(1, draft.channels.len() as u16);
        let [_, kind] = draft.channels[usize::from(channel) - 1];
        let value = if kind == 1 { rng.from(1, 2) } else { 257 };
        let send = [6, 256 + channel, value];
        // What was received is often handed on.
        let handed_on = matches!(draft.nodes.last(), Some([5, ..])) && rng.once_in(2);
        let node = match rng.below(40) {
            _ if handed_on => send,
            0..=14 if user == 1 => [5, 256 + channel, 0],
            // A role that isn't user 2's, mostly.
            0..=5 => [7, rng.from(1, 3), 0],
            15..=27 => send,
            28..=29 => [4, 1, rng.from(1, 2)],
            30..=31 => [7, rng.from(1, 3), 0],
            32 => [8, rng.from(1, 3), 0],
            33..=34 => [3, rng.from(1, 2), 0],
            35..=36 => REPEAT,
            37..=38 if forks > 0 => {
                let fork = draft.nodes.len();
                draft.nodes.push([1, 0, 0]);
                let first = rng.below(left + 1);
                grow(rng, draft, user, first, forks - 1);
                draft.nodes[fork][1] = draft.nodes.len() as u16 + 1;
                return grow(rng, draft, user, left, forks - 1);
            }
            _ => [4, 1, 1],
        };
        draft.nodes.push(node);
    }
    draft.nodes.push(END);
}

/// A relay with a last session that repeats until there are 64
/// threads, or up to three less.
pub fn full_of_threads(rng: &mut Rng, version: Version) -> Done {
    let mut draft = relay(rng, version, 12);
    let own = draft.sessions.len() as u16 + 1;
    let root = draft.nodes.len() as u16 + 1;
    draft.sessions.push([1, 7, root]);
    draft.nodes.push(REPEAT);
    let steps = rng.below(4);
    grow(rng, &mut draft, 1, steps, 1);
    let times = 64 - own - *rng.of(&[0, 0, 0, 1, 2, 3]);
    (draft, [own, 0].repeat(times.into()))
}

/// A relay with a session that makes 64 channels, or one or two less, and others
/// that have one to make.
pub fn full_of_channels(rng: &mut Rng, version: Version) -> Done {
    let mut draft = relay(rng, version, 6);
    for _ in 0..rng.from(1, 4) {
        add_session(&mut draft, 1, &[[3, 1, 0], [4, 1, 1], END]);
    }
    let own = draft.sessions.len() as u16 + 1;
    let eight = [[3, 1, 0]; 8];
    add_session(&mut draft, 1, &[&[REPEAT][..], &eight, &[END]].concat());
    let mut choices = Vec::new();
    let mut missing = *rng.of(&[64, 64, 64, 63, 62]);
    let mut last = own;
    while missing > 0 {
        last += 1;
        choices.extend([own, 0]);
        let making = missing.min(8);
        choices.extend([last, 0].repeat(making));
        missing -= making;
    }
    (draft, choices)
}

/// 32 sessions that fork in two, so that there are 64 threads. Mostly all of them
/// have something to do: a lone step, or a send to another that then has one.
pub fn of_64(rng: &mut Rng, version: Version) -> Done {
    let mut draft = tables(rng, version, 1);
    draft.channels = vec![[1, 1]; SESSIONS.into()];
    let some_idle = rng.once_in(4);
    let meets = rng.below(4);
    for session in 1..=SESSIONS {
        let channel = 256 + session;
        let mut lone = || match rng.below(12) {
            0..=2 => vec![END],
            3..=4 => vec![[7, 1, 0], END],
            5 => vec![[3, 1, 0], END],
            6 if some_idle => vec![[5, channel, 0], END],
            7 if some_idle => vec![REPEAT, END],
            _ => vec![[4, 1, 1], END],
        };
        let [mut one, mut other] = [lone(), lone()];
        if rng.below(4) < meets {
            one = vec![[6, channel, 2], END];
            other.insert(0, [5, channel, 0]);
        }
        add_fork(&mut draft, 7, &one, &other);
    }
    (draft, forks())
}

/// Adds a session of user 1 that starts with these roles and forks at its root.
pub fn add_fork(draft: &mut Draft, mask: u16, one: &[[u16; 3]], other: &[[u16; 3]]) {
    let root = draft.nodes.len() as u16 + 1;
    let fork = [1, root + 1 + one.len() as u16, 0];
    draft.sessions.push([1, mask, root]);
    draft.nodes.push(fork);
    draft.nodes.extend(one);
    draft.nodes.extend(other);
}

/// The choices that have 32 sessions fork at their root.
pub fn forks() -> Vec<u16> {
    (1..=SESSIONS).flat_map(|thread| [thread, 0]).collect()
}
