//! Files to be run: mostly clean by 1 to 10, with threads that can meet.

use crate::aim::insert;
use crate::bare::{grant_few, lively_bare};
use crate::change;
use crate::deal::deal;
use crate::grow::{grow, Bent, Heed, VARIABLES};
use crate::juniors;
use crate::rng::Rng;
use crate::schema::{schema, Size};
use second::draft::Draft;
use second::{Version, ROOM};

const END: [u16; 3] = [0, 0, 0];
const REPEAT: [u16; 3] = [2, 0, 0];

/// What a file is good for.
#[derive(Clone, Copy, PartialEq)]
pub enum Use {
    /// Anything.
    Any,
    /// On and off that rule 5 refuses.
    Roles,
    /// Sends and receives that rule 6 refuses.
    Permission,
    /// The most threads and channels possible.
    Crowd,
}

/// A file of this version for a run; some damaged ones have another.
pub fn deal_desk(rng: &mut Rng, version: Version, good_for: Use) -> Vec<u8> {
    match good_for {
        Use::Any => any(rng, version),
        Use::Roles => {
            let mut draft = lively(rng, version, Heed::Active);
            for _ in 0..=rng.below(4) {
                put_in_roles(rng, &mut draft);
            }
            draft.bytes()
        }
        Use::Permission => heedless(rng, version).bytes(),
        Use::Crowd => crowd(rng, version).bytes(),
    }
}

fn any(rng: &mut Rng, version: Version) -> Vec<u8> {
    match rng.below(20) {
        0..=7 => lively(rng, version, Heed::Active).bytes(),
        8..=9 => heedless(rng, version).bytes(),
        10..=12 => crowd(rng, version).bytes(),
        13..=14 => {
            let heed = *rng.of(&[Heed::Active, Heed::Active, Heed::Nothing]);
            let size = Size::any(rng);
            grown(rng, version, size, heed).bytes()
        }
        15..=16 => {
            placed(rng, version).unwrap_or_else(|| lively(rng, version, Heed::Active).bytes())
        }
        17 => {
            let mut file = lively(rng, version, Heed::Active).bytes();
            change::one_word(rng, &mut file);
            file
        }
        18 => {
            let mut file = lively(rng, version, Heed::Active).bytes();
            change::any_bytes(rng, &mut file);
            file
        }
        _ => deal(version, rng.number(), rng.number()),
    }
}

/// A file of which placing made something.
fn placed(rng: &mut Rng, version: Version) -> Option<Vec<u8>> {
    let mut out = [0; ROOM];
    let placed = second::place(&lively_bare(rng, version).bytes(), &mut out);
    (placed.number == 0).then(|| out[..placed.length.into()].to_vec())
}

/// Several sessions, and few channels for them to meet on.
pub fn lively_size(rng: &mut Rng) -> Size {
    let sessions = rng.from(2, 7);
    let most = *rng.of(&[60, 60, 60, 150]);
    Size {
        users: rng.from(1, 3),
        roles: rng.from(1, 4),
        kinds: rng.from(1, 4),
        channels: rng.from(1, 5),
        sessions,
        nodes: sessions + rng.from(6, most),
    }
}

/// Lets every kind be used, mostly by all users, and most kinds carry the one
/// before them.
pub fn open_up(rng: &mut Rng, draft: &mut Draft) {
    grant_few(rng, draft);
    if draft.juniors.is_some() && !rng.once_in(3) {
        juniors::promote(rng, draft);
    }
    for (at, kind) in draft.kinds.iter_mut().enumerate() {
        if !rng.once_in(4) {
            *kind = [at as u16];
        }
    }
}

fn lively(rng: &mut Rng, version: Version, heed: Heed) -> Draft {
    let size = lively_size(rng);
    let mut draft = schema(rng, version, size);
    if !rng.once_in(4) {
        open_up(rng, &mut draft);
    }
    let bent = Bent::any(rng);
    grow(rng, &mut draft, size.nodes, bent, heed, None);
    for _ in 0..rng.below(4) {
        put_in_talk(rng, &mut draft, heed);
    }
    if rng.once_in(2) {
        let root = root(rng, &draft);
        insert(&mut draft, root, &[REPEAT]);
    }
    draft
}

fn grown(rng: &mut Rng, version: Version, size: Size, heed: Heed) -> Draft {
    let mut draft = schema(rng, version, size);
    let bent = Bent::any(rng);
    grow(rng, &mut draft, size.nodes, bent, heed, None);
    draft
}

/// Sends and receives that ignore roles. Most sessions start with all that
/// their user has, and some roles are put on and off.
fn heedless(rng: &mut Rng, version: Version) -> Draft {
    let mut draft = lively(rng, version, Heed::Nothing);
    for at in 0..draft.sessions.len() {
        let [user, start, _] = &mut draft.sessions[at];
        if rng.once_in(2) {
            [*start] = draft.users[usize::from(*user) - 1];
        }
    }
    for _ in 0..rng.below(3) {
        let Some(role) = role(rng, &draft) else { break };
        let at = rng.below(draft.nodes.len());
        insert(&mut draft, at, &[[*rng.of(&[7, 8]), role, 0]]);
    }
    draft
}

/// A role of the file.
fn role(rng: &mut Rng, draft: &Draft) -> Option<u16> {
    let roles = draft.roles.len() as u16;
    (roles > 0).then(|| rng.from(1, roles))
}

/// The index of a session's root.
fn root(rng: &mut Rng, draft: &Draft) -> usize {
    let [_, _, root] = *rng.of(&draft.sessions);
    usize::from(root) - 1
}

/// Two trees beside others: one sends on a channel, the other receives. Where
/// it carries channels, the first makes one and sends that, and the other
/// answers on it.
pub fn put_in_talk(rng: &mut Rng, draft: &mut Draft, heed: Heed) {
    let owned_by = |owner: u16| move |session: &[u16; 3]| session[0] == owner;
    let Some(at) = rng.find(&draft.channels, |&[owner, _]| {
        draft.sessions.iter().any(owned_by(owner))
    }) else {
        return;
    };
    let [owner, kind] = draft.channels[at];
    let channel = 257 + at as u16;
    let from = rng.below(draft.sessions.len());
    let to = rng.find(&draft.sessions, owned_by(owner));
    let to = to.expect("the owner has a session");
    let mut sends = beginning(rng, draft, from, heed);
    let mut receives = beginning(rng, draft, to, heed);
    let user = rng.from(1, draft.users.len() as u16);
    receives.push([5, channel, 0]);
    match draft.kinds[usize::from(kind) - 1] {
        [0] => {
            sends.push([6, channel, user]);
            receives.push([4, 512, *rng.of(&[512, 512, user, 1])]);
        }
        [made] => {
            sends.extend([[3, made, 0], [6, channel, 512], [5, 512, 0]]);
            let mut of_kind = |kind| rng.find(&draft.channels, |channel| channel[1] == kind);
            let answer = match draft.kinds[usize::from(made) - 1] {
                [0] => Some(user),
                [carried] if carried == made => Some(512),
                [carried] => of_kind(carried).map(|at| 257 + at as u16),
            };
            receives.extend(answer.map(|answer| [6, 512, answer]));
        }
    }
    for (session, mut tree) in [(from, sends), (to, receives)] {
        tree.push(END);
        let [_, _, root] = draft.sessions[session];
        put_beside(draft, usize::from(root) - 1, &tree);
    }
}

/// What a tree of a session starts with: perhaps a repeat, and on for all roles
/// of its user, if active roles matter.
fn beginning(rng: &mut Rng, draft: &Draft, session: usize, heed: Heed) -> Vec<[u16; 3]> {
    let [user, _, _] = draft.sessions[session];
    let [assigned] = draft.users[usize::from(user) - 1];
    let mut tree = Vec::new();
    if rng.once_in(2) {
        tree.push(REPEAT);
    }
    if heed == Heed::Active {
        let roles = (1..=16).filter(|role| assigned >> (role - 1) & 1 != 0);
        tree.extend(roles.map(|role| [7, role, 0]));
    }
    tree
}

/// A tree beside another that puts any roles on and off.
fn put_in_roles(rng: &mut Rng, draft: &mut Draft) {
    let mut tree = Vec::new();
    for _ in 0..=rng.below(3) {
        if let Some(role) = role(rng, draft) {
            tree.push([*rng.of(&[7, 8]), role, 0]);
        }
    }
    tree.push(END);
    let at = root(rng, draft);
    put_beside(draft, at, &tree);
}

/// Trees of repeats, forks and new channels beside the others, often as soon
/// as a session starts.
fn crowd(rng: &mut Rng, version: Version) -> Draft {
    let mut draft = lively(rng, version, Heed::Active);
    for _ in 0..=rng.below(3) {
        let kinds = draft.kinds.len() as u16;
        let new = [3, rng.from(1, kinds), 0];
        let tree = match rng.below(6) {
            0 => vec![REPEAT, END],
            1 => vec![REPEAT, [1, 3, 0], END, END],
            2 => vec![REPEAT, new, new, END],
            3 => vec![REPEAT, new, [1, 4, 0], END, new, END],
            4 => [&[new; VARIABLES][..], &[REPEAT, [1, 11, 0], END, END]].concat(),
            _ => vec![REPEAT, new, END],
        };
        let at = if rng.once_in(3) {
            rng.below(draft.nodes.len())
        } else {
            root(rng, &draft)
        };
        put_beside(&mut draft, at, &tree);
    }
    draft
}

/// Puts a fork in front of the node at index `at`, with the tree as its first
/// branch. A fork in the tree has its second child's index there.
fn put_beside(draft: &mut Draft, at: usize, tree: &[[u16; 3]]) {
    let start = at as u16 + 2;
    let mut nodes = vec![[1, start + tree.len() as u16, 0]];
    nodes.extend(tree.iter().map(|&node| match node {
        [1, second, _] => [1, start + second, 0],
        node => node,
    }));
    insert(draft, at, &nodes);
}

/// How many pairs of sessions of [`busy_desk`] meet on a channel of the file,
/// and how many on one that is made.
const PAIRS: u16 = 6;
const MAKING_PAIRS: u16 = 4;

/// Sessions that send to each other for ever, each time by a new thread that
/// puts its role on and off. User 1 sends, user 2 receives and makes channels.
pub fn busy_desk() -> Draft {
    let mut draft = Draft {
        users: vec![[7], [7]],
        roles: vec![[1, 0, 0, 0], [0, 0, 1, 0], [2, 0, 2, 0]],
        kinds: vec![[0], [1]],
        ..Draft::default()
    };
    for _ in 0..PAIRS {
        let channel = channel_of(&mut draft, 2, 1);
        add_session(&mut draft, 1, &sending(channel, &[]));
        add_session(&mut draft, 2, &receiving(channel, 512, &[]));
    }
    for _ in 0..MAKING_PAIRS {
        let channel = channel_of(&mut draft, 1, 2);
        let receive = [[7, 3, 0], [5, channel, 0]];
        add_session(&mut draft, 1, &sending(512, &receive));
        let make = [[3, 1, 0], [7, 3, 0], [6, channel, 512]];
        add_session(&mut draft, 2, &receiving(512, 513, &make));
    }
    draft
}

/// Sends three times.
fn sending(channel: u16, first: &[[u16; 3]]) -> Vec<[u16; 3]> {
    let send = [6, channel, 2];
    let each = [REPEAT, [7, 1, 0], send, send, send, [8, 1, 0], END];
    [first, &each].concat()
}

/// Receives three times. The first value is `variable`, and is user 2.
fn receiving(channel: u16, variable: u16, first: &[[u16; 3]]) -> Vec<[u16; 3]> {
    let (receive, compare) = ([5, channel, 0], [4, variable, 2]);
    let thrice = [receive, compare, receive, receive];
    [first, &[REPEAT, [7, 2, 0]], &thrice, &[[8, 2, 0], END]].concat()
}

/// The operand of one more channel.
fn channel_of(draft: &mut Draft, owner: u16, kind: u16) -> u16 {
    draft.channels.push([owner, kind]);
    256 + draft.channels.len() as u16
}

/// Adds a session that starts with no role.
pub fn add_session(draft: &mut Draft, user: u16, tree: &[[u16; 3]]) {
    let root = draft.nodes.len() as u16 + 1;
    draft.sessions.push([user, 0, root]);
    draft.nodes.extend(tree);
}

/// Brings every count to its largest. The sessions that are added do nothing: they
/// compare users 1 and 2.
pub fn fill_up(draft: &mut Draft) {
    let Size {
        users,
        roles,
        kinds,
        channels,
        sessions,
        nodes,
    } = Size::FULL;
    draft.users.resize(users.into(), [7]);
    draft.roles.resize(roles.into(), [0; 4]);
    if let Some(juniors) = &mut draft.juniors {
        juniors.resize(roles.into(), [0]);
    }
    draft.kinds.resize(kinds.into(), [0]);
    draft.channels.resize(channels.into(), [1, 1]);
    let mut left = usize::from(nodes) - draft.nodes.len();
    for more in (1..=usize::from(sessions) - draft.sessions.len()).rev() {
        let size = left / more;
        left -= size;
        let compares = vec![[4, 1, 2]; size - 1];
        add_session(draft, 1, &[compares, vec![END]].concat());
    }
}

/// 32 sessions that each fork in two: half of the threads send on one channel,
/// the others receive on another, and no two can meet.
pub fn crowded_desk() -> Draft {
    let mut draft = Draft {
        users: vec![[1]],
        roles: vec![[1, 0, 1, 0]],
        kinds: vec![[0]],
        channels: vec![[1, 1], [1, 1]],
        ..Draft::default()
    };
    for session in 0..32 {
        let root = draft.nodes.len() as u16 + 1;
        let node = [[6, 257, 1], [5, 258, 0]][session % 2];
        draft.sessions.push([1, 1, root]);
        draft.nodes.extend([[1, root + 3, 0], node, END, node, END]);
    }
    draft
}
