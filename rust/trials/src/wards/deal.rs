//! Pairs of files that agree on a session, by index.

use crate::bare::{grant_few, lively_bare, tied_bare};
use crate::grow::{grow, Bent, Heed};
use crate::hours::{grant_more, with_hours};
use crate::rng::Rng;
use crate::schema::{schema, Size};
use second::draft::Draft;
use second::{Section, Version};

/// Two files to be placed that have the same roles, kinds and channels, and each a
/// session of the same user, with the same mask and the same tree; and a table of hours
/// with a minute for both.
pub struct Wards {
    pub files: [Draft; 2],
    /// The index of the session in each.
    pub sessions: [usize; 2],
    pub hours: Vec<u16>,
    pub minute: u16,
}

impl Wards {
    /// All of it, to be had back.
    pub fn told(&self) -> String {
        format!(
            "sessions {:?} at minute {} by {:?} in {:?}",
            self.sessions, self.minute, self.hours, self.files
        )
    }
}

/// Pair `index` under `seed`.
pub fn deal_wards(seed: u64, index: u64) -> Wards {
    let rng = &mut Rng::new(seed.rotate_left(15), index);
    let mut first = first_file(rng);
    if rng.once_in(2) {
        grant_more(rng, &mut first);
    }
    let session = rng.below(first.sessions.len());
    let [user, ..] = first.sessions[session];
    let own = (user, tree_of(&first, session));
    let (second, place) = other_file(rng, &first, &own);
    let at = with_hours(rng, first.bytes());
    Wards {
        files: [first, second],
        sessions: [session, place],
        hours: at.hours,
        minute: at.minute,
    }
}

fn first_file(rng: &mut Rng) -> Draft {
    match rng.below(8) {
        0..=3 => lively_bare(rng, Version::One),
        4 => {
            let nodes = rng.from(1, 60);
            tied_bare(rng, Version::One, nodes)
        }
        _ => {
            let size = Size::middle(rng);
            let mut draft = schema(rng, Version::One, size);
            for [_, start, _] in &mut draft.sessions {
                *start = 0;
            }
            grant_few(rng, &mut draft);
            grow_all(rng, &mut draft, size.nodes);
            draft
        }
    }
}

fn grow_all(rng: &mut Rng, draft: &mut Draft, nodes: u16) {
    let bent = Bent::any(rng);
    grow(rng, draft, nodes, bent, Heed::Assigned, None);
}

/// A user, and a tree whose forks' second children are counted from its root.
type Session = (u16, Vec<[u16; 3]>);

/// The tree of a session, counted so.
fn tree_of(draft: &Draft, session: usize) -> Vec<[u16; 3]> {
    let roots = draft.sessions.iter().map(|[_, _, root]| *root);
    let mut roots = roots.chain([draft.nodes.len() as u16 + 1]).skip(session);
    let root = roots.next().expect("a root");
    let next = roots.next().expect("what follows it");
    let nodes = &draft.nodes[usize::from(root) - 1..usize::from(next) - 1];
    let counted = nodes.iter().map(|&node| match node {
        [1, second, f2] => [1, second - root, f2],
        node => node,
    });
    counted.collect()
}

/// Adds a session with such a tree.
fn add(draft: &mut Draft, (user, tree): &Session) {
    let root = draft.nodes.len() as u16 + 1;
    draft.sessions.push([*user, 0, root]);
    draft.nodes.extend(tree.iter().map(|&node| match node {
        [1, second, f2] => [1, second + root, f2],
        node => node,
    }));
}

/// The users that a file must have for these channels and this session.
fn users_named(draft: &Draft, (user, tree): &Session) -> u16 {
    let owners = draft.channels.iter().map(|[owner, _]| *owner);
    let operands = tree.iter().flat_map(|&[tag, f1, f2]| match tag {
        4 | 6 => [f1, f2],
        _ => [0; 2],
    });
    let operands = operands.filter(|operand| *operand <= 32);
    owners.chain(operands).fold(*user, u16::max)
}

/// Another file with the same roles, kinds and channels, and the session somewhere in
/// it: with other users, other sessions, or both.
fn other_file(rng: &mut Rng, first: &Draft, own: &Session) -> (Draft, usize) {
    let mut draft = Draft {
        sessions: vec![],
        nodes: vec![],
        ..first.clone()
    };
    let least = users_named(first, own);
    if !rng.once_in(4) {
        let near = first.users.len() as u16;
        let any = rng.from(least, Section::Users.most());
        let count = *rng.of(&[near, near, any, any, least]);
        let roles = first.roles.len();
        let own_mask = first.users[usize::from(own.0) - 1];
        draft.users.resize(count.into(), [0]);
        for mask in &mut draft.users {
            *mask = [rng.mask(roles) as u16];
        }
        draft.users[usize::from(own.0) - 1] = own_mask;
    }
    let others = other_sessions(rng, &draft, first);
    let place = rng.below(others.len() + 1);
    for session in &others[..place] {
        add(&mut draft, session);
    }
    add(&mut draft, own);
    for session in &others[place..] {
        add(&mut draft, session);
    }
    (draft, place)
}

/// Sessions that are grown anew for these users.
fn other_sessions(rng: &mut Rng, draft: &Draft, first: &Draft) -> Vec<Session> {
    let count = *rng.of(&[0, 1, 2, 3, first.sessions.len() as u16]);
    let users = draft.users.len() as u16;
    let mut grown = draft.clone();
    grown.sessions = (0..count.min(31))
        .map(|_| [rng.from(1, users), 0, 0])
        .collect();
    let nodes = count + rng.from(0, 40);
    grow_all(rng, &mut grown, nodes);
    let sessions = 0..grown.sessions.len();
    sessions
        .map(|session| (grown.sessions[session][0], tree_of(&grown, session)))
        .collect()
}
