//! Users, roles, kinds, channels and sessions that are sound.

use crate::juniors;
use crate::rng::Rng;
use second::draft::Draft;
use second::{Section, Version};

/// How many records a file has of each section.
#[derive(Clone, Copy)]
pub struct Size {
    pub users: u16,
    pub roles: u16,
    pub kinds: u16,
    pub channels: u16,
    pub sessions: u16,
    pub nodes: u16,
}

impl Size {
    /// Everything at its largest.
    pub const FULL: Size = Size {
        users: Section::Users.most(),
        roles: Section::Roles.most(),
        kinds: Section::Kinds.most(),
        channels: Section::Channels.most(),
        sessions: Section::Sessions.most(),
        nodes: Section::Nodes.most(),
    };

    /// A routine or four, 40 nodes.
    pub const TYPICAL: Size = Size {
        users: 6,
        roles: 4,
        kinds: 6,
        channels: 8,
        sessions: 4,
        nodes: 40,
    };

    /// Mostly small, sometimes as large as can be.
    pub fn any(rng: &mut Rng) -> Size {
        match rng.below(64) {
            0 => Size::FULL,
            1..=2 => Size::up_to(rng, Size::FULL),
            3..=6 => Size::edge(rng),
            7 => Size::tall(rng),
            8..=30 => Size::middle(rng),
            _ => Size::up_to(rng, SMALL),
        }
    }

    /// None of the largest counts, and one of each at least.
    pub fn middle(rng: &mut Rng) -> Size {
        let sessions = rng.from(1, 5);
        Size {
            users: rng.from(1, 8),
            roles: rng.from(1, 6),
            kinds: rng.from(1, 8),
            channels: rng.from(1, 12),
            sessions,
            nodes: sessions + rng.from(6, 60),
        }
    }

    /// Counts at and next to their middle and their largest, with few nodes.
    pub fn edge(rng: &mut Rng) -> Size {
        let mut edge = |section: Section| {
            let most = section.most();
            *rng.of(&[1, most / 2 - 1, most / 2, most / 2 + 1, most - 1, most])
        };
        let mut size = Size {
            users: edge(Section::Users),
            roles: edge(Section::Roles),
            kinds: edge(Section::Kinds),
            channels: edge(Section::Channels),
            sessions: edge(Section::Sessions),
            nodes: 0,
        };
        size.nodes = size.sessions + rng.from(0, 60);
        size
    }

    /// All the nodes in one tree or two.
    fn tall(rng: &mut Rng) -> Size {
        Size {
            sessions: rng.from(1, 2),
            nodes: *rng.of(&[255, 1023, 1024]),
            ..Size::middle(rng)
        }
    }

    /// Some sections are empty.
    pub fn lean(rng: &mut Rng) -> Size {
        let mut some = |most| if rng.once_in(3) { 0 } else { rng.from(0, most) };
        Size {
            users: some(3),
            roles: some(3),
            kinds: some(3),
            channels: some(4),
            sessions: some(3),
            nodes: some(12),
        }
    }

    fn up_to(rng: &mut Rng, most: Size) -> Size {
        let sessions = rng.from(1, most.sessions);
        Size {
            users: rng.from(1, most.users),
            roles: rng.from(0, most.roles),
            kinds: rng.from(0, most.kinds),
            channels: rng.from(0, most.channels),
            sessions,
            nodes: rng.from(sessions, most.nodes),
        }
    }
}

const SMALL: Size = Size {
    users: 3,
    roles: 3,
    kinds: 4,
    channels: 5,
    sessions: 3,
    nodes: 20,
};

/// A sound schema with its sessions, which have no root yet. What needs users
/// or kinds is left out where there are none.
pub fn schema(rng: &mut Rng, version: Version, size: Size) -> Draft {
    let kinds = usize::from(size.kinds);
    let channels = if size.kinds == 0 { 0 } else { size.channels };
    let mut draft = Draft {
        by_column: version == Version::Three,
        users: many(size.users, || [rng.mask(size.roles.into()) as u16]),
        ..Draft::default()
    };
    draft.roles = many(size.roles, || {
        let (sends, receives) = (rng.mask(kinds), rng.mask(kinds));
        let high = |mask: u32| (mask >> 16) as u16;
        [sends as u16, high(sends), receives as u16, high(receives)]
    });
    if version.has_juniors() {
        draft.juniors = Some(juniors::masks(rng, size.roles));
    }
    draft.kinds = many(size.kinds, || [carried(rng, size.kinds)]);
    if size.users > 0 {
        draft.channels = many(channels, || {
            [rng.from(1, size.users), rng.from(1, size.kinds)]
        });
        draft.sessions = many(size.sessions, || {
            let user = rng.from(1, size.users);
            let [assigned] = draft.users[usize::from(user) - 1];
            [user, start(rng, assigned), 0]
        });
    }
    draft
}

fn many<T>(count: u16, one: impl FnMut() -> T) -> Vec<T> {
    std::iter::repeat_with(one).take(count.into()).collect()
}

/// What a kind carries: often a plain value.
fn carried(rng: &mut Rng, kinds: u16) -> u16 {
    if rng.once_in(3) {
        0
    } else {
        rng.from(0, kinds)
    }
}

/// A starting mask: often none, sometimes all that is assigned.
fn start(rng: &mut Rng, assigned: u16) -> u16 {
    match rng.below(4) {
        0 | 1 => 0,
        2 => assigned,
        _ => assigned & rng.word(),
    }
}
