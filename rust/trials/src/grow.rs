//! Trees that are sound: in shape always, in names, kinds and roles but for
//! the one node that is grown wild.

use crate::juniors;
use crate::rng::Rng;
use crate::wild::Wild;
use second::draft::Draft;

/// The most variables on a path.
pub const VARIABLES: usize = 8;

/// How a file's trees branch.
#[derive(Clone, Copy)]
pub struct Bent {
    /// A node with room below it is a fork once in so many.
    fork_once_in: usize,
    /// Where most of a fork's nodes go.
    most_in: Option<Branch>,
    /// How many nodes the other branch has at most.
    rest: usize,
}

#[derive(Clone, Copy)]
enum Branch {
    First,
    Second,
}

impl Bent {
    /// Some forks, as they come.
    pub const USUAL: Bent = Bent {
        fork_once_in: 6,
        most_in: None,
        rest: 1,
    };

    /// No forks.
    pub const CHAIN: Bent = Bent {
        fork_once_in: usize::MAX,
        ..Bent::USUAL
    };

    /// Any at all, from chains to forks alone.
    pub fn any(rng: &mut Rng) -> Bent {
        Bent {
            fork_once_in: *rng.of(&[1, 2, 6, 6, 6, 6, 30]),
            most_in: *rng.of(&[None, None, Some(Branch::First), Some(Branch::Second)]),
            rest: rng.index(3) + 1,
        }
    }

    /// The size of a fork's first tree, of `size` nodes in both.
    fn first(self, rng: &mut Rng, size: usize) -> usize {
        let rest = (1 + rng.below(self.rest)).min(size - 1);
        match self.most_in {
            None => 1 + rng.below(size - 1),
            Some(Branch::First) => size - rest,
            Some(Branch::Second) => rest,
        }
    }
}

/// What a send or receive takes into account.
#[derive(Clone, Copy, PartialEq)]
pub enum Heed {
    /// The active set: on for a role that permits it comes first.
    Active,
    /// The roles assigned: one of them permits it, and none is ever on.
    Assigned,
    /// No role at all.
    Nothing,
}

/// The masks of a role's record: word 0 or 2 on.
const SENDS: usize = 0;
const RECEIVES: usize = 2;

/// Something that an operand can name.
#[derive(Clone, Copy)]
pub struct Name {
    pub operand: u16,
    pub kind: u16,
    pub receivable: bool,
}

/// What holds at a point of a path.
#[derive(Clone)]
pub struct Point {
    pub active: u16,
    pub variables: Vec<Name>,
}

pub struct Grower<'a> {
    pub rng: &'a mut Rng,
    pub draft: &'a mut Draft,
    bent: Bent,
    heed: Heed,
    /// The wild node is the first with one child from this number on.
    wild: &'a mut Option<(usize, Wild)>,
    /// Users and channels, as this session's user sees them.
    names: Vec<Name>,
    assigned: u16,
    /// What each role may, by its juniors too.
    grants: Vec<[u16; 4]>,
}

/// Gives each session a tree, of `nodes` nodes together; at least one each.
pub fn grow(
    rng: &mut Rng,
    draft: &mut Draft,
    nodes: u16,
    bent: Bent,
    heed: Heed,
    wild: Option<Wild>,
) {
    let count = draft.sessions.len();
    let mut sizes = vec![1; count];
    for _ in count..nodes.into() {
        if count > 0 {
            sizes[rng.below(count)] += 1;
        }
    }
    let mut wild = wild.map(|wild| (1 + rng.below(usize::from(nodes.max(1))), wild));
    for (session, size) in sizes.into_iter().enumerate() {
        let [user, active, _] = draft.sessions[session];
        draft.sessions[session][2] = draft.nodes.len() as u16 + 1;
        let mut grower = Grower {
            assigned: draft.users[usize::from(user) - 1][0],
            names: names(draft, user),
            grants: juniors::granted(draft),
            rng,
            draft,
            bent,
            heed,
            wild: &mut wild,
        };
        let variables = Vec::new();
        grower.tree(Point { active, variables }, size);
    }
}

fn names(draft: &Draft, user: u16) -> Vec<Name> {
    let users = (1..).zip(&draft.users).map(|(operand, _)| Name {
        operand,
        kind: 0,
        receivable: false,
    });
    let channels = (257..)
        .zip(&draft.channels)
        .map(|(operand, &[owner, kind])| Name {
            operand,
            kind,
            receivable: owner == user,
        });
    users.chain(channels).collect()
}

impl Grower<'_> {
    /// A tree of exactly `size` nodes.
    fn tree(&mut self, mut point: Point, mut size: usize) {
        while size > 1 {
            size -= 1;
            if size > 1 && self.rng.once_in(self.bent.fork_once_in) {
                let first = self.bent.first(self.rng, size);
                let fork = self.draft.nodes.len();
                self.draft.nodes.push([1, 0, 0]);
                self.tree(point.clone(), first);
                self.draft.nodes[fork][1] = self.draft.nodes.len() as u16 + 1;
                size -= first;
            } else {
                let node = self.step(&mut point);
                self.draft.nodes.push(node);
            }
        }
        self.draft.nodes.push([0, 0, 0]);
    }

    /// A node with one child; `point` is then what holds at the child.
    fn step(&mut self, point: &mut Point) -> [u16; 3] {
        let number = self.draft.nodes.len() + 1;
        let wild = self.wild.take_if(|(from, _)| *from <= number);
        let node = match wild {
            None => self.tame(point),
            Some((_, Wild::Names)) => self.misnamed(point),
            Some((_, Wild::Kinds)) => self.mistaken(point),
            Some((_, Wild::Roles)) => self.reckless(point),
            Some((_, Wild::Permission)) => self.unpermitted(point),
        };
        node.unwrap_or([2, 0, 0])
    }

    fn tame(&mut self, point: &mut Point) -> Option<[u16; 3]> {
        match *self.rng.of(&[2, 3, 3, 4, 4, 5, 5, 5, 6, 6, 6, 6, 7, 8]) {
            3 => self.new_channel(point),
            4 => self.compare(point),
            5 => self.receive(point, self.heed),
            7 if self.heed == Heed::Active => self.on(point, self.assigned),
            8 if self.heed == Heed::Active => self.off(point, point.active),
            6..=8 => self.send(point, self.heed),
            _ => None,
        }
    }

    fn new_channel(&mut self, point: &mut Point) -> Option<[u16; 3]> {
        let kinds = self.draft.kinds.len() as u16;
        if kinds == 0 || point.variables.len() == VARIABLES {
            return None;
        }
        let kind = self.rng.from(1, kinds);
        point.bind(kind, true);
        Some([3, kind, 0])
    }

    fn compare(&mut self, point: &Point) -> Option<[u16; 3]> {
        let one = self.name(point, |_| true)?;
        let other = self.name(point, |name| name.kind == one.kind)?;
        Some([4, one.operand, other.operand])
    }

    pub fn receive(&mut self, point: &mut Point, heed: Heed) -> Option<[u16; 3]> {
        if point.variables.len() == VARIABLES {
            return None;
        }
        let kinds = self.kinds(heed, RECEIVES);
        let channel = self.name(point, |name| name.receivable && name.is_in(kinds))?;
        if heed == Heed::Active && !self.permits(point.active, channel.kind, RECEIVES) {
            return self.on_for(point, channel.kind, RECEIVES);
        }
        point.bind(self.carried_by(channel.kind), false);
        Some([5, channel.operand, 0])
    }

    pub fn send(&mut self, point: &mut Point, heed: Heed) -> Option<[u16; 3]> {
        let kinds = self.kinds(heed, SENDS);
        let channel = self.name(point, |name| name.is_in(kinds))?;
        let carried = self.carried_by(channel.kind);
        let value = self.name(point, |name| name.kind == carried)?;
        if heed == Heed::Active && !self.permits(point.active, channel.kind, SENDS) {
            return self.on_for(point, channel.kind, SENDS);
        }
        Some([6, channel.operand, value.operand])
    }

    /// The kinds that come into question for a send or receive.
    fn kinds(&self, heed: Heed, grant: usize) -> u32 {
        let may = |kind| heed != Heed::Assigned || self.permits(self.assigned, kind, grant);
        (1..=self.draft.kinds.len() as u16)
            .filter(|&kind| may(kind))
            .fold(0, |mask, kind| mask | 1 << (kind - 1))
    }

    fn carried_by(&self, kind: u16) -> u16 {
        self.draft.kinds[usize::from(kind) - 1][0]
    }

    pub fn on(&mut self, point: &mut Point, mask: u16) -> Option<[u16; 3]> {
        let role = self.role_in(mask)?;
        Some(point.with(role))
    }

    pub fn off(&mut self, point: &mut Point, mask: u16) -> Option<[u16; 3]> {
        let role = self.role_in(mask)?;
        point.active &= !(1 << (role - 1));
        Some([8, role, 0])
    }

    /// On for an assigned role that may act on the kind.
    fn on_for(&mut self, point: &mut Point, kind: u16, grant: usize) -> Option<[u16; 3]> {
        let roles: Vec<u16> = (1..=self.draft.roles.len() as u16)
            .filter(|role| self.permits(self.assigned & 1 << (role - 1), kind, grant))
            .collect();
        let at = self.rng.find(&roles, |_| true)?;
        Some(point.with(roles[at]))
    }

    /// A role of the file that is in the mask.
    fn role_in(&mut self, mask: u16) -> Option<u16> {
        let at = (0..self.draft.roles.len()).collect::<Vec<_>>();
        let found = self.rng.find(&at, |&i| mask & 1 << i != 0)?;
        Some(found as u16 + 1)
    }

    /// Whether a role in the mask has the kind in its grant.
    fn permits(&self, mask: u16, kind: u16, grant: usize) -> bool {
        let (word, bit) = (grant + usize::from(kind - 1) / 16, (kind - 1) % 16);
        let granted = |role: &[u16; 4]| role[word] & 1 << bit != 0;
        (0..)
            .zip(&self.grants)
            .any(|(i, role)| mask & 1 << i != 0 && granted(role))
    }

    /// A name that fits. Variables come up as often as users and channels.
    pub fn name(&mut self, point: &Point, will_do: impl Fn(&Name) -> bool) -> Option<Name> {
        let lists = [&self.names, &point.variables];
        let first = self.rng.below(2);
        [lists[first], lists[1 - first]]
            .into_iter()
            .find_map(|list| {
                let at = self.rng.find(list, &will_do)?;
                Some(list[at])
            })
    }
}

impl Name {
    /// Whether it is a channel of one of the kinds.
    fn is_in(&self, kinds: u32) -> bool {
        self.kind > 0 && kinds >> (self.kind - 1) & 1 != 0
    }
}

impl Point {
    pub fn bind(&mut self, kind: u16, made: bool) {
        self.variables.push(Name {
            operand: 512 + self.variables.len() as u16,
            kind,
            receivable: made,
        });
    }

    /// The on node that adds a role.
    fn with(&mut self, role: u16) -> [u16; 3] {
        self.active |= 1 << (role - 1);
        [7, role, 0]
    }
}
