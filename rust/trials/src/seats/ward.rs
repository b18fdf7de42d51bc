//! Files whose sessions want the same roles.

use crate::juniors;
use crate::rng::Rng;
use second::draft::Draft;
use second::Version;

const END: [u16; 3] = [0, 0, 0];
const REPEAT: [u16; 3] = [2, 0, 0];

/// A tree that is being built.
struct Tree<'d> {
    nodes: &'d mut Vec<[u16; 3]>,
    /// The roles of its user, and how many there are in all.
    assigned: u16,
    roles: u16,
    /// Variables bound above.
    bound: u16,
}

/// A few users with a few roles, which may send and receive on both kinds, and sessions
/// that put these on and off, fork while they hold them, and end so.
pub fn ward(rng: &mut Rng, version: Version) -> Draft {
    let roles = *rng.of(&[1, 1, 2, 2, 3, 4]);
    let all = (1 << roles) - 1;
    let mut draft = tables(rng, version, roles);
    let most = *rng.of(&[3, 4, 5, 7, 7, 12]);
    let starts = rng.once_in(6);
    for _ in 0..rng.from(2, most) {
        let user = rng.from(1, 2);
        let [assigned] = draft.users[usize::from(user) - 1];
        let start = if starts && rng.once_in(2) {
            assigned & *rng.of(&[1, 1, 2, 3, all])
        } else {
            0
        };
        let root = draft.nodes.len() as u16 + 1;
        draft.sessions.push([user, start, root]);
        let mut tree = Tree {
            nodes: &mut draft.nodes,
            assigned,
            roles,
            bound: 0,
        };
        let steps = rng.from(1, 9);
        tree.grow(rng, start, steps, 2);
    }
    draft
}

/// The same with no roles, so that nothing but lone steps can be done.
pub fn ward_without_roles(rng: &mut Rng, version: Version) -> Draft {
    let mut draft = tables(rng, version, 0);
    for _ in 0..rng.from(1, 4) {
        let root = draft.nodes.len() as u16 + 1;
        draft.sessions.push([rng.from(1, 2), 0, root]);
        let lone = [[4, 1, 1], [3, 1, 0], REPEAT];
        for _ in 0..rng.below(4) {
            draft.nodes.push(*rng.of(&lone));
        }
        draft.nodes.push(END);
    }
    draft
}

fn tables(rng: &mut Rng, version: Version, roles: u16) -> Draft {
    let all = ((1u32 << roles) - 1) as u16;
    let other = *rng.of(&[all, all, all, all & 1]);
    Draft {
        users: vec![[all], [other], [0]],
        roles: vec![[3, 0, 3, 0]; roles.into()],
        juniors: version
            .has_juniors()
            .then(|| juniors::masks(rng, roles.into())),
        by_column: version == Version::Three,
        kinds: vec![[0], [0]],
        channels: vec![[1, 1], [2, 2]],
        ..Draft::default()
    }
}

impl Tree<'_> {
    fn push(&mut self, node: [u16; 3]) {
        self.nodes.push(node);
    }

    /// A tree of about so many steps, at which these roles are held.
    fn grow(&mut self, rng: &mut Rng, mut held: u16, steps: u16, forks: u16) {
        for left in (0..steps).rev() {
            match rng.below(40) {
                0..=15 => {
                    let role = self.role(rng);
                    held |= 1 << (role - 1);
                    self.push([7, role, 0]);
                }
                16..=23 => held = self.put_off(rng, held),
                24..=29 if forks > 0 => {
                    let fork = self.nodes.len();
                    self.push([1, 0, 0]);
                    let first = rng.from(0, left);
                    self.grow(rng, held, first, forks - 1);
                    self.nodes[fork][1] = self.nodes.len() as u16 + 1;
                    return self.grow(rng, held, left, forks - 1);
                }
                30 => self.push(REPEAT),
                31 => self.push([4, 1, 2]),
                32 if self.bound < 6 => {
                    self.bound += 1;
                    self.push([3, 1, 0]);
                }
                33..=34 => {
                    let channel = rng.from(257, 258);
                    self.push([6, channel, 1]);
                }
                _ => self.push([4, 1, 1]),
            }
        }
        if rng.once_in(3) {
            while held != 0 {
                held = self.put_off(rng, held);
            }
        }
        self.push(END);
    }

    /// A role, mostly of the user.
    fn role(&self, rng: &mut Rng) -> u16 {
        let any = rng.from(1, self.roles);
        let role = *rng.of(&[1, 1, any]);
        let its_own = self.assigned >> (role - 1) & 1 != 0;
        match self.assigned.trailing_zeros() as u16 + 1 {
            lowest @ 1..=16 if !its_own && !rng.once_in(4) => lowest,
            _ => role,
        }
    }

    /// Puts one of the roles off that are held, or once in a while another.
    fn put_off(&mut self, rng: &mut Rng, held: u16) -> u16 {
        let role = match held {
            0 if rng.once_in(4) => rng.from(1, self.roles),
            0 => return held,
            _ => held.trailing_zeros() as u16 + 1,
        };
        self.push([8, role, 0]);
        held & !(1 << (role - 1))
    }
}

/// One session that receives on its own channel for each of the two users, so that
/// the others can send.
pub fn add_takers(draft: &mut Draft) {
    let all = draft.users[0][0];
    for user in 1..=2 {
        let [assigned] = draft.users[usize::from(user) - 1];
        let root = draft.nodes.len() as u16 + 1;
        draft.sessions.push([user, assigned & all, root]);
        draft.nodes.extend([REPEAT, [5, 256 + user, 0], END]);
    }
}
