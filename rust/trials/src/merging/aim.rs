//! Changes that aim at one cause for which merging refuses a file. They mostly hit it;
//! where the file has nothing to change, it stays as it is.

use crate::aim::{self, insert};
use crate::rng::Rng;
use crate::trees::Trees;
use second::draft::Draft;
use second::{Cause, Version};

/// Changes a sound draft for a cause of 6 to 10, or of another version.
pub fn at_draft(rng: &mut Rng, draft: &mut Draft, cause: Cause) {
    match cause.number() {
        6..=8 => aim::at_draft(rng, draft, cause),
        9 | 10 => at_node(rng, draft, cause),
        1 | 2 if matches!(cause, Cause::ShortForSecond | Cause::OtherVersion(_)) => {
            draft.juniors = Some(vec![[0]; draft.roles.len()]);
            draft.by_column = match cause {
                Cause::OtherVersion(version) => version == Version::Three,
                _ => rng.once_in(2),
            };
        }
        _ => {}
    }
}

/// Changes the bytes for a cause of 1 to 5.
pub fn at_bytes(rng: &mut Rng, file: &mut Vec<u8>, cause: Cause) {
    match cause {
        // Whatever else is wrong in it.
        Cause::OtherVersion(_) if rng.once_in(2) => {
            let causes = [Cause::Shorter, Cause::Longer];
            let counts = Cause::all().into_iter();
            let counts = counts.filter(|cause| matches!(cause.number(), 3 | 4));
            let causes: Vec<_> = counts.chain(causes).collect();
            let cause = *rng.of(&causes);
            aim::at_bytes(rng, file, cause);
        }
        Cause::OtherVersion(_) => {}
        _ => aim::at_bytes(rng, file, cause),
    }
}

/// Puts a wrong node in front of an end at which few variables are bound, with such
/// before it as it needs.
fn at_node(rng: &mut Rng, draft: &mut Draft, cause: Cause) {
    let trees = Trees::of(draft);
    let bound = |at: usize| trees.nodes[at].kinds().len();
    let ends: Vec<usize> = (0..draft.nodes.len())
        .filter(|&at| draft.nodes[at][0] == 0 && bound(at) < 6)
        .collect();
    let Some(found) = rng.find(&ends, |_| true) else {
        return;
    };
    let at = ends[found];
    let spot = Spot {
        rng,
        draft,
        user: trees.nodes[at].user,
        next: 512 + bound(at) as u16,
    };
    if let Some(nodes) = spot.nodes(cause) {
        insert(draft, at, &nodes);
    }
}

/// Where a node is put in.
struct Spot<'a> {
    rng: &'a mut Rng,
    draft: &'a Draft,
    /// The session's user.
    user: u16,
    /// The variable that a binder here binds.
    next: u16,
}

impl Spot<'_> {
    fn nodes(mut self, cause: Cause) -> Option<Vec<[u16; 3]>> {
        let Draft {
            users,
            roles,
            kinds,
            channels,
            ..
        } = self.draft;
        let above = |count: usize| count as u16 + 1;
        Some(match cause {
            Cause::UserOperandAbove if users.len() < 32 => {
                let wrong = self.rng.from(above(users.len()), 32);
                self.with_operand(wrong)
            }
            Cause::ChannelOperandAbove if channels.len() < 64 => {
                let wrong = 256 + self.rng.from(above(channels.len()), 64);
                self.with_operand(wrong)
            }
            Cause::Unbound => {
                let wrong = self.rng.from(self.next, 519);
                self.with_operand(wrong)
            }
            Cause::MadeChannel => {
                let wrong = self.rng.from(385, 448);
                self.with_operand(wrong)
            }
            Cause::NoName => {
                let wrong = *self
                    .rng
                    .of(&[0, 33, 256, 321, 384, 449, 511, 520, u16::MAX]);
                self.with_operand(wrong)
            }
            Cause::NewKindZero => vec![[3, 0, 0]],
            Cause::NewKindAbove => vec![[3, above(kinds.len()), 0]],
            Cause::OnRoleZero => vec![[7, 0, 0]],
            Cause::OnRoleAbove => vec![[7, above(roles.len()), 0]],
            Cause::OffRoleZero => vec![[8, 0, 0]],
            Cause::OffRoleAbove => vec![[8, above(roles.len()), 0]],
            Cause::SendOnPlain => vec![[6, self.user, self.user]],
            Cause::SendWrongKind => {
                let kind = self.kind(|_| true)?;
                let value = match self.carried_by(kind) {
                    0 => self.next,
                    _ => self.user,
                };
                vec![[3, kind, 0], [6, self.next, value]]
            }
            Cause::ReceiveOnUser => vec![[5, self.user, 0]],
            Cause::ReceiveOnPlainVariable => {
                let kind = self.kind(|carried| carried == 0)?;
                let next = self.next;
                vec![[3, kind, 0], [5, next, 0], [5, next + 1, 0]]
            }
            Cause::ReceiveOnReceived => {
                let kind = self.kind(|carried| carried != 0)?;
                let next = self.next;
                vec![[3, kind, 0], [5, next, 0], [5, next + 1, 0]]
            }
            Cause::ReceiveOnOthers => {
                let others = |[owner, _]: &[u16; 2]| *owner != self.user;
                let channel = self.rng.find(channels, others)?;
                vec![[5, 257 + channel as u16, 0]]
            }
            Cause::ComparePlain => {
                let kind = self.kind(|_| true)?;
                let both = [self.next, self.user];
                let [one, other] = *self.rng.of(&[both, [both[1], both[0]]]);
                vec![[3, kind, 0], [4, one, other]]
            }
            Cause::CompareKinds if kinds.len() > 1 => {
                let one = self.rng.from(1, kinds.len() as u16 - 1);
                let other = self.rng.from(one + 1, kinds.len() as u16);
                let next = self.next;
                vec![[3, one, 0], [3, other, 0], [4, next, next + 1]]
            }
            _ => return None,
        })
    }

    /// A node with an operand that names nothing.
    fn with_operand(self, wrong: u16) -> Vec<[u16; 3]> {
        let user = self.user;
        let nodes = [
            [4, wrong, user],
            [4, user, wrong],
            [5, wrong, 0],
            [6, wrong, user],
            [6, user, wrong],
        ];
        vec![*self.rng.of(&nodes)]
    }

    fn carried_by(&self, kind: u16) -> u16 {
        self.draft.kinds[usize::from(kind) - 1][0]
    }

    /// A kind that carries something that fits.
    fn kind(&mut self, will_do: impl Fn(u16) -> bool) -> Option<u16> {
        let found = self
            .rng
            .find(&self.draft.kinds, |[carried]| will_do(*carried))?;
        Some(found as u16 + 1)
    }
}
