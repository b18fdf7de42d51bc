//! Junior roles: masks of them, what they grant, and where they are wrong. What
//! they grant is worked out step by step until nothing changes, and not in the
//! order of the roles as both implementations do.

use crate::rng::Rng;
use second::draft::Draft;

/// A mask of juniors for each of so many roles, all of them lower: mostly few.
pub fn masks(rng: &mut Rng, roles: u16) -> Vec<[u16; 1]> {
    // All lower roles more often where there are as many as can be.
    let sort = match rng.below(8) {
        6.. if roles == 16 => 3,
        sort => sort,
    };
    let mask = |role: u16| {
        let lower = (1u16 << role) - 1;
        let next = 1 << role >> 1;
        let any = rng.word();
        let one = if role == 0 {
            0
        } else {
            1 << rng.below(role.into())
        };
        [match sort {
            0 => 0,
            1 => next,
            2 => lower & any,
            3 => lower,
            4 => lower & any & rng.word() & rng.word(),
            _ => *rng.of(&[0, 0, one, one, next]),
        }]
    };
    (0..roles).map(mask).collect()
}

/// Leaves most users of a file of version 2 with the highest role alone, which
/// has all others by a chain of juniors. Often the two highest have no grant of
/// their own.
pub fn promote(rng: &mut Rng, draft: &mut Draft) {
    let roles = draft.roles.len();
    let Some(juniors) = draft.juniors.as_mut().filter(|_| roles > 0) else {
        return;
    };
    *juniors = (0..roles).map(|role| [1 << role >> 1]).collect();
    if roles > 2 && rng.once_in(2) {
        for high in [roles - 2, roles - 1] {
            let granted = std::mem::take(&mut draft.roles[high]);
            let low = &mut draft.roles[0];
            *low = std::array::from_fn(|word| low[word] | granted[word]);
        }
    }
    for [mask] in &mut draft.users {
        if !rng.once_in(4) {
            *mask = 1 << (roles - 1);
        }
    }
    for [user, start, _] in &mut draft.sessions {
        *start &= draft.users[usize::from(*user) - 1][0];
    }
}

/// The juniors of each role, none in version 1.
fn of(draft: &Draft) -> Vec<u16> {
    let masks = draft.juniors.iter().flatten().map(|[mask]| *mask);
    let none = std::iter::repeat(0);
    masks.chain(none).take(draft.roles.len()).collect()
}

/// Each role's grants and those of its juniors, but not of theirs.
fn one_level(draft: &Draft, grants: &[[u16; 4]]) -> Vec<[u16; 4]> {
    let juniors = of(draft);
    let mut more = grants.to_vec();
    for (senior, own) in more.iter_mut().enumerate() {
        for (junior, granted) in grants.iter().enumerate() {
            if juniors[senior] >> junior & 1 != 0 {
                *own = std::array::from_fn(|word| own[word] | granted[word]);
            }
        }
    }
    more
}

/// Each role's grants and those of its juniors, through any chain.
pub fn granted(draft: &Draft) -> Vec<[u16; 4]> {
    let mut grants = draft.roles.clone();
    loop {
        let more = one_level(draft, &grants);
        if more == grants {
            return grants;
        }
        grants = more;
    }
}

/// These roles, their juniors, and theirs, through any chain.
pub fn reached(draft: &Draft, roles: u16) -> u16 {
    let juniors = of(draft);
    let of_role = |role: usize| {
        if roles >> role & 1 != 0 {
            juniors[role]
        } else {
            0
        }
    };
    let more = (0..juniors.len()).fold(roles, |all, role| all | of_role(role));
    if more == roles {
        roles
    } else {
        reached(draft, more)
    }
}

/// The file without juniors.
pub fn without(draft: &Draft) -> Draft {
    Draft {
        juniors: draft.juniors.as_ref().map(|masks| vec![[0]; masks.len()]),
        ..draft.clone()
    }
}

/// The file in which a role has what its juniors' own records grant, and
/// nothing of what their juniors do.
pub fn of_one_level(draft: &Draft) -> Draft {
    Draft {
        roles: one_level(draft, &draft.roles),
        ..without(draft)
    }
}

/// The file with what juniors grant in the records themselves.
pub fn spelled_out(draft: &Draft) -> Draft {
    Draft {
        roles: granted(draft),
        ..without(draft)
    }
}

/// The file in version 2, with all lower roles as juniors of each.
pub fn with_all(file: &[u8]) -> Vec<u8> {
    let mut draft = Draft::of(file);
    let lower = |role: usize| [(1u16 << role) - 1];
    draft.juniors = Some((0..draft.roles.len()).map(lower).collect());
    draft.bytes()
}

/// The lowest place of a junior that is not lower than its senior, if there is
/// one, in a file that 1 to 5 leave clean.
pub fn lowest_fault(draft: &Draft) -> Option<u16> {
    let first = 14 + draft.users.len() + 4 * draft.roles.len();
    let faulty = |(role, mask): (usize, u16)| u32::from(mask) >> role != 0;
    let role = of(draft).into_iter().enumerate().position(faulty)?;
    Some((first + role) as u16)
}
