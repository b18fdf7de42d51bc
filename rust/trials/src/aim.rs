//! Changes that aim at one cause of refusal. They mostly hit it; where the
//! file has nothing to change, it stays as it is.

use crate::rng::Rng;
use second::draft::{set_word, word_at, Draft};
use second::{Cause, Section, Version};

/// Changes the draft for a cause of 6 to 8, or of 21.
pub fn at_draft(rng: &mut Rng, draft: &mut Draft, cause: Cause) {
    match cause.number() {
        6 => at_record(rng, draft, cause),
        21 => at_juniors(rng, draft, cause),
        7 => at_session(rng, draft, cause),
        8 => at_tree(rng, draft, cause),
        _ => {}
    }
}

/// Changes the bytes for a cause of 1 to 5. They have a whole header.
pub fn at_bytes(rng: &mut Rng, file: &mut Vec<u8>, cause: Cause) {
    let even = |number: usize| number & !1;
    let version = Version::claimed(file);
    let header = 2 * version.header();
    match cause {
        Cause::Short => file.truncate(1 + rng.below(25)),
        Cause::Odd if rng.once_in(2) => file.push(0),
        Cause::Odd => file.truncate((26 + rng.below(file.len() - 25)) | 1),
        Cause::ShortForSecond => file.truncate(26),
        Cause::Version => {
            let due = word_at(file, 0);
            set_word(file, 0, other(rng, due));
        }
        Cause::Count(section) => {
            let count = rng.from(section.most() + 1, u16::MAX);
            let least = section.most() + 1;
            set_word(file, section.count_at(), *rng.of(&[least, count]));
        }
        Cause::Offset(section) => {
            let Some(at) = version.offset_at(section) else {
                return;
            };
            let due = word_at(file, at);
            set_word(file, at, other(rng, due));
        }
        Cause::Shorter => {
            let more = rng.below(file.len() - header + 1);
            file.truncate(header + even(more.saturating_sub(1)));
        }
        Cause::Longer => {
            let most = *rng.of(&[4, 100, 8_000]);
            file.resize(file.len() + 2 + even(rng.below(most)), 0);
        }
        _ => {}
    }
}

/// Another word than `due`: a near one, 0, the largest or any.
fn other(rng: &mut Rng, due: u16) -> u16 {
    let any = rng.word();
    let near = [due.wrapping_sub(1), due.wrapping_add(1), 0, u16::MAX, any];
    match *rng.of(&near) {
        word if word == due => !due,
        word => word,
    }
}

/// A bit from `count` on, of a mask of `width` bits.
fn bit_above(rng: &mut Rng, count: usize, width: usize) -> Option<usize> {
    (count < width).then(|| count + rng.below(width - count))
}

/// A number above the count.
fn number_above(rng: &mut Rng, count: usize) -> u16 {
    let least = count as u16 + 1;
    let any = rng.from(least, u16::MAX);
    *rng.of(&[least, least, any, u16::MAX])
}

fn at_record(rng: &mut Rng, draft: &mut Draft, cause: Cause) {
    let (users, roles, kinds) = (draft.users.len(), draft.roles.len(), draft.kinds.len());
    match cause {
        Cause::UserRoles if users > 0 => {
            let bit = bit_above(rng, roles, 16);
            let [mask] = &mut draft.users[rng.index(users)];
            *mask |= bit.map_or(0, |bit| 1 << bit);
        }
        Cause::RoleSends | Cause::RoleReceives if roles > 0 => {
            let Some(bit) = bit_above(rng, kinds, 32) else {
                return;
            };
            let grant = if cause == Cause::RoleSends { 0 } else { 2 };
            draft.roles[rng.index(roles)][grant + bit / 16] |= 1 << (bit % 16);
        }
        Cause::KindCarries if kinds > 0 => {
            draft.kinds[rng.index(kinds)] = [number_above(rng, kinds)];
        }
        Cause::OwnerZero => set_channel(rng, draft, 0, 0),
        Cause::OwnerAbove => {
            let owner = number_above(rng, users);
            set_channel(rng, draft, 0, owner);
        }
        Cause::ChannelKindZero => set_channel(rng, draft, 1, 0),
        Cause::ChannelKindAbove => {
            let kind = number_above(rng, kinds);
            set_channel(rng, draft, 1, kind);
        }
        _ => {}
    }
}

/// Gives a role a junior that is not lower: itself, a higher one, or one out of
/// count.
fn at_juniors(rng: &mut Rng, draft: &mut Draft, cause: Cause) {
    let roles = draft.roles.len();
    let Some(juniors) = draft.juniors.as_mut().filter(|_| roles > 0) else {
        return;
    };
    let senior = rng.index(roles);
    let bit = match cause {
        Cause::JuniorItself => Some(senior),
        Cause::JuniorHigher if senior + 1 < roles => {
            Some(senior + 1 + rng.below(roles - senior - 1))
        }
        Cause::JuniorAbove => bit_above(rng, roles, 16),
        _ => None,
    };
    juniors[senior][0] |= bit.map_or(0, |bit| 1 << bit);
}

fn set_channel(rng: &mut Rng, draft: &mut Draft, word: usize, to: u16) {
    if !draft.channels.is_empty() {
        let channel = rng.index(draft.channels.len());
        draft.channels[channel][word] = to;
    }
}

fn at_session(rng: &mut Rng, draft: &mut Draft, cause: Cause) {
    if draft.sessions.is_empty() {
        return;
    }
    let at = rng.index(draft.sessions.len());
    let [user, start, _] = &mut draft.sessions[at];
    match cause {
        Cause::SessionUserZero => *user = 0,
        Cause::SessionUserAbove => *user = number_above(rng, draft.users.len()),
        Cause::StartAbove => {
            let bit = bit_above(rng, draft.roles.len(), 16);
            *start |= bit.map_or(0, |bit| 1 << bit);
        }
        _ => {
            let roles = draft.roles.len();
            let all = ((1u32 << roles) - 1) as u16;
            let one = if roles == 0 { 0 } else { 1 << rng.index(roles) };
            let some = all & rng.word();
            *start |= *rng.of(&[one, one, all, some]);
        }
    }
}

fn at_tree(rng: &mut Rng, draft: &mut Draft, cause: Cause) {
    let (nodes, sessions) = (draft.nodes.len(), draft.sessions.len());
    if nodes == 0 || sessions == 0 {
        return;
    }
    match cause {
        Cause::Root => {
            let [_, _, root] = &mut draft.sessions[rng.index(sessions)];
            *root = other(rng, *root);
        }
        Cause::NoNodesLeft if sessions < usize::from(Section::Sessions.most()) => {
            let [user, start, _] = draft.sessions[rng.index(sessions)];
            let root = other(rng, nodes as u16);
            draft.sessions.push([user, start, root]);
        }
        Cause::Tag => {
            let far = rng.word().max(9);
            draft.nodes[rng.index(nodes)][0] = *rng.of(&[9, far]);
        }
        Cause::Unused { tag, field } => {
            let word = other(rng, 0);
            if let Some(node) = node_of_tag(rng, draft, tag) {
                node[usize::from(field)] = word;
            }
        }
        Cause::SecondChild => {
            if let Some(fork) = rng.find(&draft.nodes, |node| node[0] == 1) {
                draft.nodes[fork][1] = other(rng, draft.nodes[fork][1]);
            }
        }
        Cause::PastLast if rng.once_in(2) => draft.nodes[nodes - 1] = [2, 0, 0],
        Cause::PastLast => draft.nodes.truncate(nodes - 1),
        Cause::LeftOver if rng.once_in(2) || sessions == 1 => {
            draft.nodes.push([rng.from(0, 9), 0, 0]);
        }
        Cause::LeftOver => draft.sessions.truncate(sessions - 1),
        Cause::NinthVariable => {
            let at = rng.index(nodes);
            let binder = |_| [*rng.of(&[3, 5]), rng.from(1, 32), 0];
            let binders: Vec<_> = (0..9).map(binder).collect();
            insert(draft, at, &binders);
        }
        _ => {}
    }
}

/// A node of the tag; one with a single child is turned into it if need be.
fn node_of_tag<'a>(rng: &mut Rng, draft: &'a mut Draft, tag: u16) -> Option<&'a mut [u16; 3]> {
    let found = rng.find(&draft.nodes, |node| node[0] == tag);
    let at = match found {
        None if tag > 1 => {
            let at = rng.find(&draft.nodes, |node| node[0] > 1)?;
            draft.nodes[at] = [tag, u16::from(tag > 2), 0];
            at
        }
        found => found?,
    };
    Some(&mut draft.nodes[at])
}

/// Puts nodes with one child in front of the node at index `at`, and renumbers
/// roots and second children after it.
pub fn insert(draft: &mut Draft, at: usize, nodes: &[[u16; 3]]) {
    if draft.nodes.len() + nodes.len() > usize::from(Section::Nodes.most()) {
        return;
    }
    let move_on = |number: &mut u16| {
        if usize::from(*number) > at + 1 {
            *number = number.wrapping_add(nodes.len() as u16);
        }
    };
    for node in draft.nodes.iter_mut().filter(|node| node[0] == 1) {
        move_on(&mut node[1]);
    }
    for session in &mut draft.sessions {
        move_on(&mut session[2]);
    }
    draft.nodes.splice(at..at, nodes.iter().copied());
}
