//! Files to be placed: mostly sound, with no role active from the start and
//! none put on or off.

use crate::aim::insert;
use crate::change;
use crate::deal::deal;
use crate::desk::{lively_size, open_up, put_in_talk};
use crate::grow::{grow, Bent, Heed};
use crate::rng::Rng;
use crate::schema::{schema, Size};
use crate::wild::Wild;
use second::draft::Draft;
use second::{room_for, Section, Version, ROOM};

/// How many families of files take turns.
const FAMILIES: u64 = 26;

const MOST_NODES: u16 = Section::Nodes.most();

/// File `index` of this version under `seed`, and an output with what it holds
/// beforehand. Some damaged files have another version.
pub fn deal_bare(version: Version, seed: u64, index: u64) -> (Vec<u8>, Vec<u8>) {
    let rng = &mut Rng::new(!seed, index);
    let file = match index % FAMILIES {
        0..=9 => any(rng, version, None).bytes(),
        10..=11 => any(rng, version, Some(Wild::Roles)).bytes(),
        12..=13 => any(rng, version, Some(Wild::Permission)).bytes(),
        14 => any(rng, version, Some(Wild::Names)).bytes(),
        15 => any(rng, version, Some(Wild::Kinds)).bytes(),
        16 => full(rng, version).bytes(),
        17 => long(rng, version).bytes(),
        18 => started(rng, version).bytes(),
        19 => {
            let size = Size::lean(rng);
            sound(rng, version, size, None).bytes()
        }
        20 => {
            let mut file = any(rng, version, None).bytes();
            change::one_word(rng, &mut file);
            file
        }
        21 => {
            let mut file = any(rng, version, None).bytes();
            change::any_bytes(rng, &mut file);
            file
        }
        22 => {
            let nodes = rng.from(1, 40);
            tied_bare(rng, version, nodes).bytes()
        }
        23 if rng.once_in(2) => long_tie(rng, version).bytes(),
        23 => {
            let nodes = rng.from(100, 300);
            let mut draft = tied_bare(rng, version, nodes);
            let nodes = rng.from(MOST_NODES, MOST_NODES + 1);
            pad(rng, &mut draft, nodes);
            draft.bytes()
        }
        24 if version.has_juniors() && rng.once_in(4) => few_bytes(rng, version),
        _ => deal(version, seed, index),
    };
    let room = room(rng, &file);
    (file, filled(rng, room))
}

/// So few bytes that there is hardly a first word, mostly the version's.
fn few_bytes(rng: &mut Rng, version: Version) -> Vec<u8> {
    let any = rng.word().to_le_bytes();
    let number = version.number() as u8;
    let all = [
        [number, 0, any[0]],
        [number, any[0], any[1]],
        [any[0], 0, 0],
        [0, number, 0],
    ];
    let bytes = *rng.of(&[all[0], all[0], all[1], all[2], all[3]]);
    bytes[..*rng.of(&[1, 1, 1, 2, 3])].to_vec()
}

/// The length of an output: mostly long enough, and then mostly just so; for few
/// bytes, mostly as another version would have it.
fn room(rng: &mut Rng, file: &[u8]) -> usize {
    let wanted = room_for(file);
    let [least, most] = Version::BY_ROW.map(Version::largest);
    match rng.below(600) {
        0 => 0,
        1..=6 => wanted - 1,
        7..=12 => rng.below(wanted),
        13 => *rng.of(&[65_536, 65_537, 65_536 + wanted, 100_000]),
        14..=100 => wanted + 1 + rng.below(300),
        101..=130 => wanted + 1 + rng.below(8_000),
        131..=136 => *rng.of(&[least - 1, least, least + 1, most - 1, most, most + 1]),
        137..=142 => least + rng.below(most - least),
        143..=550 if file.len() < 4 => least + rng.below(most - least),
        _ => wanted,
    }
}

/// Random bytes.
pub fn filled(rng: &mut Rng, length: usize) -> Vec<u8> {
    let mut bytes = vec![0; length];
    for chunk in bytes.chunks_mut(8) {
        chunk.copy_from_slice(&rng.number().to_le_bytes()[..chunk.len()]);
    }
    bytes
}

/// A file with at most so many nodes and few roles, whose sends and receives
/// may lack one.
pub fn small_bare(rng: &mut Rng, version: Version, nodes: u16) -> Draft {
    let size = Size {
        users: rng.from(1, 2),
        roles: *rng.of(&[0, 1, 2, 3, 3, 4, 4]),
        kinds: rng.from(1, 5),
        channels: rng.from(2, 7),
        sessions: rng.from(1, 2),
        nodes: rng.from(2, nodes).max(rng.from(2, nodes)),
    };
    let wild = rng.once_in(3).then_some(Wild::Permission);
    sound(rng, version, size, wild)
}

/// A file of one session with so many nodes, whose sends have one or two of three
/// roles to choose from, so that several placements have the fewest on steps.
pub fn tied_bare(rng: &mut Rng, version: Version, nodes: u16) -> Draft {
    let roles = [0x15, 0x26, 0x38];
    let mut draft = Draft {
        users: vec![[7]],
        roles: roles.map(|kinds| [kinds, 0, kinds, 0]).to_vec(),
        juniors: version.has_juniors().then(|| vec![[0]; 3]),
        by_column: version == Version::Three,
        kinds: vec![[0]; 6],
        channels: (1..=6).map(|kind| [1, kind]).collect(),
        sessions: vec![[1, 0, 1]],
        ..Draft::default()
    };
    grow_tied(rng, &mut draft.nodes, nodes);
    draft
}

/// A file of one session whose placement with the fewest idle nodes is one node
/// longer, or shorter, than that with the smallest list: mostly behind so many
/// nodes that one of the two has 1,024 and the other 1,025.
fn long_tie(rng: &mut Rng, version: Version) -> Draft {
    const END: [u16; 3] = [0, 0, 0];
    const COMPARE: [u16; 3] = [4, 1, 1];
    let send = |channel: u16| [6, 256 + channel, 1];
    let longer = rng.once_in(2);
    let before = match (rng.once_in(3), longer) {
        (true, _) => rng.from(0, 1_000),
        (false, true) => 1_009,
        (false, false) => 1_011,
    };
    let fork = |second: u16| [1, before + second, 0];
    let mut draft = tied_bare(rng, version, 1);
    draft.nodes = (0..before)
        .map(|_| *rng.of(&[COMPARE, [2, 0, 0]]))
        .collect();
    draft.nodes.push(send(3));
    draft.nodes.extend(if longer {
        let first = [fork(7), COMPARE, COMPARE, send(1), END];
        [&first[..], &[fork(10), send(2), END, END]].concat()
    } else {
        [fork(7), fork(6), send(1), END, END, send(2), END].to_vec()
    });
    draft
}

/// Adds a tree of so many nodes.
fn grow_tied(rng: &mut Rng, tree: &mut Vec<[u16; 3]>, nodes: u16) {
    if nodes == 1 {
        return tree.push([0, 0, 0]);
    }
    if nodes > 2 && rng.once_in(4) {
        let first = rng.from(1, nodes - 2);
        tree.push([1, tree.len() as u16 + 2 + first, 0]);
        grow_tied(rng, tree, first);
        return grow_tied(rng, tree, nodes - 1 - first);
    }
    let send = [6, 257 + *rng.of(&[0, 0, 1, 1, 2, 2, 3, 4, 5]), 1];
    tree.push(*rng.of(&[send, send, send, [4, 1, 1], [4, 1, 1], [2, 0, 0]]));
    grow_tied(rng, tree, nodes - 1);
}

/// A file with several sessions that meet once it is placed.
pub fn lively_bare(rng: &mut Rng, version: Version) -> Draft {
    let size = lively_size(rng);
    let mut draft = schema(rng, version, size);
    for [_, start, _] in &mut draft.sessions {
        *start = 0;
    }
    open_up(rng, &mut draft);
    let bent = Bent::any(rng);
    grow(rng, &mut draft, size.nodes, bent, Heed::Assigned, None);
    for _ in 0..rng.below(4) {
        put_in_talk(rng, &mut draft, Heed::Assigned);
    }
    draft
}

/// The largest file that is placed with an on step: one tree of 1,022 nodes
/// that needs one of its 16 roles, so that the result has 1,024.
pub fn largest_bare(version: Version, seed: u64) -> Vec<u8> {
    chain_bare(version, seed, Section::Roles.most(), MOST_NODES)
}

/// A file of so many roles and one tree, without forks, that needs one of them.
/// Its result has so many nodes; it has two less. Everything else is at its
/// largest.
pub fn chain_bare(version: Version, seed: u64, roles: u16, nodes: u16) -> Vec<u8> {
    let rng = &mut Rng::new(seed, 0);
    let size = Size {
        roles,
        sessions: 1,
        nodes: nodes - 2,
        ..Size::FULL
    };
    let mut draft = schema(rng, version, size);
    draft.users.fill([u16::MAX >> (16 - roles)]);
    draft.roles[rng.below(roles.into())] = [u16::MAX; 4];
    draft.sessions[0][1] = 0;
    let (bent, heed) = (Bent::CHAIN, Heed::Assigned);
    grow(rng, &mut draft, size.nodes, bent, heed, None);
    draft.bytes()
}

/// A file of 32 sessions and 16 roles with forks, whose result has exactly
/// 1,024 nodes.
pub fn full_bare(seed: u64) -> Vec<u8> {
    let placed = (1..=MOST_NODES).rev().find_map(|nodes| {
        let rng = &mut Rng::new(seed, nodes.into());
        let mut draft = usual(
            rng,
            Version::One,
            Size {
                nodes,
                ..Size::FULL
            },
        );
        pad(rng, &mut draft, MOST_NODES).then_some(draft)
    });
    placed.expect("few nodes are placed").bytes()
}

/// A file of 1,024 nodes and 16 roles, whose result has more.
pub fn overfull_bare(seed: u64) -> Vec<u8> {
    usual(&mut Rng::new(seed, 0), Version::One, Size::FULL).bytes()
}

/// A file of 40 nodes.
pub fn typical_bare(version: Version, seed: u64) -> Vec<u8> {
    usual(&mut Rng::new(seed, 0), version, Size::TYPICAL).bytes()
}

fn usual(rng: &mut Rng, version: Version, size: Size) -> Draft {
    grown(rng, version, size, Bent::USUAL, None)
}

fn any(rng: &mut Rng, version: Version, wild: Option<Wild>) -> Draft {
    let size = Size::any(rng);
    sound(rng, version, size, wild)
}

fn sound(rng: &mut Rng, version: Version, size: Size, wild: Option<Wild>) -> Draft {
    let bent = Bent::any(rng);
    grown(rng, version, size, bent, wild)
}

fn grown(rng: &mut Rng, version: Version, size: Size, bent: Bent, wild: Option<Wild>) -> Draft {
    let mut draft = schema(rng, version, size);
    for [_, start, _] in &mut draft.sessions {
        *start = 0;
    }
    if rng.once_in(2) {
        grant_few(rng, &mut draft);
    }
    grow(rng, &mut draft, size.nodes, bent, Heed::Assigned, wild);
    draft
}

/// Lets one to three roles send on each kind, and as many receive; most users
/// have all roles.
pub fn grant_few(rng: &mut Rng, draft: &mut Draft) {
    let roles = draft.roles.len();
    if roles == 0 {
        return;
    }
    draft.roles.fill([0; 4]);
    for kind in 0..draft.kinds.len() {
        for grant in [0, 2] {
            for _ in 0..*rng.of(&[1, 1, 2, 2, 3]) {
                draft.roles[rng.below(roles)][grant + kind / 16] |= 1 << (kind % 16);
            }
        }
    }
    for [mask] in &mut draft.users {
        if !rng.once_in(4) {
            *mask = ((1u32 << roles) - 1) as u16;
        }
    }
}

/// A file with at least one starting mask, if a session's user has a role.
fn started(rng: &mut Rng, version: Version) -> Draft {
    let wild = rng.once_in(2).then_some(Wild::Roles);
    let mut draft = any(rng, version, wild);
    for _ in 0..=rng.below(2) {
        let at = rng.index(draft.sessions.len());
        let [user, start, _] = &mut draft.sessions[at];
        let [assigned] = draft.users[usize::from(*user) - 1];
        *start = *rng.of(&[assigned, assigned & assigned.wrapping_neg()]);
    }
    draft
}

/// Many nodes, so that the result is often too large.
fn long(rng: &mut Rng, version: Version) -> Draft {
    let size = Size {
        nodes: rng.from(300, MOST_NODES),
        ..Size::middle(rng)
    };
    sound(rng, version, size, None)
}

/// A file whose result has 1,024 nodes, or one or two more or less.
fn full(rng: &mut Rng, version: Version) -> Draft {
    let middle = Size::middle(rng);
    let size = Size {
        nodes: rng.from(32, 500),
        ..*rng.of(&[middle, middle, middle, Size::FULL])
    };
    let mut draft = sound(rng, version, size, None);
    let nodes = rng.from(MOST_NODES - 2, MOST_NODES + 2);
    pad(rng, &mut draft, nodes);
    draft
}

/// Puts idle nodes in front of an end, so that the result has this many nodes;
/// false if it has more already. In front of an end they have no role, so the
/// result grows by each of them.
fn pad(rng: &mut Rng, draft: &mut Draft, nodes: u16) -> bool {
    let mut out = [0; ROOM];
    let placed = second::place(&draft.bytes(), &mut out);
    if placed.number != 0 {
        return false;
    }
    let now = Draft::of(&out[..placed.length.into()]).nodes.len();
    let Some(missing) = usize::from(nodes).checked_sub(now) else {
        return false;
    };
    let end = rng.find(&draft.nodes, |node| node[0] == 0);
    let idle = *rng.of(&[[2, 0, 0], [4, 1, 1]]);
    insert(draft, end.expect("a tree has an end"), &vec![idle; missing]);
    true
}
