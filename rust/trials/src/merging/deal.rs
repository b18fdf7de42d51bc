//! Two files to be merged, by index.

use super::aim;
use crate::bare::{filled, grant_few};
use crate::deal::deal;
use crate::desk::{lively_size, open_up, put_in_talk};
use crate::grow::{grow, Bent, Heed};
use crate::rng::Rng;
use crate::schema::{schema, Size};
use crate::wild::Wild;
use second::draft::Draft;
use second::{Cause, Section, Version, MERGED_ROOM};

/// How many families of pairs take turns.
const FAMILIES: u64 = 32;

/// Two files, and an output with what it holds beforehand.
#[derive(Clone, Debug)]
pub struct Pair {
    pub first: Vec<u8>,
    pub second: Vec<u8>,
    pub before: Vec<u8>,
}

impl Pair {
    /// All of it, to be had back.
    pub fn told(&self) -> String {
        let hex = |file: &[u8]| -> String { file.iter().map(|b| format!("{b:02x}")).collect() };
        format!(
            "output of {} bytes, on {} and {} bytes, to be had back by `xxd -r -p`:\n{}\n\n{}",
            self.before.len(),
            self.first.len(),
            self.second.len(),
            hex(&self.first),
            hex(&self.second)
        )
    }
}

/// Pair `index` under `seed`.
pub fn deal_pair(seed: u64, index: u64) -> Pair {
    let rng = &mut Rng::new(seed.rotate_left(8), index);
    let [first, second] = match index % FAMILIES {
        0..=4 => checked(rng),
        5..=7 => bare(rng),
        8 => long(rng),
        9..=10 => at_limits(rng),
        11..=13 => other_tables(rng),
        14 => nothing(rng),
        15 => any(rng),
        _ => wrong(rng),
    };
    let room = room(rng);
    Pair {
        first,
        second,
        before: filled(rng, room),
    }
}

/// The length of an output: mostly just enough.
fn room(rng: &mut Rng) -> usize {
    match rng.below(120) {
        0 => 0,
        1..=2 => MERGED_ROOM - 1,
        3 => rng.below(MERGED_ROOM),
        4..=9 => MERGED_ROOM + 1 + rng.below(300),
        10 => *rng.of(&[6_908, 65_535, 65_536, 65_536 + MERGED_ROOM - 1, 80_000]),
        _ => MERGED_ROOM,
    }
}

/// Two drafts of these sizes with the roles and kinds of the first, and no trees yet.
fn twins(rng: &mut Rng, [one, other]: [Size; 2]) -> [Draft; 2] {
    let first = schema(rng, Version::One, one);
    let mut second = schema(
        rng,
        Version::One,
        Size {
            roles: one.roles,
            kinds: one.kinds,
            ..other
        },
    );
    second.roles.clone_from(&first.roles);
    second.kinds.clone_from(&first.kinds);
    [first, second]
}

/// Two sizes that mostly fit into one file.
fn sizes(rng: &mut Rng) -> [Size; 2] {
    match rng.below(40) {
        0 => [half(); 2],
        1..=2 => [(); 2].map(|()| Size::lean(rng)),
        3..=5 => [(); 2].map(|()| Size::edge(rng)),
        6 => [(); 2].map(|()| Size::any(rng)),
        _ => [(); 2].map(|()| Size::middle(rng)),
    }
}

/// Half of everything that two files fill.
fn half() -> Size {
    Size {
        users: Section::Users.most() / 2,
        channels: Section::Channels.most() / 2,
        sessions: Section::Sessions.most() / 2,
        nodes: Section::Nodes.most() / 2,
        ..Size::FULL
    }
}

/// Gives both their trees.
fn grown(
    rng: &mut Rng,
    mut drafts: [Draft; 2],
    sizes: [Size; 2],
    heed: Heed,
    wild: [Option<Wild>; 2],
) -> [Draft; 2] {
    for ((draft, size), wild) in drafts.iter_mut().zip(sizes).zip(wild) {
        let bent = Bent::any(rng);
        grow(rng, draft, size.nodes, bent, heed, wild);
    }
    drafts
}

fn bytes(drafts: [Draft; 2]) -> [Vec<u8>; 2] {
    drafts.map(|draft| draft.bytes())
}

/// A wild node in neither, in one of the two, or in both.
fn in_one(rng: &mut Rng, wild: Wild) -> [Option<Wild>; 2] {
    match rng.below(5) {
        0 => [Some(wild), None],
        1 => [None, Some(wild)],
        2 => [Some(wild); 2],
        _ => [None; 2],
    }
}

/// Two that pass the check, or don't.
fn checked(rng: &mut Rng) -> [Vec<u8>; 2] {
    let sizes = sizes(rng);
    let drafts = twins(rng, sizes);
    let wild = in_one(rng, Wild::Roles);
    bytes(grown(rng, drafts, sizes, Heed::Active, wild))
}

/// Two that can be placed, or can't for want of a role.
fn bare(rng: &mut Rng) -> [Vec<u8>; 2] {
    let sizes = sizes(rng);
    let wild = in_one(rng, Wild::Permission);
    bare_of(rng, sizes, wild)
}

/// Two with so many nodes that they can be placed each, and often not in one.
fn long(rng: &mut Rng) -> [Vec<u8>; 2] {
    let sizes = [(); 2].map(|()| Size {
        nodes: rng.from(200, 512),
        ..Size::middle(rng)
    });
    bare_of(rng, sizes, [None; 2])
}

fn bare_of(rng: &mut Rng, sizes: [Size; 2], wild: [Option<Wild>; 2]) -> [Vec<u8>; 2] {
    let mut drafts = twins(rng, sizes);
    if !rng.once_in(3) {
        drafts.iter_mut().for_each(|draft| grant_few(rng, draft));
        let [first, second] = &mut drafts;
        second.roles.clone_from(&first.roles);
    }
    for draft in &mut drafts {
        for [_, start, _] in &mut draft.sessions {
            *start = 0;
        }
    }
    bytes(grown(rng, drafts, sizes, Heed::Assigned, wild))
}

/// Two whose records of one section, or of all, come to its limit or above.
fn at_limits(rng: &mut Rng) -> [Vec<u8>; 2] {
    let mut sizes = [(); 2].map(|()| Size::middle(rng));
    let all = rng.once_in(20);
    if all {
        sizes = [half(); 2];
    }
    let section = *rng.of(&[
        Section::Users,
        Section::Channels,
        Section::Sessions,
        Section::Nodes,
    ]);
    let most = section.most();
    let any = most + rng.from(1, most);
    let sum = *rng.of(&[most, most, most + 1, most + 1, any]);
    let least = if section == Section::Channels { 0 } else { 1 };
    let low = sum.saturating_sub(most).max(least);
    let one = match rng.below(3) {
        0 if !all => rng.from(low, (sum - least).min(most)),
        1 if !all => *rng.of(&[low, (sum - least).min(most)]),
        _ => sum / 2,
    };
    for (size, count) in sizes.iter_mut().zip([one, sum - one]) {
        match section {
            Section::Users => size.users = count,
            Section::Channels => size.channels = count,
            Section::Sessions => size.sessions = count,
            _ => size.nodes = count,
        }
        size.sessions = match section {
            Section::Nodes => size.sessions.min(size.nodes),
            _ => size.sessions,
        };
        size.nodes = size.nodes.max(size.sessions);
    }
    let drafts = twins(rng, sizes);
    bytes(grown(rng, drafts, sizes, Heed::Active, [None; 2]))
}

/// Two whose roles or kinds differ, sometimes with too many records together.
fn other_tables(rng: &mut Rng) -> [Vec<u8>; 2] {
    let sizes = match rng.below(6) {
        0 => [(); 2].map(|()| Size {
            users: rng.from(17, 32),
            ..Size::edge(rng)
        }),
        1..=3 => [(); 2].map(|()| Size {
            kinds: rng.from(20, 32),
            ..Size::middle(rng)
        }),
        _ => sizes(rng),
    };
    let mut drafts = twins(rng, sizes);
    let changes = 1 + rng.below(2) * rng.below(2);
    for _ in 0..changes {
        change_tables(rng, &mut drafts);
    }
    bytes(grown(rng, drafts, sizes, Heed::Active, [None; 2]))
}

/// Changes the tables of either, so that it stays sound. Where there is nothing to
/// change they stay the same.
fn change_tables(rng: &mut Rng, drafts: &mut [Draft; 2]) {
    let draft = &mut drafts[rng.below(2)];
    let (roles, kinds) = (draft.roles.len(), draft.kinds.len());
    match rng.below(8) {
        0 if roles < 16 => draft.roles.push([0; 4]),
        1 if kinds < 32 => draft.kinds.push([rng.from(0, kinds as u16)]),
        2..=4 if roles > 0 && kinds > 0 => {
            let (kind, grant) = (rng.index(kinds), *rng.of(&[0, 2]));
            draft.roles[rng.index(roles)][grant + kind / 16] ^= 1 << (kind % 16);
        }
        5 if roles > 1 => draft.roles.swap(0, roles - 1),
        _ if kinds > 0 => draft.kinds[rng.index(kinds)] = [rng.from(0, kinds as u16)],
        _ => {}
    }
}

/// Zero bytes on a side or on both, or the file without a record.
fn nothing(rng: &mut Rng) -> [Vec<u8>; 2] {
    let [one, other] = [(); 2].map(|()| match rng.below(4) {
        0 => Draft::default().bytes(),
        _ => Vec::new(),
    });
    let file = match rng.below(8) {
        sort @ 0..=3 => {
            let with_tables = Size::middle(rng);
            let size = match sort {
                0 => with_tables,
                _ => Size {
                    roles: 0,
                    kinds: 0,
                    ..with_tables
                },
            };
            let mut draft = schema(rng, Version::One, size);
            let bent = Bent::any(rng);
            grow(rng, &mut draft, size.nodes, bent, Heed::Active, None);
            draft.bytes()
        }
        4 => deal(Version::One, rng.number(), rng.number()),
        5 => {
            let [file, _] = wrong(rng);
            file
        }
        _ => return [one, other],
    };
    match rng.below(2) {
        0 => [one, file],
        _ => [file, other],
    }
}

/// Any two files of the trials, of any version.
fn any(rng: &mut Rng) -> [Vec<u8>; 2] {
    [(); 2].map(|()| {
        let version = *rng.of(&Version::ALL);
        deal(version, rng.number(), rng.number())
    })
}

/// Two that would do, but for a cause of 1 to 10 in one of them or in both.
fn wrong(rng: &mut Rng) -> [Vec<u8>; 2] {
    let sizes = match rng.below(12) {
        0 => sizes(rng),
        _ => [(); 2].map(|()| Size::middle(rng)),
    };
    let drafts = twins(rng, sizes);
    let mut drafts = grown(rng, drafts, sizes, Heed::Active, [None; 2]);
    // The rarest is tried for more often.
    let causes = [Cause::to_be_merged(), vec![Cause::StartNotAssigned; 2]].concat();
    let sides = match rng.below(20) {
        0..=7 => [true, false],
        8..=17 => [false, true],
        _ => [true, true],
    };
    let aims = sides.map(|wrong| wrong.then(|| *rng.of(&causes)));
    for (draft, aim) in drafts.iter_mut().zip(aims) {
        aim.inspect(|cause| aim::at_draft(rng, draft, *cause));
    }
    let mut files = bytes(drafts);
    for (file, aim) in files.iter_mut().zip(aims) {
        aim.inspect(|cause| aim::at_bytes(rng, file, *cause));
    }
    files
}

/// Two files with sessions that meet, small enough for one.
pub fn lively_pair(rng: &mut Rng) -> [Draft; 2] {
    let sizes = [(); 2].map(|()| lively_size(rng));
    let mut drafts = twins(rng, sizes);
    drafts.iter_mut().for_each(|draft| open_up(rng, draft));
    let [first, second] = &mut drafts;
    second.roles.clone_from(&first.roles);
    second.kinds.clone_from(&first.kinds);
    let mut drafts = grown(rng, drafts, sizes, Heed::Active, [None; 2]);
    for draft in &mut drafts {
        for _ in 0..1 + rng.below(3) {
            put_in_talk(rng, draft, Heed::Active);
        }
    }
    drafts
}

/// Two files that pass the check, whose records together are as many as a file can
/// have.
pub fn largest_pair(seed: u64) -> [Vec<u8>; 2] {
    usual_pair(seed, half())
}

/// Two files of 40 nodes that pass the check.
pub fn typical_pair(seed: u64) -> [Vec<u8>; 2] {
    usual_pair(seed, Size::TYPICAL)
}

fn usual_pair(seed: u64, size: Size) -> [Vec<u8>; 2] {
    let rng = &mut Rng::new(seed, 0);
    let mut drafts = twins(rng, [size; 2]);
    for draft in &mut drafts {
        grow(rng, draft, size.nodes, Bent::USUAL, Heed::Active, None);
    }
    bytes(drafts)
}
