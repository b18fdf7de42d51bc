//! The binary layout: a file's records, and its bytes.

/// The versions of the format. `Nothing` is the file of zero bytes, which is read as
/// version 1 with no records.
#[derive(Clone, Copy, Debug, Default, PartialEq, Eq)]
pub enum Version {
    #[default]
    Nothing,
    One,
    /// Roles have juniors.
    Two,
    /// Version 2 with its nodes by column.
    Three,
}

impl Version {
    /// The version of this number.
    pub fn numbered(number: u16) -> Option<Version> {
        match number {
            1 => Some(Version::One),
            2 => Some(Version::Two),
            3 => Some(Version::Three),
            _ => None,
        }
    }

    pub fn number(self) -> u16 {
        match self {
            Version::Nothing | Version::One => 1,
            Version::Two => 2,
            Version::Three => 3,
        }
    }

    /// Whether roles have juniors.
    pub fn has_juniors(self) -> bool {
        matches!(self, Version::Two | Version::Three)
    }
}

/// What a role may: masks of kinds, and of its junior roles.
#[derive(Clone, Copy, Debug, Default, PartialEq, Eq)]
pub struct Role {
    pub sends: u32,
    pub receives: u32,
    pub juniors: u16,
}

#[derive(Clone, Copy, Debug, Default, PartialEq, Eq)]
pub struct Channel {
    pub owner: u16,
    pub kind: u16,
}

#[derive(Clone, Copy, Debug, Default, PartialEq, Eq)]
pub struct Session {
    pub user: u16,
    /// The mask of the roles that are active at the start.
    pub mask: u16,
    pub root: u16,
}

/// Tag, f1, f2.
pub type Node = [u16; 3];

pub const END: u16 = 0;
pub const FORK: u16 = 1;
pub const REPEAT: u16 = 2;
pub const NEW: u16 = 3;
pub const COMPARE: u16 = 4;
pub const RECEIVE: u16 = 5;
pub const SEND: u16 = 6;
pub const ON: u16 = 7;
pub const OFF: u16 = 8;

/// The most users, roles, kinds, channels, sessions and nodes.
pub const MOST: [usize; 6] = [32, 16, 32, 64, 32, 1_024];

/// The most variables on a path.
pub const VARIABLES: usize = 8;

/// A file taken apart.
#[derive(Clone, Debug, Default, PartialEq, Eq)]
pub struct Records {
    pub version: Version,
    /// For each user the mask of its roles.
    pub users: Vec<u16>,
    pub roles: Vec<Role>,
    /// For each kind what it carries: 0 a plain value, j a channel of kind j.
    pub kinds: Vec<u16>,
    pub channels: Vec<Channel>,
    pub sessions: Vec<Session>,
    pub nodes: Vec<Node>,
}

impl Records {
    /// The records of a file that 1 to 5 let through.
    pub fn of(bytes: &[u8]) -> Option<Records> {
        let (pairs, rest) = bytes.as_chunks();
        let words: Vec<u16> = pairs.iter().copied().map(u16::from_le_bytes).collect();
        let Some(&first) = words.first() else {
            return rest.is_empty().then(Records::default);
        };
        let version = Version::numbered(first).filter(|_| rest.is_empty())?;
        let counts: [u16; 6] = *words.get(1..)?.first_chunk()?;
        let counts = counts.map(usize::from);
        let in_range = counts.iter().zip(MOST).all(|(&count, most)| count <= most);
        let widths = widths(version, counts);
        let mut starts = vec![7 + widths.len()];
        for width in &widths {
            starts.push(starts[starts.len() - 1] + width);
        }
        let offsets = words
            .get(7..starts[0])?
            .iter()
            .map(|&word| usize::from(word));
        let whole = starts.last() == Some(&words.len());
        if !(in_range && whole && offsets.eq(starts[..widths.len()].iter().copied())) {
            return None;
        }
        let mut sections = starts.windows(2).map(|two| &words[two[0]..two[1]]);
        let mut section = || sections.next().unwrap_or_default();
        let (users, grants) = (section(), section());
        let juniors = match version.has_juniors() {
            true => section().to_vec(),
            false => vec![0; counts[1]],
        };
        let (kinds, channels, sessions, nodes) = (section(), section(), section(), section());
        let wide = |low, high| u32::from(high) << 16 | u32::from(low);
        let role = |(&[a, b, c, d], juniors): (&[u16; 4], u16)| Role {
            sends: wide(a, b),
            receives: wide(c, d),
            juniors,
        };
        let channel = |&[owner, kind]: &[u16; 2]| Channel { owner, kind };
        let session = |&[user, mask, root]: &[u16; 3]| Session { user, mask, root };
        Some(Records {
            version,
            users: users.to_vec(),
            roles: grants.as_chunks().0.iter().zip(juniors).map(role).collect(),
            kinds: kinds.to_vec(),
            channels: channels.as_chunks().0.iter().map(channel).collect(),
            sessions: sessions.as_chunks().0.iter().map(session).collect(),
            nodes: nodes_of(version, nodes, counts[5]),
        })
    }

    /// The file. Of more records than a file may have the counts come out wrong.
    pub fn bytes(&self) -> Vec<u8> {
        if self.version == Version::Nothing {
            return Vec::new();
        }
        let counts = [
            self.users.len(),
            self.roles.len(),
            self.kinds.len(),
            self.channels.len(),
            self.sessions.len(),
            self.nodes.len(),
        ];
        let mut words = vec![self.version.number()];
        words.extend(counts.map(|count| count as u16));
        let widths = widths(self.version, counts);
        let mut start = 7 + widths.len();
        for width in widths {
            words.push(start as u16);
            start += width;
        }
        words.extend(&self.users);
        let split = |mask: u32| [mask as u16, (mask >> 16) as u16];
        words.extend(self.roles.iter().flat_map(|role| {
            let [sends, receives] = [role.sends, role.receives].map(split);
            [sends, receives].concat()
        }));
        if self.version.has_juniors() {
            words.extend(self.roles.iter().map(|role| role.juniors));
        }
        words.extend(&self.kinds);
        words.extend(self.channels.iter().flat_map(|c| [c.owner, c.kind]));
        words.extend(self.sessions.iter().flat_map(|s| [s.user, s.mask, s.root]));
        match self.version {
            Version::Three => {
                for column in 0..3 {
                    words.extend(self.nodes.iter().map(|node| node[column]));
                }
            }
            _ => words.extend(self.nodes.as_flattened()),
        }
        words.into_iter().flat_map(u16::to_le_bytes).collect()
    }
}

/// The words of each section, in the file's order.
fn widths(version: Version, counts: [usize; 6]) -> Vec<usize> {
    let [users, roles, kinds, channels, sessions, nodes] = counts;
    let mut widths = vec![users, 4 * roles];
    if version.has_juniors() {
        widths.push(roles);
    }
    widths.extend([kinds, 2 * channels, 3 * sessions, 3 * nodes]);
    widths
}

/// The nodes of a section, by row or by column.
fn nodes_of(version: Version, words: &[u16], count: usize) -> Vec<Node> {
    match version {
        Version::Three => (0..count)
            .map(|at| [0, 1, 2].map(|column| words[column * count + at]))
            .collect(),
        _ => words.as_chunks().0.to_vec(),
    }
}

/// The items of a mask, lowest first, from 1.
pub fn items(mask: u32) -> impl Iterator<Item = usize> {
    (1..=32).filter(move |item| mask >> (item - 1) & 1 == 1)
}

/// The mask of an item from 1 to 32.
pub fn bit(item: usize) -> u32 {
    1 << (item - 1)
}
