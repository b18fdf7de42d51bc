//! Two files of version 1 in one: refusals 17, 25, and 3 for the sums.

use crate::cause::{Cause, Refusal};
use crate::file::{three, word, File, Section, Version};

/// The bytes that the output must have, whatever is written there.
pub const MERGED_ROOM: usize = Version::One.largest();

/// Refusal 17.
pub fn judge_room(room: usize) -> Result<(), Refusal> {
    if room < MERGED_ROOM {
        return refuse(Cause::OutputTooShort);
    }
    Ok(())
}

/// Refusal 25, and then 3 for the sums.
pub fn judge(first: &File, second: &File) -> Result<(), Refusal> {
    judge_tables(first, second)?;
    for (section, sum) in sums(first, second) {
        if sum > section.most() {
            return refuse(Cause::Sum(section));
        }
    }
    Ok(())
}

/// Refusal 25.
fn judge_tables(first: &File, second: &File) -> Result<(), Refusal> {
    if first.roles.len() != second.roles.len() {
        return refuse(Cause::RoleCounts);
    }
    if first.roles != second.roles {
        return refuse(Cause::RolesDiffer);
    }
    if first.kinds.len() != second.kinds.len() {
        return refuse(Cause::KindCounts);
    }
    if first.kinds != second.kinds {
        return refuse(Cause::KindsDiffer);
    }
    Ok(())
}

fn refuse<T>(cause: Cause) -> Result<T, Refusal> {
    Err(Refusal { cause, place: 0 })
}

/// The sections that both files fill, with their records together.
fn sums(first: &File, second: &File) -> [(Section, u16); 4] {
    let sum = |section, one: usize, other: usize| (section, (one + other) as u16);
    let (users, channels) = (first.users.len(), first.channels.len());
    let (sessions, nodes) = (first.sessions.len(), first.nodes.len());
    [
        sum(Section::Users, users, second.users.len()),
        sum(Section::Channels, channels, second.channels.len()),
        sum(Section::Sessions, sessions, second.sessions.len()),
        sum(Section::Nodes, nodes, second.nodes.len()),
    ]
}

/// By how much the numbers of the second file's users, channels and nodes go up.
struct Shift {
    users: u16,
    channels: u16,
    nodes: u16,
}

impl Shift {
    /// Behind all that the first file has.
    fn behind(first: &File) -> Shift {
        Shift {
            users: first.users.len() as u16,
            channels: first.channels.len() as u16,
            nodes: first.nodes.len() as u16,
        }
    }

    fn operand(&self, operand: u16) -> u16 {
        match operand {
            1..=32 => operand + self.users,
            257..=320 => operand + self.channels,
            _ => operand,
        }
    }

    fn channel(&self, channel: &[u8; 4]) -> [u16; 2] {
        let (owner, kind) = (word(channel, 0), word(channel, 1));
        [owner + self.users, kind]
    }

    fn session(&self, session: &[u8; 6]) -> [u16; 3] {
        let [user, mask, root] = three(session);
        [user + self.users, mask, root + self.nodes]
    }

    fn node(&self, node: [u16; 3]) -> [u16; 3] {
        match node {
            [1, second, f2] => [1, second + self.nodes, f2],
            [4, one, other] => [4, self.operand(one), self.operand(other)],
            [5, channel, f2] => [5, self.operand(channel), f2],
            [6, channel, value] => [6, self.operand(channel), self.operand(value)],
            unnumbered => unnumbered,
        }
    }
}

/// Writes both files as one at the start of `out`, and gives its length. Nothing of
/// them is refused, and the output is long enough.
pub fn write(first: &File, second: &File, out: &mut [u8]) -> u16 {
    let shift = Shift::behind(first);
    let mut pen = Pen { out, at: 0 };
    pen.header(first, second);
    pen.bytes(first.users.as_flattened());
    pen.bytes(second.users.as_flattened());
    pen.bytes(first.roles.as_flattened());
    pen.bytes(first.kinds.as_flattened());
    pen.bytes(first.channels.as_flattened());
    for channel in second.channels {
        pen.words(shift.channel(channel));
    }
    pen.bytes(first.sessions.as_flattened());
    for session in second.sessions {
        pen.words(shift.session(session));
    }
    pen.bytes(first.node_bytes());
    // In version 1 they stand in rows.
    for node in second.node_bytes().as_chunks().0 {
        pen.words(shift.node(three(node)));
    }
    pen.at as u16
}

/// Writes from the start of the output on.
struct Pen<'a> {
    out: &'a mut [u8],
    at: usize,
}

impl Pen<'_> {
    fn bytes(&mut self, bytes: &[u8]) {
        self.out[self.at..self.at + bytes.len()].copy_from_slice(bytes);
        self.at += bytes.len();
    }

    fn words<const N: usize>(&mut self, words: [u16; N]) {
        let room = &mut self.out[self.at..self.at + 2 * N];
        for (bytes, word) in room.as_chunks_mut().0.iter_mut().zip(words) {
            *bytes = word.to_le_bytes();
        }
        self.at += 2 * N;
    }

    /// The version, the counts, and the offsets that follow from them.
    fn header(&mut self, first: &File, second: &File) {
        let [(_, users), (_, channels), (_, sessions), (_, nodes)] = sums(first, second);
        let (roles, kinds) = (first.roles.len() as u16, first.kinds.len() as u16);
        let counts = [users, roles, kinds, channels, sessions, nodes];
        self.words([Version::One.number()]);
        self.words(counts);
        let mut offset = Version::One.header() as u16;
        for (section, count) in Section::COUNTED.into_iter().zip(counts) {
            self.words([offset]);
            offset += count * section.width();
        }
    }
}
