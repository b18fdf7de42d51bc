//! A file's records, as far as they can be recognized. Nothing is judged here.

use crate::length::{Bytes, Length};

/// What a section is called, the words of a record, the most records, and which
/// of the head's counts is that of its records.
#[derive(Clone, Copy)]
pub struct Section {
    pub name: &'static str,
    pub one: &'static str,
    pub width: usize,
    pub most: u16,
    counted: usize,
}

const fn section(
    name: &'static str,
    one: &'static str,
    width: usize,
    most: u16,
    counted: usize,
) -> Section {
    Section {
        name,
        one,
        width,
        most,
        counted,
    }
}

pub const USERS: Section = section("users", "user", 1, 32, 0);
pub const ROLES: Section = section("roles", "role", 4, 16, 1);
/// A mask for each role, in versions 2 and 3 alone.
pub const JUNIORS: Section = section("juniors", "junior mask", 1, 16, 1);
pub const KINDS: Section = section("kinds", "kind", 1, 32, 2);
pub const CHANNELS: Section = section("channels", "channel", 2, 64, 3);
pub const SESSIONS: Section = section("sessions", "session", 3, 32, 4);
pub const NODES: Section = section("nodes", "node", 3, 1_024, 5);

/// The sections that have a count of their own, in the order of the counts, which
/// is that of version 1's sections.
pub const COUNTED: [Section; 6] = [USERS, ROLES, KINDS, CHANNELS, SESSIONS, NODES];

/// The sections of versions 2 and 3.
const OF_SECOND: [Section; 7] = [USERS, ROLES, JUNIORS, KINDS, CHANNELS, SESSIONS, NODES];

/// The sections of a version, in the file's order.
fn sections(version: u16) -> &'static [Section] {
    match version {
        2 | 3 => &OF_SECOND,
        _ => &COUNTED,
    }
}

/// Words in a version's head: the version, the counts, an offset for each
/// section.
fn head_words(version: u16) -> usize {
    OFFSETS + sections(version).len()
}

/// The word of the head at which the offsets begin.
const OFFSETS: usize = 1 + COUNTED.len();

/// What zero bytes are read as: version 1, no records, every section after the head.
const NOTHING_PLANNED: [u16; 13] = [1, 0, 0, 0, 0, 0, 0, 13, 13, 13, 13, 13, 13];

/// A file taken apart.
#[derive(Default)]
pub struct Clinic {
    /// Its length; 0 where nothing is planned.
    pub length: Length,
    /// The words of its head, or as many as there are. Of zero bytes, the head that
    /// they are read as.
    pub head: Vec<u16>,
    /// The counts, if the head is whole, its version is known and all of them
    /// are in range. Only then are there records.
    pub counts: Option<[usize; 6]>,
    pub users: Vec<[u16; 1]>,
    pub roles: Vec<[u16; 4]>,
    /// None in version 1.
    pub juniors: Vec<[u16; 1]>,
    pub kinds: Vec<[u16; 1]>,
    pub channels: Vec<[u16; 2]>,
    pub sessions: Vec<[u16; 3]>,
    pub nodes: Vec<[u16; 3]>,
}

impl Clinic {
    /// Takes any bytes apart: records stand where the counts put them, up to
    /// the end of the file.
    pub fn of<B: Bytes + ?Sized>(file: &B) -> Clinic {
        let bytes = file.start();
        let words: Vec<u16> = match bytes {
            [] => NOTHING_PLANNED.to_vec(),
            _ => bytes.chunks_exact(2).map(word).collect(),
        };
        let version = words.first().copied().unwrap_or(0);
        let (head, mut rest) = words.split_at(head_words(version).min(words.len()));
        let mut clinic = Clinic {
            length: file.length(),
            head: head.to_vec(),
            ..Clinic::default()
        };
        clinic.counts = clinic.counts_in_range();
        if clinic.counts.is_some() {
            clinic.users = take(&mut rest, clinic.count(USERS));
            clinic.roles = take(&mut rest, clinic.count(ROLES));
            if clinic.has_juniors() {
                clinic.juniors = take(&mut rest, clinic.count(JUNIORS));
            }
            clinic.kinds = take(&mut rest, clinic.count(KINDS));
            clinic.channels = take(&mut rest, clinic.count(CHANNELS));
            clinic.sessions = take(&mut rest, clinic.count(SESSIONS));
            clinic.nodes = match clinic.is_by_column() {
                true => take_columns(rest, clinic.count(NODES)),
                false => take(&mut rest, clinic.count(NODES)),
            };
        }
        clinic
    }

    /// The first word, 0 where there is none.
    pub fn version(&self) -> u16 {
        self.head.first().copied().unwrap_or(0)
    }

    /// Whether its version is known and its head is whole.
    pub fn has_head(&self) -> bool {
        let version = self.version();
        matches!(version, 1..=3) && self.head.len() == head_words(version)
    }

    /// Whether its version has masks of juniors.
    pub fn has_juniors(&self) -> bool {
        matches!(self.version(), 2 | 3)
    }

    /// Whether its version has the nodes by column.
    pub fn is_by_column(&self) -> bool {
        self.version() == 3
    }

    /// The counts as the head has them.
    pub fn counted(&self) -> &[u16] {
        self.head.get(1..OFFSETS).unwrap_or_default()
    }

    /// The offsets as the head has them, each with its section.
    pub fn offsets(&self) -> impl Iterator<Item = (Section, u16)> + '_ {
        let offsets = self.head.get(OFFSETS..).unwrap_or_default();
        let sections = sections(self.version()).iter().copied();
        sections.zip(offsets.iter().copied())
    }

    fn counts_in_range(&self) -> Option<[usize; 6]> {
        let counts: &[u16; 6] = self.counted().first_chunk()?;
        let in_range = counts
            .iter()
            .zip(&COUNTED)
            .all(|(&count, section)| count <= section.most);
        (self.has_head() && in_range).then(|| counts.map(usize::from))
    }

    /// How many records of a section the head counts.
    pub fn count(&self, section: Section) -> usize {
        self.counts.map_or(0, |counts| counts[section.counted])
    }

    /// The word at which a section begins by the counts.
    pub fn start(&self, section: Section) -> usize {
        let all = sections(self.version()).iter();
        self.words_of(all.take_while(|before| before.name != section.name))
    }

    /// The file's length in words by the counts.
    pub fn words(&self) -> usize {
        self.words_of(sections(self.version()).iter())
    }

    /// The words of the head and of these sections.
    fn words_of<'a>(&self, sections: impl Iterator<Item = &'a Section>) -> usize {
        let records = sections.map(|&section| self.count(section) * section.width);
        head_words(self.version()) + records.sum::<usize>()
    }

    /// The roles that may send (tag 6) or receive (tag 5) on a kind, by their own record or
    /// by a junior's.
    pub fn permitting(&self, tag: u16, kind: u16) -> u16 {
        let mut may = 0;
        for (index, &[low, high, low_in, high_in]) in self.roles.iter().enumerate() {
            let [low, high] = match tag {
                6 => [low, high],
                _ => [low_in, high_in],
            };
            let kinds = u32::from(high) << 16 | u32::from(low);
            let own = crate::names::items(kinds).any(|item| item == u32::from(kind));
            // Juniors stand before their seniors, so that it is known of them.
            let [juniors] = self.juniors.get(index).copied().unwrap_or_default();
            if own || juniors & may != 0 {
                may |= 1 << index;
            }
        }
        may
    }

    /// How many nodes put a role on.
    pub fn on_steps(&self) -> usize {
        self.nodes.iter().filter(|&&[tag, ..]| tag == 7).count()
    }

    /// Whether no role is ever on: no starting mask, no on, no off.
    pub fn is_bare(&self) -> bool {
        let starts = self.sessions.iter().all(|&[_, mask, _]| mask == 0);
        starts && !self.nodes.iter().any(|&[tag, ..]| tag == 7 || tag == 8)
    }
}

fn word(pair: &[u8]) -> u16 {
    pair.iter()
        .rev()
        .fold(0, |word, &byte| word << 8 | u16::from(byte))
}

/// The next records, as many as there are words for.
fn take<const W: usize>(rest: &mut &[u16], count: usize) -> Vec<[u16; W]> {
    let (section, after) = rest.split_at((W * count).min(rest.len()));
    *rest = after;
    section.as_chunks().0.to_vec()
}

/// The nodes of a section that has all tags, then all f1, then all f2: those whose f2 is
/// there.
fn take_columns(section: &[u16], count: usize) -> Vec<[u16; 3]> {
    let whole = section.len().saturating_sub(2 * count).min(count);
    (0..whole)
        .map(|at| [0, 1, 2].map(|column| section[column * count + at]))
        .collect()
}
