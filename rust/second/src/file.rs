//! The header, and the sections as slices of records: refusals 1 to 5.

use crate::cause::{Cause, Refusal};
use crate::draft::word_at;
use crate::nodes::{Nodes, NODE};

/// The sections, in the file's order. The juniors are in versions 2 and 3 alone, one
/// record for each role.
#[derive(Clone, Copy, Debug, PartialEq, Eq, PartialOrd, Ord)]
pub enum Section {
    Users,
    Roles,
    Juniors,
    Kinds,
    Channels,
    Sessions,
    Nodes,
}

impl Section {
    pub const ALL: [Section; 7] = [
        Section::Users,
        Section::Roles,
        Section::Juniors,
        Section::Kinds,
        Section::Channels,
        Section::Sessions,
        Section::Nodes,
    ];

    /// Those that have a count of their own, in the order of the counts.
    pub const COUNTED: [Section; 6] = [
        Section::Users,
        Section::Roles,
        Section::Kinds,
        Section::Channels,
        Section::Sessions,
        Section::Nodes,
    ];

    /// The word of the header that counts its records.
    pub const fn count_at(self) -> usize {
        match self {
            Section::Users => 1,
            Section::Roles | Section::Juniors => 2,
            Section::Kinds => 3,
            Section::Channels => 4,
            Section::Sessions => 5,
            Section::Nodes => 6,
        }
    }

    /// The largest count of records.
    pub const fn most(self) -> u16 {
        match self {
            Section::Users | Section::Kinds | Section::Sessions => 32,
            Section::Roles | Section::Juniors => 16,
            Section::Channels => 64,
            Section::Nodes => 1024,
        }
    }

    /// Words in a record.
    pub const fn width(self) -> u16 {
        match self {
            Section::Users | Section::Juniors | Section::Kinds => 1,
            Section::Channels => 2,
            Section::Sessions | Section::Nodes => 3,
            Section::Roles => 4,
        }
    }
}

/// The versions of the format. The third has its nodes by column.
#[derive(Clone, Copy, Debug, PartialEq, Eq, PartialOrd, Ord)]
pub enum Version {
    One,
    Two,
    Three,
}

impl Version {
    pub const ALL: [Version; 3] = [Version::One, Version::Two, Version::Three];

    /// Those whose nodes stand in rows.
    pub const BY_ROW: [Version; 2] = [Version::One, Version::Two];

    /// The version that a file's first word names, if there is such a one.
    pub fn named(first: u16) -> Option<Version> {
        Version::ALL
            .into_iter()
            .find(|version| version.number() == first)
    }

    /// The version that a file's first word names, 1 where it names none.
    pub fn claimed(file: &[u8]) -> Version {
        let first = file.first_chunk().copied().map(u16::from_le_bytes);
        first.and_then(Version::named).unwrap_or(Version::One)
    }

    pub const fn number(self) -> u16 {
        match self {
            Version::One => 1,
            Version::Two => 2,
            Version::Three => 3,
        }
    }

    /// Whether its roles have juniors.
    pub const fn has_juniors(self) -> bool {
        !matches!(self, Version::One)
    }

    /// The sections that it has, in the file's order.
    pub const fn sections(self) -> &'static [Section] {
        match self {
            Version::One => &Section::COUNTED,
            Version::Two | Version::Three => &Section::ALL,
        }
    }

    /// Words in the header: the version, the counts, an offset for each section.
    pub const fn header(self) -> usize {
        1 + Section::COUNTED.len() + self.sections().len()
    }

    /// The word of the header that is a section's offset, if it has that section.
    pub fn offset_at(self, section: Section) -> Option<usize> {
        let at = self.sections().iter().position(|&found| found == section);
        at.map(|at| 1 + Section::COUNTED.len() + at)
    }

    /// The bytes of its largest file.
    pub const fn largest(self) -> usize {
        let mut words = self.header();
        let mut at = 0;
        while at < self.sections().len() {
            let section = self.sections()[at];
            words += section.most() as usize * section.width() as usize;
            at += 1;
        }
        2 * words
    }
}

/// A clinic with nothing planned sends zero bytes. They are read as these: version 1,
/// all counts 0, and every section where the header ends.
#[rustfmt::skip]
const NOTHING_PLANNED: [u8; 26] = [
    1, 0,
    0, 0, 0, 0, 0, 0, 0, 0, 0, 0, 0, 0,
    13, 0, 13, 0, 13, 0, 13, 0, 13, 0, 13, 0,
];

/// A file that meets refusals 1 to 5 clean.
#[derive(Clone)]
pub struct File<'a> {
    /// All its bytes, as they are read.
    pub bytes: &'a [u8],
    pub version: Version,
    pub users: &'a [[u8; 2]],
    pub roles: &'a [[u8; 8]],
    /// None in version 1.
    pub juniors: &'a [[u8; 2]],
    pub kinds: &'a [[u8; 2]],
    pub channels: &'a [[u8; 4]],
    pub sessions: &'a [[u8; 6]],
    pub nodes: Nodes<'a>,
}

/// Word `i` of a record.
pub fn word<const N: usize>(record: &[u8; N], i: usize) -> u16 {
    u16::from_le_bytes([record[2 * i], record[2 * i + 1]])
}

/// The three words of a session or node.
pub fn three(record: &[u8; 6]) -> [u16; 3] {
    [word(record, 0), word(record, 1), word(record, 2)]
}

/// Records with their numbers, from 1.
pub fn numbered<T>(records: &[T]) -> impl Iterator<Item = (u16, &T)> {
    (1u16..).zip(records)
}

impl<'a> File<'a> {
    pub fn open(file: &'a [u8]) -> Result<File<'a>, Refusal> {
        let file = if file.is_empty() {
            &NOTHING_PLANNED
        } else {
            file
        };
        let (version, [users, roles, kinds, channels, sessions, nodes]) = judge_header(file)?;
        let mut rest = &file[2 * version.header()..];
        Ok(File {
            bytes: file,
            version,
            users: take(&mut rest, users),
            roles: take(&mut rest, roles),
            juniors: match version.has_juniors() {
                false => &[],
                true => take(&mut rest, roles),
            },
            kinds: take(&mut rest, kinds),
            channels: take(&mut rest, channels),
            sessions: take(&mut rest, sessions),
            nodes: Nodes::take(&mut rest, version, nodes),
        })
    }

    /// The same where files of one version alone are taken: another is 2, at its turn.
    pub fn open_only(file: &'a [u8], version: Version) -> Result<File<'a>, Refusal> {
        let opened = File::open(file);
        match (&opened, Version::claimed(file)) {
            (Err(refusal), _) if refusal.cause.number() <= 2 => opened,
            (_, other) if other != version => Err(Refusal {
                cause: Cause::OtherVersion(other),
                place: 0,
            }),
            _ => opened,
        }
    }

    /// The bytes before the nodes.
    pub fn before_nodes(&self) -> &'a [u8] {
        &self.bytes[..self.bytes.len() - NODE * self.nodes.len()]
    }

    /// Those of the nodes.
    pub fn node_bytes(&self) -> &'a [u8] {
        &self.bytes[self.before_nodes().len()..]
    }

    /// The mask of a role's juniors; the first role has index 0.
    pub fn juniors_of(&self, role: usize) -> u16 {
        self.juniors.get(role).map_or(0, |record| word(record, 0))
    }
}

/// The version and the counts, if header and length are as they should be.
fn judge_header(file: &[u8]) -> Result<(Version, [u16; 6]), Refusal> {
    let refuse = |cause| Err(Refusal { cause, place: 0 });
    let Some(header) = file.first_chunk::<{ 2 * Version::One.header() }>() else {
        return refuse(Cause::Short);
    };
    if !file.len().is_multiple_of(2) {
        return refuse(Cause::Odd);
    }
    let Some(version) = Version::named(word(header, 0)) else {
        return refuse(Cause::Version);
    };
    let Some(header) = file.get(..2 * version.header()) else {
        return refuse(Cause::ShortForSecond);
    };
    let counts = Section::COUNTED.map(|section| word_at(header, section.count_at()));
    for (section, count) in Section::COUNTED.into_iter().zip(counts) {
        if count > section.most() {
            return refuse(Cause::Count(section));
        }
    }
    let mut due = version.header() as u16;
    let offsets = 1 + counts.len()..;
    for (at, &section) in offsets.zip(version.sections()) {
        if word_at(header, at) != due {
            return refuse(Cause::Offset(section));
        }
        due += word_at(header, section.count_at()) * section.width();
    }
    let length = 2 * usize::from(due);
    if file.len() < length {
        return refuse(Cause::Shorter);
    }
    if file.len() > length {
        return refuse(Cause::Longer);
    }
    Ok((version, counts))
}

/// The next `count` records of `N` bytes.
pub fn take<'a, const N: usize>(rest: &mut &'a [u8], count: u16) -> &'a [[u8; N]] {
    let (section, after) = rest.split_at(N * usize::from(count));
    *rest = after;
    section.as_chunks().0
}
