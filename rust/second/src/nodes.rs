//! The node section: by row, three words a node, or by column, all tags, then all f1,
//! then all f2.

use crate::file::{take, three, word, Version};

/// Bytes of a node.
pub const NODE: usize = 6;

/// The nodes of a file.
#[derive(Clone, Copy)]
pub enum Nodes<'a> {
    Rows(Rows<'a>),
    Columns(Columns<'a>),
}

/// Does the same for nodes in either layout, compiled once for each.
macro_rules! in_layout {
    ($nodes:expr, $nodes_in:ident => $result:expr) => {
        match $nodes {
            crate::nodes::Nodes::Rows($nodes_in) => $result,
            crate::nodes::Nodes::Columns($nodes_in) => $result,
        }
    };
}
pub(crate) use in_layout;

/// Three words a node.
pub type Rows<'a> = &'a [[u8; NODE]];

/// Tags, f1 and f2.
#[derive(Clone, Copy)]
pub struct Columns<'a>([&'a [[u8; 2]]; 3]);

/// Nodes in one of the layouts. The first has index 0.
pub trait Layout: Copy {
    fn count(self) -> usize;

    /// Tag, f1 and f2 of a node.
    fn at(self, index: usize) -> [u16; 3];

    /// Those of all nodes.
    fn words(self) -> impl Iterator<Item = [u16; 3]>;

    /// The tags of all nodes.
    fn tags(self) -> impl Iterator<Item = u16>;

    /// The words of all nodes with their numbers, from 1.
    fn numbered(self) -> impl Iterator<Item = (u16, [u16; 3])> {
        (1..).zip(self.words())
    }
}

impl Layout for Rows<'_> {
    fn count(self) -> usize {
        self.len()
    }

    fn at(self, index: usize) -> [u16; 3] {
        three(&self[index])
    }

    fn words(self) -> impl Iterator<Item = [u16; 3]> {
        self.iter().map(three)
    }

    fn tags(self) -> impl Iterator<Item = u16> {
        self.iter().map(|row| word(row, 0))
    }
}

impl Layout for Columns<'_> {
    fn count(self) -> usize {
        self.0[0].len()
    }

    fn at(self, index: usize) -> [u16; 3] {
        self.0.map(|column| word(&column[index], 0))
    }

    fn words(self) -> impl Iterator<Item = [u16; 3]> {
        let [tags, f1, f2] = self.0;
        let nodes = tags.iter().zip(f1).zip(f2);
        nodes.map(|((tag, f1), f2)| [tag, f1, f2].map(|field| word(field, 0)))
    }

    fn tags(self) -> impl Iterator<Item = u16> {
        self.0[0].iter().map(|tag| word(tag, 0))
    }
}

impl<'a> Nodes<'a> {
    /// The next `count` nodes, as a version has them.
    pub fn take(rest: &mut &'a [u8], version: Version, count: u16) -> Nodes<'a> {
        match version {
            Version::One | Version::Two => Nodes::Rows(take(rest, count)),
            Version::Three => Nodes::Columns(Columns([(); 3].map(|()| take(rest, count)))),
        }
    }

    pub fn len(self) -> usize {
        in_layout!(self, nodes => nodes.count())
    }

    /// Tag, f1 and f2 of a node.
    pub fn at(self, index: usize) -> [u16; 3] {
        in_layout!(self, nodes => nodes.at(index))
    }

    /// Those of all nodes.
    pub fn all(self) -> Vec<[u16; 3]> {
        in_layout!(self, nodes => nodes.words().collect())
    }
}

/// The room for the nodes of a file that is written.
pub enum Room<'a> {
    Rows(&'a mut [[u8; NODE]]),
    Columns([&'a mut [[u8; 2]]; 3]),
}

impl<'a> Room<'a> {
    /// All these bytes, as a version has them.
    pub fn of(version: Version, bytes: &'a mut [u8]) -> Room<'a> {
        match version {
            Version::One | Version::Two => Room::Rows(bytes.as_chunks_mut().0),
            Version::Three => {
                let column = bytes.len() / 3;
                let (tags, fields) = bytes.split_at_mut(column);
                let (f1, f2) = fields.split_at_mut(column);
                Room::Columns([tags, f1, f2].map(|column| column.as_chunks_mut().0))
            }
        }
    }

    /// Writes the node with this index.
    #[inline(always)]
    pub fn put(&mut self, index: usize, node: [u16; 3]) {
        let bytes = node.map(u16::to_le_bytes);
        match self {
            Room::Rows(rows) => rows[index].copy_from_slice(bytes.as_flattened()),
            Room::Columns(columns) => {
                for (column, bytes) in columns.iter_mut().zip(bytes) {
                    column[index] = bytes;
                }
            }
        }
    }
}
