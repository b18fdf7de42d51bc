//! A draft of a file: its sections as lists of words. The header follows
//! from them.

use crate::file::{word, File, Version};
use crate::nodes::{Room, NODE};

/// The sections of a file that is yet to be written out.
#[derive(Clone, Debug, Default)]
pub struct Draft {
    pub users: Vec<[u16; 1]>,
    pub roles: Vec<[u16; 4]>,
    /// For each role the mask of its juniors. With this, the file has version 2 or 3.
    pub juniors: Option<Vec<[u16; 1]>>,
    pub kinds: Vec<[u16; 1]>,
    pub channels: Vec<[u16; 2]>,
    pub sessions: Vec<[u16; 3]>,
    pub nodes: Vec<[u16; 3]>,
    /// Whether a file with juniors has its nodes by column, and so version 3.
    pub by_column: bool,
}

impl Draft {
    /// The sections of a file that meets refusals 1 to 5 clean.
    pub fn of(file: &[u8]) -> Draft {
        let file = File::open(file).expect("a file with its sections");
        Draft {
            users: records(file.users),
            roles: records(file.roles),
            juniors: file.version.has_juniors().then(|| records(file.juniors)),
            kinds: records(file.kinds),
            channels: records(file.channels),
            sessions: records(file.sessions),
            nodes: file.nodes.all(),
            by_column: file.version == Version::Three,
        }
    }

    /// The version that it has.
    pub fn version(&self) -> Version {
        match (&self.juniors, self.by_column) {
            (None, _) => Version::One,
            (Some(_), false) => Version::Two,
            (Some(_), true) => Version::Three,
        }
    }

    /// The file, with the counts and offsets that these sections have.
    pub fn bytes(&self) -> Vec<u8> {
        let mut words = vec![self.version().number()];
        let counts = [
            self.users.len(),
            self.roles.len(),
            self.kinds.len(),
            self.channels.len(),
            self.sessions.len(),
            self.nodes.len(),
        ];
        words.extend(counts.map(|count| count as u16));
        let mut sections = vec![self.users.as_flattened(), self.roles.as_flattened()];
        sections.extend(self.juniors.as_ref().map(|juniors| juniors.as_flattened()));
        sections.extend([
            self.kinds.as_flattened(),
            self.channels.as_flattened(),
            self.sessions.as_flattened(),
        ]);
        let mut offset = self.version().header();
        for section in &sections {
            words.push(offset as u16);
            offset += section.len();
        }
        words.push(offset as u16);
        words.extend_from_slice(&sections.concat());
        [to_bytes(&words), self.node_bytes()].concat()
    }

    fn node_bytes(&self) -> Vec<u8> {
        let mut bytes = vec![0; NODE * self.nodes.len()];
        let mut room = Room::of(self.version(), &mut bytes);
        for (index, &node) in self.nodes.iter().enumerate() {
            room.put(index, node);
        }
        bytes
    }
}

/// Records of `N` bytes as records of `W` words.
fn records<const N: usize, const W: usize>(bytes: &[[u8; N]]) -> Vec<[u16; W]> {
    let record = |record| std::array::from_fn(|i| word(record, i));
    bytes.iter().map(record).collect()
}

/// Words as bytes, low byte first.
pub fn to_bytes(words: &[u16]) -> Vec<u8> {
    words.iter().flat_map(|word| word.to_le_bytes()).collect()
}

/// Word `at` of a file that has it.
pub fn word_at(file: &[u8], at: usize) -> u16 {
    u16::from_le_bytes([file[2 * at], file[2 * at + 1]])
}

/// Writes word `at` of a file that has it.
pub fn set_word(file: &mut [u8], at: usize, word: u16) {
    file[2 * at..2 * at + 2].copy_from_slice(&word.to_le_bytes());
}
