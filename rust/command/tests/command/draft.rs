//! Files in the making.

/// The records of a file. The head follows from them.
#[derive(Clone, Default)]
pub struct Draft {
    pub users: Vec<[u16; 1]>,
    pub roles: Vec<[u16; 4]>,
    /// In versions 2 and 3 the masks of juniors.
    pub juniors: Option<Vec<[u16; 1]>>,
    pub kinds: Vec<[u16; 1]>,
    pub channels: Vec<[u16; 2]>,
    pub sessions: Vec<[u16; 3]>,
    pub nodes: Vec<[u16; 3]>,
    /// In version 3 the nodes stand by column.
    pub by_column: bool,
}

impl Draft {
    /// Adds a user with these roles.
    pub fn user(mut self, roles: &[u16]) -> Draft {
        self.users.push([mask(roles)]);
        self
    }

    /// Adds a role that sends and receives on these kinds (1 to 16 here).
    pub fn role(mut self, sends: &[u16], receives: &[u16]) -> Draft {
        self.roles.push([mask(sends), 0, mask(receives), 0]);
        self
    }

    /// Makes it a file of version 2, with these juniors of each role.
    pub fn juniors(mut self, juniors: &[&[u16]]) -> Draft {
        self.juniors = Some(juniors.iter().map(|roles| [mask(roles)]).collect());
        self
    }

    /// Makes a file with juniors one of version 3.
    pub fn in_columns(mut self) -> Draft {
        self.by_column = true;
        self
    }

    /// Adds a kind: 0 carries a plain value, j a channel of kind j.
    pub fn kind(mut self, carries: u16) -> Draft {
        self.kinds.push([carries]);
        self
    }

    /// Adds a channel.
    pub fn channel(mut self, owner: u16, kind: u16) -> Draft {
        self.channels.push([owner, kind]);
        self
    }

    /// Adds a session with no starting role, whose root is the next node.
    pub fn session(self, user: u16, nodes: &[[u16; 3]]) -> Draft {
        self.session_with(user, &[], nodes)
    }

    /// Adds a session with starting roles, whose root is the next node.
    pub fn session_with(mut self, user: u16, roles: &[u16], nodes: &[[u16; 3]]) -> Draft {
        let root = self.nodes.len() as u16 + 1;
        self.sessions.push([user, mask(roles), root]);
        self.nodes.extend_from_slice(nodes);
        self
    }

    /// The file.
    pub fn bytes(&self) -> Vec<u8> {
        self.words()
            .into_iter()
            .flat_map(u16::to_le_bytes)
            .collect()
    }

    /// The file's words.
    pub fn words(&self) -> Vec<u16> {
        let counts = [
            self.users.len(),
            self.roles.len(),
            self.kinds.len(),
            self.channels.len(),
            self.sessions.len(),
            self.nodes.len(),
        ];
        let juniors = self.juniors.as_ref().map(|juniors| juniors.as_flattened());
        let nodes = self.node_words();
        let mut sections = vec![self.users.as_flattened(), self.roles.as_flattened()];
        sections.extend(juniors);
        sections.extend([
            self.kinds.as_flattened(),
            self.channels.as_flattened(),
            self.sessions.as_flattened(),
            &nodes,
        ]);
        let mut words = vec![match (juniors, self.by_column) {
            (None, _) => 1,
            (Some(_), false) => 2,
            (Some(_), true) => 3,
        }];
        words.extend(counts.map(|count| count as u16));
        let mut offset = words.len() + sections.len();
        for section in &sections {
            words.push(offset as u16);
            offset += section.len();
        }
        words.extend(sections.concat());
        words
    }

    /// Node by node, or all tags, all f1 and all f2.
    fn node_words(&self) -> Vec<u16> {
        if !self.by_column {
            return self.nodes.concat();
        }
        let column = |word: usize| self.nodes.iter().map(move |node| node[word]);
        (0..3).flat_map(column).collect()
    }
}

/// Items as a mask.
pub fn mask(items: &[u16]) -> u16 {
    items.iter().fold(0, |mask, item| mask | 1 << (item - 1))
}

pub const fn channel(number: u16) -> u16 {
    256 + number
}

pub const fn variable(number: u16) -> u16 {
    511 + number
}

pub const END: [u16; 3] = [0, 0, 0];
pub const REPEAT: [u16; 3] = [2, 0, 0];

pub const fn fork(second: u16) -> [u16; 3] {
    [1, second, 0]
}

pub const fn new(kind: u16) -> [u16; 3] {
    [3, kind, 0]
}

pub const fn compare(one: u16, other: u16) -> [u16; 3] {
    [4, one, other]
}

pub const fn receive(on: u16) -> [u16; 3] {
    [5, on, 0]
}

pub const fn send(on: u16, value: u16) -> [u16; 3] {
    [6, on, value]
}

pub const fn on(role: u16) -> [u16; 3] {
    [7, role, 0]
}

pub const fn off(role: u16) -> [u16; 3] {
    [8, role, 0]
}
