//! The trees of a sound file, with what rules 1, 5 and 6 say at each node.

use crate::juniors;
use second::draft::Draft;

/// A node, and its place in the tree.
pub struct Node {
    /// The parent's index; a root has none.
    pub parent: Option<usize>,
    /// The indices of the children, as many as there are.
    children: [Option<usize>; 2],
    /// The session's user.
    pub user: u16,
    /// What is bound above the node.
    variables: Variables,
    /// The roles that are assigned to the session's user.
    pub assigned: u16,
    /// The roles, assigned or not, that permit a send or receive; `None` if the
    /// node needs no role.
    pub permitted: Option<u16>,
}

impl Node {
    pub fn children(&self) -> impl Iterator<Item = usize> + '_ {
        self.children.iter().flatten().copied()
    }

    /// The kinds of the variables that are bound above the node, 0 where they
    /// are plain.
    pub fn kinds(&self) -> &[u16] {
        &self.variables.kinds[..self.variables.len]
    }

    pub fn is_end(&self) -> bool {
        self.children().next().is_none()
    }
}

/// All nodes of a file that meets refusals 1 to 10 clean, in node order.
pub struct Trees {
    pub nodes: Vec<Node>,
    /// How many roles the file has.
    pub roles: u16,
}

impl Trees {
    pub fn of(draft: &Draft) -> Trees {
        let mut nodes: Vec<Node> = Vec::with_capacity(draft.nodes.len());
        // What is bound below each node.
        let mut variables: Vec<Variables> = Vec::with_capacity(draft.nodes.len());
        let mut parents = vec![None; draft.nodes.len()];
        let mut sessions = draft.sessions.iter();
        let grants = juniors::granted(draft);
        for (at, &node) in draft.nodes.iter().enumerate() {
            let children = children(at, node);
            for child in children.into_iter().flatten() {
                parents[child] = Some(at);
            }
            let (user, above) = match parents[at] {
                Some(parent) => (nodes[parent].user, variables[parent]),
                None => {
                    let &[user, _, _] = sessions.next().expect("a session for each root");
                    (user, Variables::default())
                }
            };
            let mut below = above;
            let permitted = pass(draft, &grants, node, &mut below);
            variables.push(below);
            nodes.push(Node {
                parent: parents[at],
                children,
                user,
                variables: above,
                assigned: draft.users[usize::from(user) - 1][0],
                permitted,
            });
        }
        let roles = draft.roles.len() as u16;
        Trees { nodes, roles }
    }

    /// The state of a node's parent, 0 above a root.
    pub fn above(&self, states: &[u16], at: usize) -> u16 {
        self.nodes[at].parent.map_or(0, |parent| states[parent])
    }
}

/// The children of the node at an index.
fn children(at: usize, [tag, f1, _]: [u16; 3]) -> [Option<usize>; 2] {
    match tag {
        0 => [None, None],
        1 => [Some(at + 1), Some(usize::from(f1) - 1)],
        _ => [Some(at + 1), None],
    }
}

/// The kinds of the variables on a path.
#[derive(Clone, Copy, Default)]
struct Variables {
    kinds: [u16; 8],
    len: usize,
}

impl Variables {
    fn bind(&mut self, kind: u16) {
        self.kinds[self.len] = kind;
        self.len += 1;
    }
}

/// Goes past a node by rule 1, and says which roles permit it by rule 6.
fn pass(
    draft: &Draft,
    grants: &[[u16; 4]],
    [tag, f1, _]: [u16; 3],
    variables: &mut Variables,
) -> Option<u16> {
    match tag {
        3 => {
            variables.bind(f1);
            None
        }
        5 => {
            let kind = kind_of(draft, f1, variables);
            variables.bind(draft.kinds[usize::from(kind) - 1][0]);
            Some(granted(grants, kind, 2))
        }
        6 => Some(granted(grants, kind_of(draft, f1, variables), 0)),
        _ => None,
    }
}

/// The kind of the channel that an operand names.
fn kind_of(draft: &Draft, operand: u16, variables: &Variables) -> u16 {
    match operand {
        512.. => variables.kinds[usize::from(operand) - 512],
        _ => draft.channels[usize::from(operand) - 257][1],
    }
}

/// The roles whose grant, at word 0 or 2, has the kind.
fn granted(grants: &[[u16; 4]], kind: u16, grant: usize) -> u16 {
    let (word, bit) = (grant + usize::from(kind - 1) / 16, (kind - 1) % 16);
    let mask = |(role, record): (u16, &[u16; 4])| (record[word] >> bit & 1) << role;
    (0..).zip(grants).map(mask).sum()
}
