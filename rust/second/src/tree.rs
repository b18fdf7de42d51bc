//! The shape of the trees: refusal 8.
//!
//! Nodes stand in preorder, so one pass over them follows the trees. A fork's
//! second child is known only when its first child's tree ends; the forks that
//! wait for that are kept on a stack.

use crate::cause::{Cause, Refusal};
use crate::file::{word, File, Section};
use crate::nodes::{in_layout, Layout};

/// The most variables on a path.
pub const VARIABLES: u8 = 8;

const MOST_NODES: usize = Section::Nodes.most() as usize;

const END: u16 = 0;
const FORK: u16 = 1;

/// What a tag alone says of a node: all bits of the fields it leaves unused,
/// and how many variables it binds.
struct Form {
    unused: [u16; 2],
    binds: u8,
}

const fn form(unused: [u16; 2], binds: u8) -> Form {
    Form { unused, binds }
}

/// The tags 0 to 8.
const FORMS: [Form; 9] = [
    form([u16::MAX, u16::MAX], 0),
    form([0, u16::MAX], 0),
    form([u16::MAX, u16::MAX], 0),
    form([0, u16::MAX], 1),
    form([0, 0], 0),
    form([0, u16::MAX], 1),
    form([0, 0], 0),
    form([0, u16::MAX], 0),
    form([0, u16::MAX], 0),
];

/// The forks whose first child's tree has not ended, with the number of
/// variables bound above each.
struct Waiting {
    forks: [u16; MOST_NODES],
    bound: [u8; MOST_NODES],
    len: usize,
}

impl Waiting {
    fn push(&mut self, fork: u16, bound: u8) {
        self.forks[self.len] = fork;
        self.bound[self.len] = bound;
        self.len += 1;
    }

    fn pop(&mut self) -> Option<(u16, u8)> {
        self.len = self.len.checked_sub(1)?;
        Some((self.forks[self.len], self.bound[self.len]))
    }
}

/// The fault at the lowest place so far: a fork's fault is found after those
/// of the nodes below it.
struct Lowest(Option<Refusal>);

impl Lowest {
    #[cold]
    fn note(&mut self, place: u16, cause: Cause) {
        if self.0.is_none_or(|lowest| place < lowest.place) {
            self.0 = Some(Refusal { cause, place });
        }
    }

    fn verdict(self) -> Result<(), Refusal> {
        self.0.map_or(Ok(()), Err)
    }
}

pub fn judge(file: &File) -> Result<(), Refusal> {
    in_layout!(file.nodes, nodes => judge_in(file, nodes))
}

/// Not inlined: inlined it is slower.
#[inline(never)]
fn judge_in(file: &File, nodes: impl Layout) -> Result<(), Refusal> {
    let mut lowest = Lowest(None);
    let mut waiting = Waiting {
        forks: [0; MOST_NODES],
        bound: [0; MOST_NODES],
        len: 0,
    };
    let mut sessions = file.sessions.iter();
    let mut at_root = true;
    let mut bound = 0;
    for (place, [tag, f1, f2]) in nodes.numbered() {
        if at_root {
            let Some(session) = sessions.next() else {
                lowest.note(place, Cause::LeftOver);
                return lowest.verdict();
            };
            if word(session, 2) != place {
                lowest.note(place, Cause::Root);
            }
            at_root = false;
            bound = 0;
        }
        let Some(form) = FORMS.get(usize::from(tag)) else {
            lowest.note(place, Cause::Tag);
            return lowest.verdict();
        };
        if f1 & form.unused[0] | f2 & form.unused[1] != 0 {
            let field = if f1 & form.unused[0] != 0 { 1 } else { 2 };
            lowest.note(place, Cause::Unused { tag, field });
        }
        bound += form.binds;
        if bound > VARIABLES {
            lowest.note(place, Cause::NinthVariable);
            bound = VARIABLES;
        }
        if tag == FORK {
            waiting.push(place, bound);
        } else if tag == END {
            match waiting.pop() {
                Some((fork, bound_above)) => {
                    let [_, second, _] = nodes.at(usize::from(fork) - 1);
                    if second != place + 1 {
                        lowest.note(fork, Cause::SecondChild);
                    }
                    bound = bound_above;
                }
                None => at_root = true,
            }
        }
    }
    let past = nodes.count() as u16 + 1;
    if !at_root {
        lowest.note(past, Cause::PastLast);
    } else if sessions.next().is_some() {
        lowest.note(past, Cause::NoNodesLeft);
    }
    lowest.verdict()
}
