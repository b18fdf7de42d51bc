//! Placing: refusals 14 to 17, and the placed file.

mod needs;
mod states;

use crate::cause::{Cause, Refusal};
use crate::draft::{set_word, word_at};
use crate::file::{three, word, File, Section, Version};
use crate::nodes::{in_layout, Layout, Room, NODE};
use crate::sheets::Share;
use crate::Placed;
use needs::Needs;
use states::{Choice, Waiting};

/// As many bytes as any file wants of the output.
pub const ROOM: usize = Version::Three.largest();

const MOST_NODES: usize = Section::Nodes.most() as usize;

/// A tree of 1,024 nodes has at most so many ends.
const MOST_ENDS: usize = MOST_NODES / 2;

const END: u16 = 0;
const FORK: u16 = 1;
const COMPARE: u16 = 4;
const ON: u16 = 7;
const OFF: u16 = 8;

/// Bytes of a session.
const SESSION: usize = 6;

/// The bytes that the output must have, whatever is written there. The file's
/// first word decides, if it has one.
pub fn room_for(file: &[u8]) -> usize {
    Version::claimed(file).largest()
}

/// Refusal 17.
pub fn judge_room(file: &[u8], room: usize) -> Result<(), Refusal> {
    if room < room_for(file) {
        return refuse(Cause::OutputTooShort, 0);
    }
    Ok(())
}

fn refuse<T>(cause: Cause, place: u16) -> Result<T, Refusal> {
    Err(Refusal { cause, place })
}

/// What is put in before a node: off for one role, then on for another, each
/// of them 0 where it is left out. `start` is the number of the first of
/// these, or of the node itself.
#[derive(Clone, Copy, Default)]
struct Before {
    off: u16,
    on: u16,
    start: u16,
}

/// What is put in before all the nodes.
pub struct Plan {
    before: [Before; MOST_NODES],
    nodes: u16,
    on_steps: u16,
}

impl Plan {
    pub fn new() -> Plan {
        Plan {
            before: [Before::default(); MOST_NODES],
            nodes: 0,
            on_steps: 0,
        }
    }

    /// Judges 9 and 10, then 14 to 16, on a file that 1 to 8 leave clean, where
    /// these roles are open.
    pub fn draw_up(&mut self, file: &File, open: u16) -> Result<(), Refusal> {
        let needs = Needs::of(file, open)?;
        let mut tags = [0; MOST_NODES];
        let tags = &mut tags[..file.nodes.len()];
        in_layout!(file.nodes, nodes => {
            tags.iter_mut().zip(nodes.tags()).for_each(|(slot, tag)| *slot = tag);
        });
        let choices = choose(file, tags, open, &needs);
        self.take_states(tags, &choices);
        if self.nodes > Section::Nodes.most() {
            return refuse(Cause::ResultTooLarge, 0);
        }
        Ok(())
    }

    /// Goes through the nodes from the left: each takes its state by its
    /// parent's, and its start by what stands before it.
    fn take_states(&mut self, tags: &[u16], choices: &[Choice; MOST_NODES]) {
        let mut forks = [0; MOST_ENDS];
        let mut open = 0;
        let (mut parent, mut last, mut on_steps) = (0, 0, 0);
        let rows = self.before.iter_mut().zip(choices);
        for ((before, choice), &tag) in rows.zip(tags) {
            let own = choice.below(parent);
            let (off, on) = if own == parent { (0, 0) } else { (parent, own) };
            let start = last + 1;
            *before = Before { off, on, start };
            last = start + u16::from(off != 0) + u16::from(on != 0);
            on_steps += u16::from(on != 0);
            parent = own;
            match tag {
                FORK => {
                    forks[open] = own;
                    open += 1;
                }
                END if open == 0 => parent = 0,
                END => {
                    open -= 1;
                    parent = forks[open];
                }
                _ => {}
            }
        }
        self.nodes = last;
        self.on_steps = on_steps;
    }

    /// The new number for what named the node of this number.
    fn start_of(&self, number: u16) -> u16 {
        self.before[usize::from(number) - 1].start
    }

    /// What is answered where the file is placed.
    pub fn measure(&self, file: &File) -> Placed {
        let length = file.before_nodes().len() + NODE * usize::from(self.nodes);
        Placed::written(length as u16, self.on_steps)
    }

    /// The file's sessions, all on steps, and the most in one session.
    pub fn share(&self, file: &File) -> Share {
        let puts_on = |before: &Before| before.on != 0;
        let mut end = usize::from(word_at(file.bytes, Section::Nodes.count_at()));
        let of_session = |session| {
            let root = usize::from(word(session, 2)) - 1;
            let tree = &self.before[root..end];
            end = root;
            tree.iter().copied().filter(puts_on).count() as u16
        };
        let each = file.sessions.iter().rev().map(of_session);
        Share {
            sessions: file.sessions.len(),
            on_steps: self.on_steps,
            most: each.max().unwrap_or(0),
        }
    }

    /// Writes the placed file.
    pub fn write(&self, file: &File, out: &mut [u8]) -> Placed {
        let placed = self.measure(file);
        let before = file.before_nodes();
        let (start, nodes) = out[..placed.length.into()].split_at_mut(before.len());
        start.copy_from_slice(before);
        set_word(start, Section::Nodes.count_at(), self.nodes);
        self.write_roots(&mut start[before.len() - SESSION * file.sessions.len()..]);
        let room = Room::of(file.version, nodes);
        in_layout!(file.nodes, nodes => self.write_nodes(nodes, room));
        placed
    }

    fn write_roots(&self, sessions: &mut [u8]) {
        for session in sessions.as_chunks_mut::<SESSION>().0 {
            let root = self.start_of(word(session, 2));
            set_word(session, 2, root);
        }
    }

    fn write_nodes(&self, nodes: impl Layout, mut room: Room) {
        let mut indices = 0..;
        let mut put = |node| room.put(indices.next().expect("an index for every node"), node);
        for (before, node) in self.before.iter().zip(nodes.words()) {
            if before.off != 0 {
                put([OFF, before.off, 0]);
            }
            if before.on != 0 {
                put([ON, before.on, 0]);
            }
            put(match node {
                [FORK, second, f2] => [FORK, self.start_of(second), f2],
                other => other,
            });
        }
    }
}

/// Every node's choice, tree by tree from the right.
fn choose(file: &File, tags: &[u16], open: u16, needs: &Needs) -> [Choice; MOST_NODES] {
    let mut choices = [Choice::default(); MOST_NODES];
    let mut waiting = Waiting::new();
    let mut end = tags.len();
    for session in file.sessions.iter().rev() {
        let [user, _, root] = three(session);
        let tree = usize::from(root) - 1..end;
        end = tree.start;
        states::choose(
            &tags[tree.clone()],
            open & word(&file.users[usize::from(user) - 1], 0),
            &needs.roles[tree.clone()],
            &mut waiting,
            &mut choices[tree],
        );
    }
    choices
}
