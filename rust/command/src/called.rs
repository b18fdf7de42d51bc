//! How what a run has is called: of a text by its names and lines, of bytes by numbers.

use crate::clinic::Clinic;
use crate::input::Input;
use crate::names::{self, Above};
use crate::roll::Roll;
use crate::runs::Told;
use pilzdamo::Thread;

pub struct Called<'a> {
    pub input: &'a Input,
    clinic: Clinic,
    /// Of a text, the names of the variables that are bound above each node.
    variables: Vec<Vec<String>>,
}

impl<'a> Called<'a> {
    pub fn of(input: &'a Input) -> Called<'a> {
        let text = input.text.as_ref();
        Called {
            input,
            clinic: Clinic::of(input),
            variables: text.map_or(Vec::new(), |text| text::variables(&text.packed)),
        }
    }

    fn told(&self) -> Option<Told<'a>> {
        self.input.text.as_ref().map(|text| Told { text })
    }

    /// A node's tag and fields.
    pub fn node(&self, number: u16) -> [u16; 3] {
        let index = usize::from(number).checked_sub(1);
        let node = index.and_then(|index| self.clinic.nodes.get(index));
        node.copied().unwrap_or_default()
    }

    /// `ask.2`, or `thread 3`.
    pub fn thread(&self, roll: &Roll, number: u16) -> String {
        let index = usize::from(number).checked_sub(1);
        let thread = index.and_then(|index| roll.threads.get(index));
        match (self.told(), thread) {
            (Some(told), Some(&thread)) => told.thread(thread),
            _ => format!("thread {number}"),
        }
    }

    /// `ask.2`, or `thread 3 (s1.2)`.
    pub fn named(&self, roll: &Roll, number: u16) -> String {
        let (name, index) = (
            self.thread(roll, number),
            usize::from(number).checked_sub(1),
        );
        match index.and_then(|index| roll.threads.get(index)) {
            Some(thread) if self.told().is_none() => {
                format!("{name} ({})", thread.name(&self.input.sessions()))
            }
            _ => name,
        }
    }

    /// A choice as a list has it: `ask -> serve.2`, or `1 5`.
    pub fn choice(&self, roll: &Roll, thread: u16, partner: u16) -> String {
        let there = |number: u16| (1..=roll.threads.len()).contains(&usize::from(number));
        match (partner, self.told()) {
            (0, Some(_)) if there(thread) => self.thread(roll, thread),
            (_, Some(_)) if there(thread) && there(partner) => {
                let [thread, partner] = [thread, partner].map(|one| self.thread(roll, one));
                format!("{thread} -> {partner}")
            }
            _ => format!("{thread} {partner}"),
        }
    }

    /// A thread as a list has it: `ask.2`, or `3`.
    pub fn listed(&self, roll: &Roll, number: u16) -> String {
        match self.told() {
            Some(_) => self.thread(roll, number),
            None => number.to_string(),
        }
    }

    /// `line 18`, or `node 5`.
    pub fn place(&self, node: u16) -> String {
        self.told()
            .map_or_else(|| format!("node {node}"), |told| told.place(node))
    }

    /// Where a thread stands, with its step: `line 18 (off caller)`.
    pub fn stands(&self, thread: &Thread) -> String {
        let node = thread.node;
        let above = Above {
            bound: Some(bound(thread)),
            due: None,
        };
        match self.told() {
            Some(told) => told.stands(node),
            None => {
                let step = names::step(&self.clinic, self.node(node), above);
                format!("node {node} ({step})")
            }
        }
    }

    /// `caller`, or `role 1`.
    pub fn role(&self, number: u16) -> String {
        match self.told() {
            Some(_) => self.input.role(number),
            None => format!("role {number}"),
        }
    }

    /// `request`, or `kind 1`.
    pub fn kind(&self, number: u16) -> String {
        match self.told() {
            Some(_) => self.input.kind(number),
            None => format!("kind {number}"),
        }
    }

    /// The kind of the channel of this number.
    pub fn kind_of(&self, channel: u16) -> Option<u16> {
        let index = usize::from(channel).checked_sub(1)?;
        let &[_, kind] = self.clinic.channels.get(index)?;
        Some(kind)
    }

    /// The roles that may do what a send or a receive does, by its tag, on a kind.
    pub fn permitting(&self, tag: u16, kind: u16) -> u16 {
        self.clinic.permitting(tag, kind)
    }

    /// `caller, keeper`, or `role 1, role 2`; `none`.
    pub fn each_role(&self, mask: u16) -> String {
        let roles = names::items(mask.into()).map(|role| self.role(role as u16));
        match roles.collect::<Vec<_>>() {
            none if none.is_empty() => "none".to_string(),
            roles => roles.join(", "),
        }
    }

    /// Whether the file has no on or off, and no starting role.
    pub fn is_bare(&self) -> bool {
        self.clinic.is_bare()
    }

    /// The roles that a user has.
    pub fn assigned(&self, user: u16) -> u16 {
        let index = usize::from(user).checked_sub(1);
        let user = index.and_then(|index| self.clinic.users.get(index));
        user.map_or(0, |&[mask]| mask)
    }

    /// `caller, keeper`, or `roles 1, 2`; `no role`.
    pub fn roles(&self, mask: u16) -> String {
        match self.told() {
            Some(_) if mask != 0 => {
                let roles = names::items(mask.into()).map(|role| self.input.role(role as u16));
                roles.collect::<Vec<_>>().join(", ")
            }
            _ => names::list("role", mask.into(), 16),
        }
    }

    pub fn value(&self, value: u16) -> String {
        self.told()
            .map_or_else(|| names::value(value), |told| told.value(value))
    }

    /// What an operand of a thread's step names, and the value of a variable:
    /// `reply (made channel 1)`.
    pub fn operand(&self, thread: &Thread, word: u16) -> String {
        match word {
            512..=519 => {
                let index = usize::from(word - 512);
                let (name, value) = (self.variable(thread, index), thread.vars[index]);
                format!("{name} ({})", self.value(value))
            }
            _ => self.value(word),
        }
    }

    /// What a thread has bound last: `back = made channel 1`.
    pub fn bound_last(&self, thread: &Thread) -> String {
        let Some(index) = bound(thread).checked_sub(1) else {
            return String::new();
        };
        let (name, value) = (self.variable(thread, index), thread.vars[index]);
        format!("{name} = {}", self.value(value))
    }

    fn variable(&self, thread: &Thread, index: usize) -> String {
        let node = usize::from(thread.node).checked_sub(1);
        let names = node.and_then(|node| self.variables.get(node));
        let name = names.and_then(|names| names.get(index));
        name.map_or_else(|| format!("variable {}", index + 1), String::clone)
    }
}

/// How many variables a thread has bound.
pub fn bound(thread: &Thread) -> usize {
    thread.vars.iter().filter(|&&value| value != 0).count()
}
