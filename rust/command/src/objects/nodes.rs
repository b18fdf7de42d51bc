//! Nodes.

use super::named::{lines, reference, Named, Table};
use crate::clinic::Clinic;
use crate::input::Input;
use crate::json::{list, object, Json};
use crate::names::{self, Above};
use crate::tree::Visit;

/// The words of the tags.
const TAGS: [&str; 9] = [
    "end", "fork", "repeat", "new", "compare", "receive", "send", "on", "off",
];

/// A file's nodes, with the names that it has.
pub struct Nodes<'a> {
    input: &'a Input,
    clinic: &'a Clinic,
    pub named: Named<'a>,
    /// The variables bound above each node, where they have names.
    variables: Vec<Vec<String>>,
}

impl<'a> Nodes<'a> {
    pub fn of(input: &'a Input, clinic: &'a Clinic) -> Nodes<'a> {
        let text = input.text.as_ref();
        Nodes {
            input,
            clinic,
            named: Named::of(input),
            variables: text.map_or(Vec::new(), |text| text::variables(&text.packed)),
        }
    }

    /// The names of the variables that are bound above a node.
    pub fn variables(&self, number: usize) -> &[String] {
        let at = number.checked_sub(1);
        let names = at.and_then(|at| self.variables.get(at));
        names.map_or(&[], Vec::as_slice)
    }

    /// The line of a node's step, and of an end the one after which it stands.
    pub fn line(&self, number: usize) -> Option<usize> {
        let places = &lines(self.input)?.packed.source.nodes;
        let place = places.get(number.checked_sub(1)?)?;
        Some(place.at.line)
    }

    /// A node's step, as its text has it, or in words.
    pub fn step(&self, number: usize, above: Above) -> Option<String> {
        let node = *self.clinic.nodes.get(number.checked_sub(1)?)?;
        let written = self.input.text.as_ref().and_then(|text| text.step(number));
        Some(written.map_or_else(|| names::step(self.clinic, node, above), str::to_string))
    }

    /// A node of a session's tree.
    pub fn node(&self, visit: &Visit) -> Json {
        let above = Above {
            bound: Some(visit.bound),
            due: visit.due,
        };
        self.object(visit.node, above, Some(visit.held))
    }

    /// A node in no tree that can be followed.
    pub fn loose(&self, number: usize) -> Json {
        self.object(number, Above::default(), None)
    }

    fn object(&self, number: usize, above: Above, held: Option<u16>) -> Json {
        let node = self.clinic.nodes.get(number - 1).copied();
        let [tag, f1, f2] = node.unwrap_or_default();
        let held = held.map(|mask| self.named.masked(Table::Roles, mask.into()));
        object([
            ("number", number.into()),
            ("line", self.line(number).into()),
            ("tag", tag.into()),
            ("word", TAGS.get(usize::from(tag)).copied().into()),
            ("step", self.step(number, above).into()),
            ("f1", f1.into()),
            ("f2", f2.into()),
            ("operands", self.operands(number, [tag, f1, f2])),
            ("binds", self.binds(number, tag, above)),
            ("second_child", (tag == 1).then_some(f1).into()),
            ("held", held.into()),
        ])
    }

    /// What the fields that a tag uses name.
    fn operands(&self, number: usize, [tag, f1, f2]: [u16; 3]) -> Json {
        let operand = |word| self.named.operand(word, self.variables(number));
        list(match tag {
            3 => vec![self.named.record("kind", Table::Kinds, f1, f1)],
            4 | 6 => vec![operand(f1), operand(f2)],
            5 => vec![operand(f1)],
            7 | 8 => vec![self.named.record("role", Table::Roles, f1, f1)],
            _ => vec![],
        })
    }

    /// The variable that a node binds, if it is known how many are bound above it.
    fn binds(&self, number: usize, tag: u16, above: Above) -> Json {
        let bound = above.bound.filter(|_| matches!(tag, 3 | 5));
        let below = self.variables(number + 1);
        let variable = |bound| reference(bound + 1, below.get(bound).map(String::as_str));
        bound.map(variable).into()
    }
}
