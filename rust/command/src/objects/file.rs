//! A whole file.

use super::named::{lines, Named, Table};
use super::nodes::Nodes;
use super::refused;
use crate::clinic::{Clinic, COUNTED};
use crate::input::Input;
use crate::json::{list, object, Json};
use crate::length::Length;
use crate::tree::{self, Ended, Tree};
use text::At;

/// Any file whatever, as far as it can be followed as a clinic's.
pub fn shown(file: &str, input: &Input) -> Json {
    let verdict = pilzdamo::check(input);
    let clinic = Clinic::of(input);
    let (trees, reached) = tree::follow(&clinic);
    let nodes = Nodes::of(input, &clinic);
    let file_of = File {
        input,
        clinic: &clinic,
        nodes,
    };
    let answer = match verdict.is_clean() {
        true => "passes",
        false => "refused",
    };
    let on_steps = clinic.counts.map(|_| clinic.on_steps());
    object([
        ("file", file.into()),
        ("answer", answer.into()),
        ("length", length(&clinic).into()),
        ("version", clinic.head.first().copied().into()),
        ("nodes_by", by(&clinic).into()),
        ("head", list(clinic.head.iter().copied())),
        ("counts", counts(&clinic)),
        ("offsets", offsets(&clinic)),
        ("on_steps", on_steps.into()),
        ("users", file_of.users()),
        ("roles", file_of.roles()),
        ("kinds", file_of.kinds()),
        ("channels", file_of.channels()),
        ("sessions", file_of.sessions(&trees)),
        ("loose_nodes", file_of.loose(reached)),
        ("refusal", refused::asked(input, None, verdict)),
    ])
}

/// The length, if the whole file was seen.
fn length(clinic: &Clinic) -> Option<usize> {
    match clinic.length {
        Length::Exactly(length) => Some(length as usize),
        Length::MoreThan(_) => None,
    }
}

/// How the nodes stand, if the version is known.
fn by(clinic: &Clinic) -> Option<&'static str> {
    match clinic.version() {
        1 | 2 => Some("row"),
        3 => Some("column"),
        _ => None,
    }
}

/// The counts as the head has them, if it is whole.
fn counts(clinic: &Clinic) -> Json {
    let counts = COUNTED.iter().zip(clinic.counted());
    let counts = counts.map(|(section, &count)| (section.name, count.into()));
    clinic.has_head().then(|| object(counts)).into()
}

fn offsets(clinic: &Clinic) -> Json {
    let offsets = clinic.offsets();
    let offsets = offsets.map(|(section, offset)| (section.name, offset.into()));
    clinic.has_head().then(|| object(offsets)).into()
}

struct File<'a> {
    input: &'a Input,
    clinic: &'a Clinic,
    nodes: Nodes<'a>,
}

impl File<'_> {
    fn named(&self) -> Named<'_> {
        self.nodes.named
    }

    /// A record: its number, name and line, and what it says.
    fn record<const N: usize>(&self, table: Table, at: usize, said: [(&str, Json); N]) -> Json {
        let name = self.named().name(table, at + 1);
        let line = self.place(table, at).map(|at| at.line);
        let before = [
            ("number", (at + 1).into()),
            ("name", name.into()),
            ("line", line.into()),
        ];
        object(before.into_iter().chain(said))
    }

    /// Where a record stands in a text.
    fn place(&self, table: Table, at: usize) -> Option<At> {
        let source = &lines(self.input)?.packed.source;
        let places = match table {
            Table::Users => &source.users,
            Table::Roles => &source.roles,
            Table::Kinds => &source.kinds,
            Table::Channels => &source.channels,
            Table::Sessions => &source.sessions,
        };
        places.get(at).copied()
    }

    fn users(&self) -> Json {
        let users = self.clinic.users.iter().enumerate();
        list(users.map(|(at, &[mask])| {
            let roles = self.named().masked(Table::Roles, mask.into());
            self.record(Table::Users, at, [("roles", roles)])
        }))
    }

    fn roles(&self) -> Json {
        let wide = |low: u16, high: u16| u32::from(high) << 16 | u32::from(low);
        let kinds = |mask| self.named().masked(Table::Kinds, mask);
        let roles = self.clinic.roles.iter().enumerate();
        list(roles.map(|(at, &[low, high, low_in, high_in])| {
            let juniors = self.clinic.juniors.get(at).map_or(0, |&[mask]| mask);
            let limits = self.named().limits(at);
            let open = limits.open.iter().map(|open| Json::from(open.to_string()));
            let seats = Some(limits.seats).filter(|&seats| seats != 0);
            let said = [
                ("sends", kinds(wide(low, high))),
                ("receives", kinds(wide(low_in, high_in))),
                ("juniors", self.named().masked(Table::Roles, juniors.into())),
                ("seats", seats.into()),
                ("open", list(open)),
            ];
            self.record(Table::Roles, at, said)
        }))
    }

    fn kinds(&self) -> Json {
        let kinds = self.clinic.kinds.iter().enumerate();
        list(kinds.map(|(at, &[carried])| {
            let carried = Some(carried).filter(|&carried| carried != 0);
            let carried = carried.map(|kind| self.named().one(Table::Kinds, kind));
            self.record(Table::Kinds, at, [("carries", carried.into())])
        }))
    }

    fn channels(&self) -> Json {
        let channels = self.clinic.channels.iter().enumerate();
        list(channels.map(|(at, &[owner, kind])| {
            let said = [
                ("owner", self.named().one(Table::Users, owner)),
                ("kind", self.named().one(Table::Kinds, kind)),
            ];
            self.record(Table::Channels, at, said)
        }))
    }

    fn sessions(&self, trees: &[Tree]) -> Json {
        let sessions = self.clinic.sessions.iter().zip(trees).enumerate();
        list(sessions.map(|(at, (&[user, mask, root], tree))| {
            let nodes = tree.visits.iter().map(|visit| self.nodes.node(visit));
            let said = [
                ("user", self.named().one(Table::Users, user)),
                ("roles", self.named().masked(Table::Roles, mask.into())),
                ("root", root.into()),
                ("tree", ended(tree.ended).into()),
                ("nodes", list(nodes)),
            ];
            self.record(Table::Sessions, at, said)
        }))
    }

    /// The nodes after those that the sessions' trees have.
    fn loose(&self, reached: usize) -> Json {
        let loose = reached + 1..=self.clinic.nodes.len();
        list(loose.map(|number| self.nodes.loose(number)))
    }
}

/// How far a tree can be followed.
fn ended(ended: Ended) -> &'static str {
    match ended {
        Ended::Whole => "whole",
        Ended::PastLast => "past the last node",
        Ended::Lost => "lost",
        Ended::Unknown => "not followed",
    }
}
