//! Counting pairs by how they differ, and by what their session shows.

use super::{Both, Wards};
use crate::hours::closed;
use std::collections::BTreeMap;

/// The least number of pairs for each.
const LEAST: u64 = 500;

/// What has to come up where both files are placed, without hours and at a minute.
const DUE: [&str; 15] = [
    "pairs that are placed",
    "other numbers of users",
    "as many users with other masks",
    "the same users",
    "other places of the session",
    "other numbers of sessions",
    "alone in the second file",
    "other roots",
    "other on steps in all",
    "another session of the same user in one of them",
    "no on step in the session",
    "two on steps or more in the session",
    "a fork in the session",
    "a fork in the session, at other roots",
    "a receive in the session",
];

/// How often each came up.
#[derive(Default)]
pub struct WardsTally {
    pairs: u64,
    plain: BTreeMap<&'static str, u64>,
    at_a_minute: BTreeMap<&'static str, u64>,
    /// At a minute at which roles are closed.
    closed: u64,
    /// At a minute at which the session is placed otherwise than without hours.
    otherwise: u64,
}

impl WardsTally {
    pub(super) fn count(&mut self, wards: &Wards, plain: Option<&Both>, at: Option<&Both>) {
        self.pairs += 1;
        if let Some(both) = plain {
            count(&mut self.plain, wards, both);
        }
        let Some(both) = at else {
            return;
        };
        count(&mut self.at_a_minute, wards, both);
        self.closed += u64::from(closed(&wards.hours, wards.minute) != 0);
        let otherwise = plain.is_some_and(|plain| plain.own != both.own);
        self.otherwise += u64::from(otherwise);
    }

    /// Prints the table, and fails if something came up too seldom.
    pub fn demand(&self) {
        for (name, counts) in [("plain", &self.plain), ("at a minute", &self.at_a_minute)] {
            println!("{name}");
            for what in DUE {
                println!("{:>9} {what}", counts.get(what).copied().unwrap_or(0));
            }
        }
        println!("{:>9} at a minute with closed roles", self.closed);
        println!("{:>9} at a minute placed otherwise", self.otherwise);
        println!("{:>9} pairs", self.pairs);
        for counts in [&self.plain, &self.at_a_minute] {
            for what in DUE {
                let count = counts.get(what).copied().unwrap_or(0);
                assert!(count >= LEAST, "too few: {what}");
            }
        }
        assert!(self.closed >= LEAST && self.otherwise >= LEAST);
    }
}

fn count(counts: &mut BTreeMap<&'static str, u64>, wards: &Wards, both: &Both) {
    let mut note = |what, shown| *counts.entry(what).or_default() += u64::from(shown);
    let [one, other] = &wards.files;
    let as_many = one.users.len() == other.users.len();
    note("pairs that are placed", true);
    note("other numbers of users", !as_many);
    let masks = one.users != other.users;
    note("as many users with other masks", as_many && masks);
    note("the same users", !masks);
    let [place, other_place] = wards.sessions;
    note("other places of the session", place != other_place);
    let [sessions, others] = [one, other].map(|draft| draft.sessions.len());
    note("other numbers of sessions", sessions != others);
    note("alone in the second file", others == 1);
    let other_roots = both.roots[0] != both.roots[1];
    note("other roots", other_roots);
    let [in_one, in_other] = both.placed.map(|placed| placed.on_steps);
    note("other on steps in all", in_one != in_other);
    let [user, ..] = one.sessions[place];
    let of_user = |draft: &&_| {
        let draft: &second::draft::Draft = draft;
        draft.sessions.iter().filter(|[of, ..]| *of == user).count() > 1
    };
    let another = [one, other].iter().filter(|draft| of_user(draft)).count() == 1;
    note("another session of the same user in one of them", another);
    let own = &both.own;
    note("no on step in the session", own.on_steps == 0);
    note("two on steps or more in the session", own.on_steps > 1);
    let has = |due: u16| own.nodes.iter().any(|[tag, ..]| *tag == due);
    note("a fork in the session", has(1));
    note(
        "a fork in the session, at other roots",
        has(1) && other_roots,
    );
    note("a receive in the session", has(5));
}
