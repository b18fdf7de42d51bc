//! Counting answers at a minute by number and cause, and by what hours bring.

use super::{closed, without_roles, At};
use second::draft::Draft;
use second::{is_of_file, is_of_reading, Cause, Placed, Verdict, ROOM};
use std::collections::BTreeMap;

/// The least number of files for each cause, and for each of what hours bring.
const LEAST: u64 = 500;

/// What has to come up in the check.
const IN_CHECK: [&str; 20] = [
    "22 where the file is refused too",
    "1 to 7 where 23 stands too",
    "8 where 23 stands too",
    "21 where 23 stands too",
    "23 where 9 stands too",
    "23 where 10 stands too",
    "23 where 11 to 13 stand too",
    "9 or 10 where 24 stands too",
    "11 and 24 at one node",
    "24 before a 13",
    "24 after a 13",
    "24 of a role that is active from the start",
    "24 at an end minute",
    "passes at a first minute",
    "passes with a closed role",
    "passes at the last minute",
    "passes with an end at the week's",
    "a closed starting role that permits",
    "an open senior over a closed junior",
    "passes with 64 rows",
];

/// What has to come up in placing.
const IN_PLACING: [&str; 12] = [
    "17 where 22 stands too",
    "22 where the file is refused too",
    "8 where 23 stands too",
    "23 where 9 or 10 stand too",
    "23 where 14 stands too",
    "14 where 15 by hours stands too",
    "15 caused by hours",
    "on steps changed by hours",
    "other states by hours, as many on steps",
    "placed with a closed role",
    "an open senior over a closed junior",
    "16 at a minute",
];

/// Whether a row is refused with 23 in a file of so many roles.
fn is_wrong(&[role, first, end]: &[u16; 3], roles: usize) -> bool {
    !(1..=roles).contains(&role.into()) || first >= end || end > 10_080
}

/// Whether a table is refused with 23 in a file that 1 to 5 leave clean.
fn has_wrong_row(at: &At) -> bool {
    let roles = Draft::of(&at.file).roles.len();
    let rows = at.rows();
    rows.iter().any(|row| is_wrong(row, roles))
}

/// Whether the table or the minute is refused with 22.
fn is_22(at: &At) -> bool {
    at.minute > 10_079 || !at.hours.len().is_multiple_of(3) || at.hours.len() > 192
}

/// Whether the file has its sections.
fn has_sections(at: &At) -> bool {
    !(1..=5).contains(&second::read(&at.file).number)
}

/// The file whose juniors are open alone.
fn with_open_juniors(draft: &Draft, closed: u16) -> Draft {
    let mut less = draft.clone();
    for [mask] in less.juniors.iter_mut().flatten() {
        *mask &= !closed;
    }
    less
}

/// What came up over many checks at a minute.
#[derive(Default)]
pub struct CheckAtTally(Counts);

/// What came up over many files placed at a minute.
#[derive(Default)]
pub struct PlaceAtTally(Counts);

#[derive(Default)]
struct Counts {
    by_number: BTreeMap<u16, u64>,
    by_cause: BTreeMap<Cause, u64>,
    counts: BTreeMap<&'static str, u64>,
}

impl Counts {
    fn note(&mut self, what: &'static str, shown: bool) {
        *self.counts.entry(what).or_default() += u64::from(shown);
    }

    fn count(&mut self, number: u16, cause: Option<Cause>) {
        *self.by_number.entry(number).or_default() += 1;
        if let Some(cause) = cause {
            *self.by_cause.entry(cause).or_default() += 1;
        }
    }

    /// Prints the table, and fails if something came up too seldom.
    fn demand(&self, causes: &[Cause], all: &[&'static str]) {
        for (number, count) in &self.by_number {
            println!("{count:>9} of {number}");
        }
        let of_cause = |cause| self.by_cause.get(cause).copied().unwrap_or(0);
        for cause in causes {
            println!("{:>9} {:>3} {cause:?}", of_cause(cause), cause.number());
        }
        let of = |what| self.counts.get(what).copied().unwrap_or(0);
        for what in all {
            println!("{:>9} {what}", of(what));
        }
        println!("{:>9} files", self.by_number.values().sum::<u64>());
        for cause in causes {
            assert!(of_cause(cause) >= LEAST, "too few of {cause:?}");
        }
        for what in all {
            assert!(of(what) >= LEAST, "too few {what}");
        }
    }
}

impl CheckAtTally {
    pub(super) fn count(&mut self, at: &At, verdict: Verdict) {
        let refusal = second::cause_at(&at.file, &at.hours, at.minute);
        self.0
            .count(verdict.number, refusal.map(|refusal| refusal.cause));
        let plain = second::check(&at.file);
        match verdict.number {
            22 => {
                let refused = is_of_file(plain.number);
                self.0.note("22 where the file is refused too", refused);
            }
            number if is_of_reading(number) => self.count_reading(at, number),
            23 => {
                self.0.note("23 where 9 stands too", plain.number == 9);
                self.0.note("23 where 10 stands too", plain.number == 10);
                let of_roles = (11..=13).contains(&plain.number);
                self.0.note("23 where 11 to 13 stand too", of_roles);
            }
            9..=13 | 24 => self.count_roles(at, verdict, plain),
            _ => self.count_passing(at),
        }
    }

    fn count_reading(&mut self, at: &At, number: u16) {
        let too = has_sections(at) && has_wrong_row(at);
        self.0
            .note("1 to 7 where 23 stands too", too && number <= 7);
        self.0.note("8 where 23 stands too", too && number == 8);
        self.0.note("21 where 23 stands too", too && number == 21);
    }

    /// Counts the places of closed ons beside those of 11 to 13.
    fn count_roles(&mut self, at: &At, Verdict { number, place }: Verdict, plain: Verdict) {
        let draft = Draft::of(&at.file);
        let closed = closed(&at.hours, at.minute);
        let is_closed = |role: u16| (1..=16).contains(&role) && closed >> (role - 1) & 1 != 0;
        let at_node = usize::from(place) - 1;
        let [_, role, _] = draft.nodes[at_node];
        let closed_on = |node: &[u16; 3]| node[0] == 7 && is_closed(node[1]);
        let behind = draft.nodes[at_node + 1..].iter().any(closed_on);
        let anywhere = draft.nodes.iter().any(closed_on);
        let counts = &mut self.0;
        counts.note("9 or 10 where 24 stands too", number <= 10 && anywhere);
        counts.note("11 and 24 at one node", number == 11 && is_closed(role));
        counts.note("24 after a 13", number == 13 && behind);
        if number == 24 {
            let later = plain.number == 13 && plain.place > place;
            counts.note("24 before a 13", later);
            let from_start = draft
                .sessions
                .iter()
                .any(|&[_, mask, _]| (1..=16).contains(&role) && mask >> (role - 1) & 1 != 0);
            counts.note("24 of a role that is active from the start", from_start);
            let rows = at.rows();
            let ended = rows.iter().any(|row| row[0] == role && row[2] == at.minute);
            counts.note("24 at an end minute", ended);
        }
    }

    fn count_passing(&mut self, at: &At) {
        let draft = Draft::of(&at.file);
        let closed = closed(&at.hours, at.minute) & ((1u32 << draft.roles.len()) - 1) as u16;
        let rows = at.rows();
        let first = rows.iter().any(|&[role, first, _]| {
            first == at.minute && draft.nodes.iter().any(|node| node[..2] == [7, role])
        });
        let refused = |draft: Draft| {
            let verdict = second::check_at(&draft.bytes(), &at.hours, at.minute);
            matches!(verdict.number, 12 | 13)
        };
        let counts = &mut self.0;
        counts.note("passes at a first minute", first);
        counts.note("passes with a closed role", closed != 0);
        counts.note("passes at the last minute", at.minute == 10_079);
        let end = rows.iter().any(|row| row[2] == 10_080);
        counts.note("passes with an end at the week's", end);
        counts.note("passes with 64 rows", rows.len() == 64);
        let mut fewer = draft.clone();
        for [_, start, _] in &mut fewer.sessions {
            *start &= !closed;
        }
        counts.note("a closed starting role that permits", refused(fewer));
        let juniors = refused(with_open_juniors(&draft, closed));
        counts.note("an open senior over a closed junior", juniors);
    }

    /// Prints the table, and fails if something came up too seldom.
    pub fn demand(&self) {
        let causes = [Cause::of_hours(), Cause::of_closed()].concat();
        self.0.demand(&causes, &IN_CHECK);
    }

    /// The same of the causes alone.
    pub fn demand_causes(&self) {
        let causes = [Cause::of_hours(), Cause::of_closed()].concat();
        self.0.demand(&causes, &[]);
    }
}

/// What placing answers without hours.
fn place(draft: &Draft) -> Placed {
    second::place(&draft.bytes(), &mut [0; ROOM])
}

impl PlaceAtTally {
    pub(super) fn count(&mut self, at: &At, placed: Placed, out: &[u8]) {
        let refusal = second::cause_in_placing_at(&at.file, &at.hours, at.minute, out.len());
        self.0
            .count(placed.number, refusal.map(|refusal| refusal.cause));
        let number = placed.number;
        let counts = &mut self.0;
        counts.note("17 where 22 stands too", number == 17 && is_22(at));
        counts.note("16 at a minute", number == 16);
        match number {
            22 => {
                let refused = is_of_file(second::check(&at.file).number);
                counts.note("22 where the file is refused too", refused);
            }
            8 => counts.note("8 where 23 stands too", has_wrong_row(at)),
            23 => {
                let plain = place(&Draft::of(&at.file)).number;
                counts.note("23 where 9 or 10 stand too", matches!(plain, 9 | 10));
                counts.note("23 where 14 stands too", plain == 14);
            }
            0 | 14 | 15 => self.count_hours(at, placed, out),
            _ => {}
        }
    }

    /// Counts what is otherwise where all roles are open, or closed juniors don't
    /// count.
    fn count_hours(&mut self, at: &At, placed: Placed, out: &[u8]) {
        let draft = Draft::of(&at.file);
        let closed = closed(&at.hours, at.minute) & ((1u32 << draft.roles.len()) - 1) as u16;
        let counts = &mut self.0;
        if placed.number == 14 {
            let mut bare = draft.clone();
            for [_, start, _] in &mut bare.sessions {
                *start = 0;
            }
            // An on or off is as good as a repeat here.
            for node in bare.nodes.iter_mut().filter(|node| node[0] >= 7) {
                *node = [2, 0, 0];
            }
            let by_hours = place(&without_roles(&bare, closed)).number == 15;
            let open = place(&bare).number != 15;
            counts.note("14 where 15 by hours stands too", by_hours && open);
            return;
        }
        let mut of_open = [0; ROOM];
        let open = second::place(&at.file, &mut of_open);
        if placed.number == 15 {
            counts.note("15 caused by hours", open.number == 0);
            return;
        }
        counts.note("placed with a closed role", closed != 0);
        counts.note(
            "on steps changed by hours",
            open.on_steps != placed.on_steps,
        );
        let length = usize::from(placed.length);
        let other = open.on_steps == placed.on_steps && of_open[..length] != out[..length];
        counts.note("other states by hours, as many on steps", other);
        let less = with_open_juniors(&draft, closed);
        let less = second::place_at(&less.bytes(), &at.hours, at.minute, &mut [0; ROOM]);
        let juniors = less.number != 0 || less.on_steps != placed.on_steps;
        counts.note("an open senior over a closed junior", juniors);
    }

    /// Prints the table, and fails if something came up too seldom.
    pub fn demand(&self) {
        let causes = [Cause::of_hours(), Cause::of_placing()].concat();
        self.0.demand(&causes, &IN_PLACING);
    }

    /// The same of the causes alone.
    pub fn demand_causes(&self) {
        let causes = [Cause::of_hours(), Cause::of_placing()].concat();
        self.0.demand(&causes, &[]);
    }
}
