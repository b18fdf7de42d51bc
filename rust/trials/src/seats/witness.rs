//! A run with seats gone through again over a run without: a thread's session is found
//! by the tree in which its node lies, and the lines are lists of sessions.

use super::{Seated, Told};
use crate::rounds::choices_of;
use crate::schedule::halt_of;
use second::draft::Draft;
use second::{Run, Seats, Thread};
use std::collections::{BTreeMap, BTreeSet};

const END: u16 = 0;
const RECEIVE: u16 = 5;
const SEND: u16 = 6;
const ON: u16 = 7;
const OFF: u16 = 8;

/// How often something came up.
pub type Came = BTreeMap<&'static str, u64>;

/// An on that asks for a seat.
#[derive(Clone, Copy)]
struct Asked {
    role: u16,
    session: u16,
}

/// What there is after some choices, and what came up.
#[derive(Clone)]
pub struct Witness<'a> {
    run: Run<'a>,
    nodes: Vec<[u16; 3]>,
    users: Vec<[u16; 1]>,
    roots: Vec<u16>,
    seats: &'a [u16],
    lines: Vec<Vec<u16>>,
    waited: u16,
    last: u16,
    steps: Vec<u16>,
    came: Came,
}

impl<'a> Witness<'a> {
    /// Goes through the list, and then through the round, if there is one, and asserts that
    /// all is as it was answered. `None` if something is refused before the first choice.
    pub fn of(seated: &'a Seated, told: &Told, origin: &str) -> Option<Witness<'a>> {
        if told.run.length == 0 {
            return None;
        }
        let file = &seated.dealt.file;
        let Draft {
            nodes,
            users,
            sessions,
            ..
        } = Draft::of(file);
        let mut witness = Witness {
            run: second::begin(file).expect("1 to 10 leave it clean"),
            nodes,
            users,
            roots: sessions.iter().map(|[_, _, root]| *root).collect(),
            seats: &seated.seats,
            lines: vec![Vec::new(); seated.seats.len()],
            waited: 0,
            last: 0,
            steps: Vec::new(),
            came: Came::new(),
        };
        let choices = &seated.dealt.choices;
        let done = match told.run.number {
            0 => choices.len() / 2,
            _ => usize::from(told.run.place) - 1,
        };
        for (at, &[thread, partner]) in choices.as_chunks().0[..done].iter().enumerate() {
            let goes = witness.choose(thread, partner);
            assert!(goes, "{origin}: choice {} is refused", at + 1);
        }
        if let Some(choice) = choices.get(2 * done..2 * done + 2) {
            let goes = witness.clone().choose(choice[0], choice[1]);
            assert!(!goes, "{origin}: choice {} is done", done + 1);
            witness.steps.extend(choice);
        }
        assert_eq!(told.seats, witness.due(told), "{origin}: the seats");
        witness.note("a blocked line", witness.is_blocked());
        witness.go_round(told, origin);
        Some(witness)
    }

    /// The choices that were not answered 26, with that which halted the run.
    pub fn steps(&self) -> Vec<u16> {
        self.steps.clone()
    }

    pub fn came(&self) -> &Came {
        &self.came
    }

    fn note(&mut self, what: &'static str, shown: bool) {
        *self.came.entry(what).or_default() += u64::from(shown);
    }

    /// The session in whose tree a thread's node lies.
    fn session_of(&self, thread: &Thread) -> u16 {
        self.roots.partition_point(|&root| root <= thread.node) as u16
    }

    fn node_of(&self, thread: &Thread) -> [u16; 3] {
        self.nodes[usize::from(thread.node) - 1]
    }

    /// The sessions that have a role.
    fn in_role(&self, role: u16) -> BTreeSet<u16> {
        let threads = self.run.threads().iter();
        let active = threads.filter(|thread| thread.mask >> (role - 1) & 1 != 0);
        active.map(|thread| self.session_of(thread)).collect()
    }

    fn limit(&self, role: u16) -> usize {
        self.seats[usize::from(role) - 1].into()
    }

    fn line(&mut self, role: u16) -> &mut Vec<u16> {
        &mut self.lines[usize::from(role) - 1]
    }

    /// Whether a choice asks for a seat.
    fn asks(&self, thread: u16, partner: u16) -> Option<Asked> {
        let at = usize::from(thread).checked_sub(1)?;
        let thread = self.run.threads().get(at)?;
        let [tag, role, _] = self.node_of(thread);
        if tag != ON || partner != 0 || self.limit(role) == 0 {
            return None;
        }
        let [assigned] = self.users[usize::from(thread.user) - 1];
        let session = self.session_of(thread);
        let its_own = assigned >> (role - 1) & 1 != 0;
        let asks = its_own && !self.in_role(role).contains(&session);
        asks.then_some(Asked { role, session })
    }

    fn gets(&self, Asked { role, session }: Asked) -> bool {
        let line = &self.lines[usize::from(role) - 1];
        self.in_role(role).len() < self.limit(role) && (line.is_empty() || line[0] == session)
    }

    /// Carries out a choice, unless it is refused.
    fn choose(&mut self, thread: u16, partner: u16) -> bool {
        let Some(asked) = self.asks(thread, partner) else {
            return self.step(thread, partner);
        };
        let Asked { role, session } = asked;
        let free = self.in_role(role).len() < self.limit(role);
        let (gets, waits) = (self.gets(asked), self.line(role).contains(&session));
        self.note("got free", gets && !waits);
        self.note("got as head", gets && waits);
        let behind = gets && self.line(role).len() > 1;
        self.note("got as head, others behind", behind);
        self.note("none free", !free);
        self.note("free but another is head", free && !gets);
        self.note("a second on while waiting", !gets && waits);
        if gets {
            self.line(role).retain(|&waiting| waiting != session);
            return self.step(thread, partner);
        }
        if !waits {
            self.line(role).push(session);
        }
        let length = self.line(role).len();
        self.note("a line of three", length == 3 && !waits);
        self.waited += 1;
        self.last = 26;
        true
    }

    /// Carries out a choice of a run without seats.
    fn step(&mut self, thread: u16, partner: u16) -> bool {
        let at = usize::from(thread).wrapping_sub(1);
        let Some(&before) = self.run.threads().get(at) else {
            return false;
        };
        let [tag, role, _] = self.node_of(&before);
        let session = self.session_of(&before);
        let held = matches!(tag, ON | OFF) && self.in_role(role).contains(&session);
        let free: Vec<u16> = (1..=self.seats.len() as u16)
            .filter(|&role| before.mask >> (role - 1) & 1 != 0 && self.limit(role) > 0)
            .collect();
        if self.run.choose(thread, partner).is_err() {
            return false;
        }
        self.steps.extend([thread, partner]);
        self.last = 0;
        let sits = |role| self.in_role(role).contains(&session);
        let freed = free.iter().any(|&role| !sits(role));
        match tag {
            ON if self.limit(role) > 0 && before.mask >> (role - 1) & 1 == 0 && held => {
                self.note("seat held by a twin", true);
                let line = !self.line(role).is_empty();
                self.note("seat held by a twin, and a line", line);
            }
            OFF if self.limit(role) > 0 => {
                let kept = sits(role);
                self.note("kept after one twin's off", kept);
                self.note("freed by off", !kept);
            }
            END => {
                self.note("freed by end", freed);
                self.note("kept after one twin's end", !free.is_empty() && !freed);
            }
            _ => {}
        }
        true
    }

    /// What is to be read of the seats.
    fn due(&self, told: &Told) -> Seats {
        let mut due = Seats {
            waited: self.waited,
            last: self.last,
            totals: self.run.counted_totals(),
            ..Seats::refused(told.run.number, told.run.place)
        };
        for (at, line) in self.lines.iter().enumerate() {
            due.taken[at] = self.in_role(at as u16 + 1).len() as u16;
            due.waiting[at] = line.len() as u16;
            due.line[32 * at..32 * at + line.len()].copy_from_slice(line);
        }
        due
    }

    /// Whether somebody waits, and nothing can be done but to ask again.
    fn is_blocked(&self) -> bool {
        if self.lines.iter().all(Vec::is_empty) {
            return false;
        }
        let threads = self.run.threads();
        let numbers = 1..=threads.len() as u16;
        let tag = |number: u16| self.node_of(&threads[usize::from(number) - 1])[0];
        let goes = |number: u16, partner: u16| match self.asks(number, partner) {
            Some(asked) => self.gets(asked),
            None => halt_of(&self.run, [number, partner]).is_none(),
        };
        numbers.clone().all(|number| match tag(number) {
            RECEIVE => true,
            SEND => numbers
                .clone()
                .all(|partner| tag(partner) != RECEIVE || !goes(number, partner)),
            _ => !goes(number, 0),
        })
    }

    /// Goes through the round's choices, none of which is refused.
    fn go_round(&mut self, told: &Told, origin: &str) {
        if told.round.number != 0 {
            return;
        }
        let came = self.came.clone();
        let steps = self.steps.clone();
        let (waited, heads) = (self.waited, self.count("got as head"));
        let made = choices_of(&told.round);
        for &[thread, partner] in made {
            let goes = self.choose(thread, partner);
            assert!(
                goes,
                "{origin}: {thread}, {partner} of the round is refused"
            );
        }
        let more = self.waited - waited;
        let heads = self.count("got as head") - heads;
        (self.came, self.steps) = (came, steps);
        self.note("rounds with seats", true);
        self.note("26 in a round", more > 0);
        self.note("got as head in a round", heads > 0);
        let only = more > 0 && usize::from(more) == made.len();
        self.note("a round of nothing but 26", only);
    }

    fn count(&self, what: &str) -> u64 {
        self.came.get(what).copied().unwrap_or(0)
    }
}
