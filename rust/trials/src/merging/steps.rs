//! Runs of either file in the merged one.

use super::deal::lively_pair;
use crate::rng::Rng;
use crate::running::{agreed_run, Dealt};
use crate::schedule::{schedule, Goal, Steer};
use second::draft::Draft;
use second::{Halt, Run, Thread, MERGED_ROOM, RUN_ROOM};

/// What came up over the runs.
#[derive(Debug, Default)]
pub struct HouseSteps {
    pub runs: u64,
    pub choices: u64,
    pub sends: u64,
    /// Threads that ended, and those that came up.
    pub ended: u64,
    pub begun: u64,
    pub made: u64,
}

/// Deals `pairs` pairs that can be merged, and runs each of the two by itself and in the
/// merged file, where the other's threads stand still: every choice leads to the same
/// threads, with the numbers that they have there.
pub fn run_in_house(seed: u64, pairs: u64) -> HouseSteps {
    let mut came_up = HouseSteps::default();
    for index in 0..pairs {
        let rng = &mut Rng::new(seed.rotate_left(9), index);
        let drafts = lively_pair(rng);
        let [first, second] = drafts.each_ref().map(|draft| draft.bytes());
        let mut out = vec![0; MERGED_ROOM];
        let written = second::merge(&first, &second, &mut out);
        assert_eq!(written.number, 0, "pair {index}");
        out.truncate(written.length.into());
        for (file, tenant) in [(&first, Tenant::First), (&second, Tenant::Second)] {
            let goal = Goal {
                steer: *rng.of(&[
                    Steer::Any,
                    Steer::Meet,
                    Steer::Meet,
                    Steer::Grow,
                    Steer::Make,
                ]),
                most: 10 + rng.below(80),
                halt: None,
            };
            let choices = schedule(rng, file, goal);
            let mut steps = Steps::new(&drafts, tenant, file, &out);
            let told = format!("pair {index} of seed {seed}, {tenant:?}");
            let in_house = steps.go_through(&choices, &told, &mut came_up);
            let dealt = Dealt {
                file: out.clone(),
                choices: in_house,
                before: vec![7; RUN_ROOM],
            };
            let (verdict, _) = agreed_run(&dealt, &told);
            assert_eq!(verdict.number, 0, "{told}");
            came_up.runs += 1;
        }
    }
    came_up
}

/// Whose threads step.
#[derive(Clone, Copy, Debug, PartialEq)]
enum Tenant {
    First,
    Second,
}

/// A file's run, and that of the merged file.
struct Steps<'a> {
    drafts: &'a [Draft; 2],
    tenant: Tenant,
    own: Run<'a>,
    house: Run<'a>,
    /// How many threads stand before those of the other file.
    before: usize,
}

impl<'a> Steps<'a> {
    fn new(drafts: &'a [Draft; 2], tenant: Tenant, own: &'a [u8], house: &'a [u8]) -> Steps<'a> {
        let begin = |file| second::begin(file).expect("a file that runs");
        let steps = Steps {
            before: match tenant {
                Tenant::First => drafts[0].sessions.len(),
                Tenant::Second => 0,
            },
            drafts,
            tenant,
            own: begin(own),
            house: begin(house),
        };
        steps.demand("at the start");
        steps
    }

    /// The threads of the other file, which stand still.
    fn others(&self) -> usize {
        match self.tenant {
            Tenant::First => self.drafts[1].sessions.len(),
            Tenant::Second => self.drafts[0].sessions.len(),
        }
    }

    /// A thread's number in the merged file.
    fn number(&self, own: u16) -> u16 {
        match usize::from(own) {
            0 => 0,
            at if at <= self.before => own,
            _ => own + self.others() as u16,
        }
    }

    /// The choices as they are in the merged file, up to where that is full.
    fn go_through(&mut self, choices: &[u16], told: &str, came_up: &mut HouseSteps) -> Vec<u16> {
        let mut in_house = Vec::new();
        for &[thread, partner] in choices.as_chunks().0 {
            let choice = [thread, partner].map(|number| self.number(number));
            match self.house.choose(choice[0], choice[1]) {
                Err(Halt::ThreadsFullAtFork | Halt::ThreadsFullAtRepeat) => break,
                halted => assert_eq!(halted, Ok(()), "{told}"),
            }
            let (threads, made) = (self.own.threads().len(), self.own.made().len());
            assert_eq!(self.own.choose(thread, partner), Ok(()), "{told}");
            let now = self.own.threads().len();
            if now < threads && usize::from(thread) <= self.before {
                self.before -= 1;
            }
            came_up.choices += 1;
            came_up.sends += u64::from(partner != 0);
            came_up.ended += u64::from(now < threads);
            came_up.begun += u64::from(now > threads);
            came_up.made += u64::from(self.own.made().len() > made);
            in_house.extend(choice);
            self.demand(told);
        }
        in_house
    }

    /// The threads and made channels are the same, moved.
    fn demand(&self, told: &str) {
        let mut threads = self.house.threads().to_vec();
        threads.drain(self.before..self.before + self.others());
        let own = self.own.threads().iter().map(|thread| self.moved(thread));
        assert!(own.eq(threads), "{told}: threads");
        let made = self.own.made().iter();
        let made = made.map(|[owner, kind]| [owner + self.shift().0, *kind]);
        assert!(made.eq(self.house.made().iter().copied()), "{told}: made");
    }

    /// How many users, channels and nodes stand before the file's own.
    fn shift(&self) -> (u16, u16, u16) {
        let [first, _] = self.drafts;
        let count = |records: usize| records as u16;
        match self.tenant {
            Tenant::First => (0, 0, 0),
            Tenant::Second => (
                count(first.users.len()),
                count(first.channels.len()),
                count(first.nodes.len()),
            ),
        }
    }

    fn moved(&self, thread: &Thread) -> Thread {
        let (users, channels, nodes) = self.shift();
        let value = |value: u16| match value {
            1..=32 => value + users,
            257..=320 => value + channels,
            _ => value,
        };
        Thread {
            user: thread.user + users,
            node: thread.node + nodes,
            mask: thread.mask,
            variables: thread.variables.map(value),
        }
    }
}
