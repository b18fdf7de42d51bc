//! The ready pair, tried out: each choice that could be one is given as one
//! more choice of the list.

use second::draft::{word_at, Draft};
use second::{Ready, Verdict, Version, RUN_ROOM};
use trials::{deal_state, engine_ready, engine_run, seed};

const FILES: u64 = 8_000;

/// The least number of states in which something comes up.
const LEAST: u64 = 500;

/// A state of a run: the file and the choices that lead to it.
struct State {
    file: Vec<u8>,
    choices: Vec<u16>,
    /// The tag of each thread's node.
    tags: Vec<u16>,
}

impl State {
    /// The state that the choices lead to, unless the file is refused.
    fn of((file, choices): (Vec<u8>, Vec<u16>)) -> Option<State> {
        let mut out = [0; RUN_ROOM];
        if engine_run(&file, &choices, &mut out) != Verdict::CLEAN {
            return None;
        }
        let [threads, made] = [2, 3].map(|at| usize::from(word_at(&out, at)));
        let nodes = Draft::of(&file).nodes;
        let tag = |thread| {
            let node = word_at(&out, 4 + 2 * made + 12 * thread + 1);
            nodes[usize::from(node) - 1][0]
        };
        Some(State {
            tags: (0..threads).map(tag).collect(),
            file,
            choices,
        })
    }

    fn threads(&self) -> u16 {
        self.tags.len() as u16
    }

    fn is_at_send(&self, thread: u16) -> bool {
        self.tags[usize::from(thread) - 1] == 6
    }

    /// Whether the choice is done, by both.
    fn is_done(&self, thread: u16, partner: u16) -> bool {
        let choices = [&self.choices[..], &[thread, partner]].concat();
        let mut out = [0; RUN_ROOM];
        let verdict = engine_run(&self.file, &choices, &mut out);
        assert_eq!(second::run(&self.file, &choices, &mut out), verdict);
        verdict == Verdict::CLEAN
    }

    /// Asserts that no send of the thread is done, with any partner under
    /// `end`.
    fn assert_refused(&self, sender: u16, end: u16) {
        for partner in 0..end {
            assert!(
                !self.is_done(sender, partner),
                "{sender} meets {partner}: {:?} on {:?}",
                self.choices,
                Draft::of(&self.file)
            );
        }
    }
}

#[test]
fn ready_pairs_are_the_lowest_that_can_meet() {
    Version::ALL.into_iter().for_each(try_states);
}

fn try_states(version: Version) {
    let (mut states, mut pairs, mut no_pair) = (0, 0, 0);
    let (mut past_sender, mut past_receiver) = (0, 0);
    for index in 0..FILES {
        let Some(state) = State::of(deal_state(version, seed(), index)) else {
            continue;
        };
        let ready = engine_ready(&state.file, &state.choices);
        assert_eq!(second::ready(&state.file, &state.choices), ready);
        let (sender, receiver) = (ready.sender, ready.receiver);
        assert_eq!(ready, Ready::pair(sender, receiver));
        let all = state.threads() + 2;
        let lower = if sender == 0 { all - 1 } else { sender };
        let sends = (1..lower).filter(|&thread| state.is_at_send(thread));
        let lower_sends = sends.map(|thread| state.assert_refused(thread, all));
        let lower_sends = lower_sends.count();
        let receives = |end: usize| state.tags[..end].contains(&5);
        states += 1;
        if sender == 0 {
            assert_eq!(receiver, 0);
            no_pair += u64::from(lower_sends > 0 && receives(state.tags.len()));
            continue;
        }
        assert!(state.is_at_send(sender));
        assert!(state.is_done(sender, receiver));
        state.assert_refused(sender, receiver);
        pairs += 1;
        past_sender += u64::from(lower_sends > 0);
        past_receiver += u64::from(receives(usize::from(receiver) - 1));
    }
    println!("{states} states, {pairs} with a pair, {no_pair} with a send and a receive but none");
    println!("{past_sender} past a lower send, {past_receiver} past a lower receive");
    assert!(states >= FILES / 2);
    for count in [pairs, no_pair, past_sender, past_receiver] {
        assert!(count >= LEAST);
    }
}
