//! The state of a run, read from the engine's output.

use crate::clinic::Clinic;
use crate::names::{self, list, Above};

/// The words of a thread.
const THREAD: usize = 12;

/// A state's words. Past their end every word counts as 0.
pub struct State {
    words: Vec<u16>,
}

impl State {
    pub fn of(bytes: &[u8]) -> State {
        let pairs = bytes.as_chunks().0;
        State {
            words: pairs.iter().copied().map(u16::from_le_bytes).collect(),
        }
    }

    fn word(&self, at: usize) -> u16 {
        self.words.get(at).copied().unwrap_or(0)
    }

    /// How many threads there are.
    pub fn threads(&self) -> usize {
        usize::from(self.word(2)).min(64)
    }

    fn made(&self) -> usize {
        usize::from(self.word(3)).min(64)
    }

    /// The state in lines.
    pub fn text(&self, clinic: &Clinic) -> String {
        let mut lines = vec![self.done()];
        lines.push(format!("threads: {}", self.threads()));
        lines.extend((0..self.threads()).map(|i| self.thread(clinic, i)));
        lines.push(format!("made channels: {}", self.made()));
        lines.extend((0..self.made()).map(|i| self.channel(i)));
        lines.join("\n") + "\n"
    }

    fn done(&self) -> String {
        match (self.word(0), self.word(1)) {
            (done, 0) => format!("choices done: {done}"),
            (done, refusal) => format!("choices done: {done}, the next refused with {refusal}"),
        }
    }

    fn thread(&self, clinic: &Clinic, i: usize) -> String {
        let at = 4 + 2 * self.made() + THREAD * i;
        let [user, node, mask] = [0, 1, 2].map(|word| self.word(at + word));
        let values: Vec<u16> = (4..THREAD).map(|word| self.word(at + word)).collect();
        let step = step(clinic, node, bound(&values));
        let roles = list("role", u32::from(mask), 16);
        let line = format!(
            "  thread {}: user {user}, node {node}{step}, {roles}",
            i + 1
        );
        line + &variables(&values)
    }

    fn channel(&self, i: usize) -> String {
        let [owner, kind] = [4, 5].map(|word| self.word(2 * i + word));
        format!("  made channel {}: owner user {owner}, kind {kind}", i + 1)
    }
}

fn bound(values: &[u16]) -> usize {
    values.iter().filter(|&&value| value != 0).count()
}

/// The step at a node, in parentheses.
fn step(clinic: &Clinic, node: u16, bound: usize) -> String {
    let index = usize::from(node).checked_sub(1);
    let above = Above {
        bound: Some(bound),
        due: None,
    };
    match index.and_then(|index| clinic.nodes.get(index)) {
        Some(&node) => format!(" ({})", names::step(clinic, node, above)),
        None => String::new(),
    }
}

/// The variables that are bound.
fn variables(values: &[u16]) -> String {
    let bound = (1..).zip(values).filter(|&(_, &value)| value != 0);
    let texts: Vec<String> = bound
        .map(|(i, &value)| format!("variable {i} = {}", names::value(value)))
        .collect();
    match texts.as_slice() {
        [] => String::new(),
        _ => format!("; {}", texts.join(", ")),
    }
}
