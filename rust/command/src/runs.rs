//! A run of a text, in its names.

use crate::called::Called;
use crate::clinic::Clinic;
use crate::course::Course;
use crate::input::{Input, Text};
use crate::listed::Listed;
use crate::report;
use crate::state;
use crate::threads::Thread;
use pilzdamo::{State, Verdict};
use text::NodeAt;

/// The state in the output of a run, in lines: of a text in its names.
pub fn told(input: &Input, output: &[u8], threads: &[Thread]) -> String {
    match (&input.text, State::of(output)) {
        (Some(text), Some(found)) => state(text, &found, threads),
        _ => state::State::of(output).text(&Clinic::of(input)),
    }
}

/// The state that a run of a text comes to.
fn state(text: &Text, state: &State, threads: &[Thread]) -> String {
    let told = Told { text };
    let mut lines = vec![match state.refusal {
        0 => format!("choices done: {}", state.done),
        refusal => format!(
            "choices done: {}, the next refused with {refusal}",
            state.done
        ),
    }];
    lines.push(format!("threads: {}", state.threads.len()));
    for (i, thread) in state.threads.iter().enumerate() {
        let name = threads
            .get(i)
            .map_or(String::new(), |&thread| told.thread(thread));
        let user = told.name(&text.packed.names.users, thread.user);
        let (stands, roles) = (told.stands(thread.node), told.roles(thread.mask));
        let variables = told.variables(thread);
        lines.push(format!(
            "  {} {name}: {user}, {stands}, {roles}{variables}",
            i + 1
        ));
    }
    lines.push(format!("made channels: {}", state.made.len()));
    for (i, channel) in state.made.iter().enumerate() {
        let owner = told.name(&text.packed.names.users, channel.owner);
        let kind = told.name(&text.packed.names.kinds, channel.kind);
        lines.push(format!("  made channel {}: {kind}, owner {owner}", i + 1));
    }
    lines.join("\n") + "\n"
}

/// The message for a choice that is refused, at its place in the list. None where
/// neither the file is a text nor the list has names.
pub fn refused(listed: &Listed, verdict: Verdict) -> Option<String> {
    let why = why(listed, verdict)?;
    let what = format!("refused {}: {why}", verdict.number);
    let message = listed.list.told(verdict.place, &what)?;
    Some(format!("{message}\n  {}", report::below_choice(verdict)))
}

/// Why a choice is refused, in names; none where there are no names.
pub fn why(listed: &Listed, verdict: Verdict) -> Option<String> {
    let followed = &listed.list.followed;
    match followed.missing {
        Some(missing) => {
            let sessions = listed.input.sessions();
            Some(not_there(&sessions, &followed.threads, missing))
        }
        None => stand(listed, verdict),
    }
}

/// A named thread that isn't there, and those that are.
pub fn not_there(sessions: &[String], threads: &[Thread], missing: Thread) -> String {
    let threads = threads.iter();
    let threads: Vec<String> = threads.map(|thread| thread.name(sessions)).collect();
    let there = match &threads[..] {
        [] => "no thread is left".to_string(),
        threads => format!("threads: {}", threads.join(", ")),
    };
    let missing = missing.name(sessions);
    format!("there is no thread {missing} here ({there})")
}

/// Where the threads of a refused choice stand in a text, and what is wrong with that.
fn stand(listed: &Listed, verdict: Verdict) -> Option<String> {
    listed.input.text.as_ref()?;
    let called = Called::of(&listed.input);
    let (course, choice) = halted(&called, listed, verdict)?;
    Some(course.why(verdict.number, choice))
}

/// The same in numbers, a line each.
pub fn stand_in_numbers(listed: &Listed, verdict: Verdict) -> Option<String> {
    let called = Called::of(&listed.input);
    let (course, choice) = halted(&called, listed, verdict)?;
    let mut lines = course.stand(verdict.number, choice);
    lines.extend(course.wrong(verdict.number, choice));
    Some(lines.join("\n  "))
}

/// Where a list halts, and the choice that is refused there.
fn halted<'a>(
    called: &'a Called<'a>,
    listed: &Listed,
    verdict: Verdict,
) -> Option<(Course<'a>, [u16; 2])> {
    let choice = listed.list.choice(verdict.place)?;
    let mut course = Course::start(called).ok()?;
    let done = course.through(&listed.list.words, &listed.waited());
    (done.len() + 1 == usize::from(verdict.place)).then_some((course, choice))
}

/// What a run has, in a text's names.
pub struct Told<'a> {
    pub text: &'a Text,
}

impl Told<'_> {
    fn name<'b>(&self, names: &'b [String], number: u16) -> &'b str {
        let index = usize::from(number).checked_sub(1);
        index
            .and_then(|index| names.get(index))
            .map_or("?", String::as_str)
    }

    pub fn thread(&self, thread: Thread) -> String {
        thread.name(&self.text.sessions())
    }

    /// A node's line, or its number if there are no lines.
    pub fn place(&self, node: u16) -> String {
        match self.source(node).filter(|_| self.text.has_lines) {
            None => format!("node {node}"),
            Some(NodeAt { at, behind, .. }) => match behind {
                true => format!("the end after line {}", at.line),
                false => format!("line {}", at.line),
            },
        }
    }

    /// A node's place and step.
    pub fn stands(&self, node: u16) -> String {
        let place = self.place(node);
        let step = match self.source(node) {
            None => return place,
            Some(found) if found.behind && self.text.has_lines => return place,
            Some(found) if found.behind => "end".to_string(),
            Some(_) => self.text.step(node.into()).unwrap_or_default().to_string(),
        };
        format!("{place} ({step})")
    }

    fn source(&self, node: u16) -> Option<&NodeAt> {
        let at = usize::from(node).checked_sub(1)?;
        self.text.packed.source.nodes.get(at)
    }

    fn roles(&self, mask: u16) -> String {
        let roles: Vec<&str> = crate::names::items(mask.into())
            .map(|role| self.name(&self.text.packed.names.roles, role as u16))
            .collect();
        match &roles[..] {
            [] => "no role".to_string(),
            roles => format!("as {}", roles.join(", ")),
        }
    }

    fn variables(&self, thread: &pilzdamo::Thread) -> String {
        let names = text::variables_at(&self.text.packed, thread.node);
        let bound = names.iter().zip(&thread.vars);
        let texts: Vec<String> = bound
            .map(|(name, &value)| format!("{name} = {}", self.value(value)))
            .collect();
        match &texts[..] {
            [] => String::new(),
            texts => format!("; {}", texts.join(", ")),
        }
    }

    pub fn value(&self, value: u16) -> String {
        let names = &self.text.packed.names;
        match value {
            1..=32 => self.name(&names.users, value).to_string(),
            257..=320 => self.name(&names.channels, value - 256).to_string(),
            _ => crate::names::value(value),
        }
    }
}
