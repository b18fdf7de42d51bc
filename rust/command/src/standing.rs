//! Where the threads stand when a dispatcher stops, and why they do nothing more.

use crate::course::Course;
use crate::follow::Wait;
use crate::names;
use crate::rounds::{Rounds, Spared};
use crate::seats;
use pilzdamo::Thread;
use std::collections::HashSet;

/// How many threads of a line are named.
const NAMED: usize = 4;

/// A line for all threads that stand alike.
pub fn lines(course: &Course, rounds: &Rounds) -> Vec<String> {
    let possible = course.desk.choices().into_iter();
    let possible: HashSet<u16> = possible.flat_map(|(one, other)| [one, other]).collect();
    let mut groups: Vec<(String, Vec<String>)> = Vec::new();
    for (number, thread) in (1..).zip(course.desk.threads()) {
        let spared = rounds.spared();
        let left_out = spared.and_then(|spared| left_out(course, spared, number));
        let waits = rounds.run.wait(number).map(|wait| waits(course, &wait));
        let why = left_out
            .or(waits)
            .unwrap_or_else(|| match possible.contains(&number) {
                true => "can go on".to_string(),
                false => why(course, number, thread),
            });
        let stands = format!("{}: {why}", course.called.stands(thread));
        let name = course.called.named(&course.roll, number);
        match groups.iter_mut().find(|(known, _)| *known == stands) {
            Some((_, names)) => names.push(name),
            None => groups.push((stands, vec![name])),
        }
    }
    let line = |(stands, names): (String, Vec<String>)| format!("{} at {stands}", some(&names));
    groups.into_iter().map(line).collect()
}

/// The first of these names, and how many more there are.
fn some(names: &[String]) -> String {
    match names.len().checked_sub(NAMED) {
        Some(more @ 1..) => format!("{} and {more} more", names[..NAMED].join(", ")),
        _ => names.join(", "),
    }
}

/// That a repeat is left out, and for which thread.
fn left_out(course: &Course, spared: &Spared, number: u16) -> Option<String> {
    let repeat = course.roll.threads.get(usize::from(number) - 1)?;
    let copy = spared.waits_for(*repeat)?;
    let threads = course.roll.threads.iter();
    let at = threads.take_while(|thread| **thread != copy).count();
    let name = course.called.named(&course.roll, at as u16 + 1);
    Some(format!(
        "left out until {name} meets another thread or ends"
    ))
}

/// That a thread gets no seat, its session's place in line, and who has the seats.
fn waits(course: &Course, wait: &Wait) -> String {
    let role = course.called.role(wait.role);
    let waits = match wait.place {
        Some(place) => format!("waits for a seat as {role}, number {place} in line"),
        None => format!("would wait for a seat as {role}"),
    };
    let seats = names::several(usize::from(wait.seats), "seat");
    let sessions: Vec<u16> = wait.seated.iter().map(|&index| index as u16 + 1).collect();
    let taken = seats::sessions(course.called.input, &sessions);
    let taken = taken.unwrap_or("no session".to_string());
    format!("{waits}; {seats}, taken by {taken}")
}

/// Why a thread that stands so can do nothing.
fn why(course: &Course, number: u16, thread: &Thread) -> String {
    let called = course.called;
    let [tag, f1, f2] = called.node(thread.node);
    let operand = |word| called.operand(thread, word);
    let waits = |partner: &str| match course.lacking(number) {
        Some(lacking) => lacking,
        None => format!("waits for a {partner} on {}", operand(f1)),
    };
    match tag {
        1 | 2 => "there are 64 threads, and no more can be".to_string(),
        3 => "64 channels are made, and no more can be".to_string(),
        4 => format!("{} and {} aren't equal", operand(f1), operand(f2)),
        5 => waits("sender"),
        6 => waits("receiver"),
        7 => course.wrong(11, [number, 0]).concat(),
        _ => format!("{} isn't on", called.role(f1)),
    }
}
