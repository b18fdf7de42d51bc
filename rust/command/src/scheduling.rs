//! What each word that takes a list of choices, or makes one, does.

use crate::called::Called;
use crate::clinic::{Clinic, KINDS};
use crate::course::Course;
use crate::follow::Seating;
use crate::following;
use crate::input::Input;
use crate::jobs::{answer, refusal};
use crate::listed::Listed;
use crate::lists;
use crate::names;
use crate::objects::{self, Ran};
use crate::output;
use crate::refusals;
use crate::report;
use crate::rounds::Rounds;
use crate::runs;
use crate::seats;
use crate::source::{NamedFile, Source};
use crate::standing;
use crate::{Outcome, WrongUse};
use pilzdamo::{Totals, BEFORE_ROUND, RUN_ROOM};

pub fn run(
    file: &NamedFile,
    choices: &Source,
    table: Option<&Source>,
    trace: bool,
    json: bool,
) -> Result<Outcome, WrongUse> {
    let listed = Listed::read(file, Some(choices), table)?;
    let mut room = [0; RUN_ROOM];
    let verdict = listed.run(&mut room);
    if json {
        let ran = Ran {
            file: file.file.typed(),
            choices: choices.typed(),
            listed: &listed,
            verdict,
        };
        return objects::print(&objects::ran(&ran, &room), verdict);
    }
    let Listed { input, list, table } = &listed;
    listed.answered(verdict, || {
        let seated = seats::after(table.as_ref(), input, &list.words);
        let state = runs::told(input, &room, &list.followed.threads) + &seated;
        match trace {
            true => following::traced(&listed, verdict, &state),
            false => state,
        }
    })
}

pub fn choices(
    file: &NamedFile,
    list: &Source,
    table: Option<&Source>,
) -> Result<Outcome, WrongUse> {
    let listed = Listed::read(file, Some(list), table)?;
    let verdict = listed.run(&mut [0; RUN_ROOM]);
    listed.answered(verdict, || following::choices(&listed))
}

/// The lowest sender and receiver that can meet after a list of choices.
pub fn ready(
    file: &NamedFile,
    choices: &Source,
    table: Option<&Source>,
    json: bool,
) -> Result<Outcome, WrongUse> {
    let listed = Listed::read(file, Some(choices), table)?;
    let verdict = listed.run(&mut [0; RUN_ROOM]);
    let told = pilzdamo::ready(&listed.input, &listed.without_waits());
    if json {
        let ran = Ran {
            file: file.file.typed(),
            choices: choices.typed(),
            listed: &listed,
            verdict,
        };
        return objects::print(&objects::ready(&ran, told.pair()), verdict);
    }
    match told.pair() {
        _ if !verdict.is_clean() => listed.answered(verdict, String::new),
        None => {
            listed.say_unplaced();
            answer("no two threads can meet\n")
        }
        Some((sender, receiver)) => {
            let [sender, receiver] = [sender, receiver].map(|number| thread(&listed, number));
            answer(&format!("{sender} can send to {receiver}\n"))
        }
    }
}

/// `thread 4`, or of a text `serve.2 (thread 4)`.
fn thread(listed: &Listed, number: u16) -> String {
    match listed.list.thread(&listed.input, number) {
        Some(name) => format!("{name} (thread {number})"),
        None => format!("thread {number}"),
    }
}

pub fn seats(file: &NamedFile, list: &Source, table: Option<&Source>) -> Result<Outcome, WrongUse> {
    let listed = Listed::read(file, Some(list), table)?;
    let Listed { input, list, table } = &listed;
    let verdict = listed.run(&mut [0; RUN_ROOM]);
    if table.is_none() && (verdict.is_clean() || refusals::is_halt(verdict)) {
        let why = "no role has seats of its own; name a table: SEATS";
        return Err(WrongUse(format!("seats: {}: {why}", input.name)));
    }
    listed.answered(verdict, || seats::after(table.as_ref(), input, &list.words))
}

pub fn waiting(
    file: &NamedFile,
    list: &Source,
    table: Option<&Source>,
) -> Result<Outcome, WrongUse> {
    let listed = Listed::read(file, Some(list), table)?;
    let verdict = listed.run(&mut [0; RUN_ROOM]);
    let totals = pilzdamo::totals(&listed.input, &listed.without_waits());
    listed.answered(verdict, || by_kind(&listed.input, &totals))
}

/// A line for each kind of a file.
fn by_kind(input: &Input, totals: &Totals) -> String {
    let kinds = 1..=Clinic::of(input).count(KINDS) as u16;
    let line = |kind| format!("kind {}: {} waiting\n", input.kind(kind), totals.of(kind));
    kinds.map(line).collect()
}

pub fn round(file: &NamedFile, list: &Source, table: Option<&Source>) -> Result<Outcome, WrongUse> {
    let listed = Listed::read(file, Some(list), table)?;
    let Listed { input, list, table } = &listed;
    let table = table.as_ref();
    let mut room = [0; RUN_ROOM];
    let round = seats::round(input, &list.words, table, &mut room);
    let both = [&list.words, round.choices()].concat();
    let followed = lists::followed(input, &both, table);
    let verdict = round.verdict();
    listed.answered(verdict, || {
        let seated = seats::after(table, input, &both);
        let state = runs::told(input, &room, &followed.threads) + &seated;
        let done = list.words.len() / 2..both.len() / 2;
        match round.choices() {
            _ if !verdict.is_clean() => state,
            [] => {
                listed.say_unplaced();
                format!("round: no choice can be done\n{state}")
            }
            _ => {
                let told = lists::line(input, &followed, &both, done);
                format!("round: {told}\n{state}")
            }
        }
    })
}

/// Rounds from the start, each from where the one before it left the run.
pub fn dispatch(
    file: &NamedFile,
    most: Option<u16>,
    table: Option<&Source>,
    sparing: bool,
) -> Result<Outcome, WrongUse> {
    let listed = Listed::read(file, None, table)?;
    let verdict = listed.run(&mut [0; RUN_ROOM]);
    let Listed { input, table, .. } = &listed;
    let seating = Seating::by(table.as_ref());
    let mut rounds = match Rounds::start(input, seating, sparing) {
        Ok(rounds) if verdict.is_clean() => rounds,
        _ => return refusal(&listed.refused(verdict)),
    };
    let mut lines = Vec::new();
    let why = loop {
        if most.is_some_and(|most| lines.len() == usize::from(most)) {
            break "all rounds are done".to_string();
        }
        if rounds.run.words.len() > 2 * BEFORE_ROUND {
            break "no round follows over 65,471 choices".to_string();
        }
        let before = rounds.run.moment();
        let line = rounds.go();
        let what = match line {
            None if sparing => "nothing is left to do",
            None => "no choice can be done",
            Some(_) if rounds.run.takes_waits_back(before) => "every choice waits for a seat",
            Some(line) => {
                lines.push(line + "\n");
                continue;
            }
        };
        let threads = names::several(rounds.run.desk.threads().len(), "thread");
        break format!("then {what}, {threads} left");
    };
    if !rounds.run.agrees() {
        let why = "the engine answers these rounds otherwise";
        return Err(WrongUse(format!("dispatch: {why}")));
    }
    output::print(lines.concat().as_bytes())?;
    let count = names::several(rounds.run.words.len() / 2, "choice");
    let (name, done) = (file.name(), names::several(lines.len(), "round"));
    let mut told = vec![format!("{name}: {done}, {count}; {why}")];
    told.extend(stopped(input, &rounds));
    output::say(&told.join("\n  "));
    Ok(Outcome::Answer)
}

/// What there is to say of rounds that have stopped: what kind of rounds they are if they
/// aren't those of `round`, where each thread stands, and a hint where no role is ever on.
fn stopped(input: &Input, rounds: &Rounds) -> Vec<String> {
    let called = Called::of(input);
    let course = Course {
        called: &called,
        desk: rounds.run.desk.clone(),
        roll: rounds.run.roll.clone(),
    };
    let spared = rounds.spared().filter(|spared| spared.left_out > 0);
    let spared = spared.map(|spared| {
        let times = names::several(spared.left_out, "time");
        format!("with --sparing these are not the rounds of `round`: a repeat was left out {times}")
    });
    let mut told: Vec<String> = spared.into_iter().collect();
    told.extend(standing::lines(&course, rounds));
    told.extend(course.is_unplaced().then(|| report::UNPLACED.to_string()));
    told
}
