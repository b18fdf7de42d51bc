//! The job of each command.

use super::given::{one_of, Given};
use super::options::Opt;
use super::{known, misused, shown, At, Beside, Form, Job};
use crate::days;
use crate::refusals;
use crate::source::{NamedFile, Source};
use crate::turning::Turn;
use crate::WrongUse;
use pilzdamo::SHEET_FILES;
use std::ffi::OsString;
use text::week;

pub fn check(mut given: Given) -> Result<Job, WrongUse> {
    let files = several(&mut given)?;
    if files.len() > 1 && given.has(Opt::Names) {
        return misused("check: --names goes with one FILE");
    }
    Ok(Job::Check {
        files: files.into_iter().map(|file| given.named(file)).collect(),
        at: minute_and_hours(&given)?,
        json: given.has(Opt::Json),
    })
}

pub fn place(mut given: Given) -> Result<Job, WrongUse> {
    let (out, json) = (given.out(), given.has(Opt::Json));
    if json && out.path.is_none() {
        let why = "the placed file goes there, and the object to standard output";
        return misused(&format!("place: --json needs -o OUT: {why}"));
    }
    Ok(Job::Place {
        file: named_file(&mut given)?,
        at: minute_and_hours(&given)?,
        out,
        bytes: given.has(Opt::Bytes),
        json,
    })
}

pub fn measure(mut given: Given) -> Result<Job, WrongUse> {
    Ok(Job::Measure {
        file: named_file(&mut given)?,
        at: minute_and_hours(&given)?,
        json: given.has(Opt::Json),
    })
}

pub fn merge(mut given: Given) -> Result<Job, WrongUse> {
    let [first, second] = given.exactly()?.map(|word| given.file(word));
    Ok(Job::Merge {
        first,
        second,
        out: given.out(),
        bytes: given.has(Opt::Bytes),
    })
}

pub fn columns(given: Given) -> Result<Job, WrongUse> {
    turned(Turn::ToColumns, given)
}

pub fn rows(given: Given) -> Result<Job, WrongUse> {
    turned(Turn::ToRows, given)
}

fn turned(turn: Turn, mut given: Given) -> Result<Job, WrongUse> {
    let (file, out) = (file(&mut given)?, given.out());
    Ok(Job::Turn { turn, file, out })
}

pub fn notice(mut given: Given) -> Result<Job, WrongUse> {
    let [date, file] = given.exactly()?;
    Ok(Job::Notice {
        first_day: day("notice: DATE", date)?,
        file: given.file(file),
        out: given.out(),
    })
}

pub fn in_force(mut given: Given) -> Result<Job, WrongUse> {
    let [date, first, second] = given.exactly()?;
    Ok(Job::InForce {
        day: day("in-force: DAY", date)?,
        first: Source::named(first),
        second: Source::named(second),
        out: given.out_behind(Opt::Out),
    })
}

pub fn sheet(mut given: Given) -> Result<Job, WrongUse> {
    let files = several(&mut given)?;
    if files.len() > SHEET_FILES {
        let more = files.len();
        return misused(&format!(
            "sheet: a sheet has at most {SHEET_FILES} files, not {more}"
        ));
    }
    Ok(Job::Sheet {
        files: files.into_iter().map(|file| given.file(file)).collect(),
        json: given.has(Opt::Json),
    })
}

pub fn run(mut given: Given) -> Result<Job, WrongUse> {
    if given.has(Opt::Interactive) {
        return interactive(given);
    }
    if given.has(Opt::Trace) && given.has(Opt::Json) {
        return misused("run: --trace and --json don't go together");
    }
    let (file, choices) = file_and_choices(&mut given)?;
    Ok(Job::Run {
        file,
        choices,
        seats: given.source(Opt::Seats),
        trace: given.has(Opt::Trace),
        json: given.has(Opt::Json),
    })
}

/// Standard input is what is typed, so no file can be it.
fn interactive(mut given: Given) -> Result<Job, WrongUse> {
    for other in [Opt::Trace, Opt::Json] {
        if given.has(other) {
            let other = other.long();
            return misused(&format!("run: -i and {other} don't go together"));
        }
    }
    let (file, choices) = match given.plain.len() {
        0 | 1 => (file(&mut given)?, None),
        _ => {
            let [file, choices] = given.exactly()?;
            (given.file(file), Some(given.file(choices)))
        }
    };
    let (names, seats) = (given.source(Opt::Names), given.source(Opt::Seats));
    let beside = [choices.as_ref(), names.as_ref(), seats.as_ref()];
    let typed = |source: Option<&Source>| source.is_some_and(Source::is_standard_input);
    if file.is_standard_input() || beside.into_iter().any(typed) {
        return misused("run: with -i standard input is what is typed, and no file can be it");
    }
    Ok(Job::Interactive {
        file: NamedFile { file, names },
        choices,
        seats,
    })
}

pub fn choices(mut given: Given) -> Result<Job, WrongUse> {
    let (file, choices) = file_and_choices(&mut given)?;
    let seats = given.source(Opt::Seats);
    Ok(Job::Choices {
        file,
        choices,
        seats,
    })
}

pub fn ready(mut given: Given) -> Result<Job, WrongUse> {
    let (file, choices) = file_and_choices(&mut given)?;
    Ok(Job::Ready {
        file,
        choices,
        seats: given.source(Opt::Seats),
        json: given.has(Opt::Json),
    })
}

pub fn waiting(mut given: Given) -> Result<Job, WrongUse> {
    let (file, choices) = file_and_choices(&mut given)?;
    let seats = given.source(Opt::Seats);
    Ok(Job::Waiting {
        file,
        choices,
        seats,
    })
}

/// SEATS may be left out.
pub fn seats(mut given: Given) -> Result<Job, WrongUse> {
    let (file, choices, seats) = match given.plain.len() {
        0..=2 => {
            let (file, choices) = file_and_choices(&mut given)?;
            (file, choices, None)
        }
        _ => {
            let [file, choices, seats] = given.exactly()?;
            let [choices, seats] = [choices, seats].map(|word| given.file(word));
            (given.named(file), choices, Some(seats))
        }
    };
    Ok(Job::Seats {
        file,
        choices,
        seats,
    })
}

pub fn round(mut given: Given) -> Result<Job, WrongUse> {
    let (file, choices) = file_and_choices(&mut given)?;
    let seats = given.source(Opt::Seats);
    Ok(Job::Round {
        file,
        choices,
        seats,
    })
}

/// ROUNDS may be left out.
pub fn dispatch(mut given: Given) -> Result<Job, WrongUse> {
    let (file, rounds) = match given.plain.len() {
        0 | 1 => (named_file(&mut given)?, None),
        _ => {
            let [file, word] = given.exactly()?;
            (given.named(file), Some(rounds(word)?))
        }
    };
    Ok(Job::Dispatch {
        file,
        rounds,
        seats: given.source(Opt::Seats),
        sparing: given.has(Opt::Sparing),
    })
}

pub fn show(mut given: Given) -> Result<Job, WrongUse> {
    let form = match (given.has(Opt::Svg), given.has(Opt::Json)) {
        (true, true) => return misused("show: --svg and --json don't go together"),
        (true, false) => Form::Svg,
        (false, true) => Form::Json,
        (false, false) if given.has(Opt::Out) => {
            return misused("show: -o goes with --svg or --json")
        }
        (false, false) => Form::Page,
    };
    Ok(Job::Show {
        file: named_file(&mut given)?,
        form,
        out: given.out(),
    })
}

pub fn pack(mut given: Given) -> Result<Job, WrongUse> {
    let out = given.out();
    let beside = Beside {
        names: given.out_behind(Opt::NamesOut),
        seats: given.out_behind(Opt::SeatsOut),
        hours: given.out_behind(Opt::HoursOut),
    };
    let all = beside.all(&out).into_iter();
    let printed: Vec<&str> = all
        .filter(|(_, out)| out.path.is_none())
        .map(|(name, _)| name)
        .collect();
    if printed.len() > 1 {
        let which = one_of(&printed);
        return misused(&format!("pack: only {which} can be standard output"));
    }
    let text = file(&mut given)?;
    Ok(Job::Pack { text, out, beside })
}

pub fn unpack(mut given: Given) -> Result<Job, WrongUse> {
    Ok(Job::Unpack {
        file: file(&mut given)?,
        out: given.out(),
        names: given.source(Opt::Names),
    })
}

pub fn strip(mut given: Given) -> Result<Job, WrongUse> {
    let (file, out) = (file(&mut given)?, given.out());
    Ok(Job::Strip { file, out })
}

/// The number of a refusal.
pub fn explain(mut given: Given) -> Result<Job, WrongUse> {
    let [word] = given.exactly()?;
    let word = shown(&word);
    match word.parse() {
        Ok(number) if refusals::of(number).is_some() => Ok(Job::Explain {
            number,
            json: given.has(Opt::Json),
        }),
        _ => misused(&format!(
            "explain: the refusals have the numbers 1 to {}, not '{word}'",
            refusals::ALL.len()
        )),
    }
}

pub fn reason(mut given: Given) -> Result<Job, WrongUse> {
    let [sentence] = given.exactly()?;
    let sentence = sentence.into_encoded_bytes();
    Ok(Job::Reason { sentence })
}

pub fn help(mut given: Given) -> Result<Job, WrongUse> {
    if given.plain.is_empty() {
        return Ok(Job::Help(None));
    }
    let [word] = given.exactly()?;
    known(&word).map(|word| Job::Help(Some(word)))
}

/// The only operand.
fn file(given: &mut Given) -> Result<Source, WrongUse> {
    let [file] = given.exactly()?;
    Ok(given.file(file))
}

/// The only operand, with the names that are given.
fn named_file(given: &mut Given) -> Result<NamedFile, WrongUse> {
    let [file] = given.exactly()?;
    Ok(given.named(file))
}

fn file_and_choices(given: &mut Given) -> Result<(NamedFile, Source), WrongUse> {
    let [file, choices] = given.exactly()?;
    Ok((given.named(file), given.file(choices)))
}

/// One operand or more.
fn several(given: &mut Given) -> Result<Vec<OsString>, WrongUse> {
    if given.plain.is_empty() {
        return misused(&format!("{}: FILE is missing", given.word.name));
    }
    Ok(std::mem::take(&mut given.plain))
}

/// `--at`, with `--hours` or without.
fn minute_and_hours(given: &Given) -> Result<Option<At>, WrongUse> {
    let verb = given.word.name;
    let (at, hours) = match (given.value(Opt::At), given.source(Opt::Hours)) {
        (None, None) => return Ok(None),
        (Some(at), hours) => (at, hours),
        (None, Some(_)) => return misused(&format!("{verb}: --hours goes with --at TIME")),
    };
    let Some(minute) = week::minute(&at.to_string_lossy()) else {
        let (due, at) = ("a day and a time such as \"Mon 07:30\"", shown(at));
        return misused(&format!("{verb}: --at needs {due}, not '{at}'"));
    };
    Ok(Some(At { minute, hours }))
}

/// A day, by its date or its number.
fn day(name: &str, word: OsString) -> Result<u16, WrongUse> {
    let text = shown(&word);
    days::day(&text).map_or_else(
        || {
            let due = "a date from 2000-01-01 to 2179-06-06, or a number of days from 0 to 65535";
            misused(&format!("{name} is {due}, not '{text}'"))
        },
        Ok,
    )
}

/// A number of rounds.
fn rounds(word: OsString) -> Result<u16, WrongUse> {
    let text = shown(&word);
    let digits = text.bytes().all(|byte| byte.is_ascii_digit());
    match text.parse() {
        Ok(rounds @ 1..) if digits => Ok(rounds),
        _ => misused(&format!(
            "dispatch: ROUNDS is a number from 1 to {}, not '{text}'",
            u16::MAX
        )),
    }
}
