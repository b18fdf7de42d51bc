//! What each word of the command does.

use crate::length::Bytes;
use crate::objects;
use crate::output::{self, Out};
use crate::source::{NamedFile, Source};
use crate::turning::Turn;
use crate::words::{Form, Job};
use crate::{
    checking, days, explain, interactive, merging, names, notices, packing, placing, reasons,
    refusals, scheduling, sheets, shown, svg, turning,
};
use crate::{Outcome, WrongUse};
use pilzdamo::ROOM;

/// Does a job.
pub fn carry_out(job: Job) -> Result<Outcome, WrongUse> {
    match job {
        Job::Check { files, at, json } => checking::check(&files, at.as_ref(), json),
        Job::Place {
            file,
            at,
            out,
            bytes,
            json,
        } => placing::place(&file, at.as_ref(), &out, bytes, json),
        Job::Measure { file, at, json } => placing::measure(&file, at.as_ref(), json),
        Job::Merge {
            first,
            second,
            out,
            bytes,
        } => merging::merge(&first, &second, &out, bytes),
        Job::Turn { turn, file, out } => turn_file(turn, &file, &out),
        Job::Notice {
            first_day,
            file,
            out,
        } => notice(first_day, &file, &out),
        Job::InForce {
            day,
            first,
            second,
            out,
        } => in_force(day, [&first, &second], out.as_ref()),
        Job::Sheet { files, json } => sheet(&files, json),
        Job::Show { file, form, out } => show(&file, form, &out),
        Job::Pack { text, out, beside } => packing::pack(&text, &out, &beside),
        Job::Unpack { file, out, names } => packing::unpack(&file, &out, names.as_ref()),
        Job::Strip { file, out } => packing::strip(&file, &out),
        Job::Explain { number, json } => explain(number, json),
        Job::Reason { sentence } => reason(&sentence),
        Job::Help(None) => answer(include_str!("help.txt")),
        Job::Help(Some(word)) => answer(word.help),
        Job::Version => answer(concat!("pilzdamo ", env!("CARGO_PKG_VERSION"), "\n")),
        Job::Run {
            file,
            choices,
            seats,
            trace,
            json,
        } => scheduling::run(&file, &choices, seats.as_ref(), trace, json),
        Job::Interactive {
            file,
            choices,
            seats,
        } => interactive::run(&file, choices.as_ref(), seats.as_ref()),
        Job::Choices {
            file,
            choices,
            seats,
        } => scheduling::choices(&file, &choices, seats.as_ref()),
        Job::Ready {
            file,
            choices,
            seats,
            json,
        } => scheduling::ready(&file, &choices, seats.as_ref(), json),
        Job::Waiting {
            file,
            choices,
            seats,
        } => scheduling::waiting(&file, &choices, seats.as_ref()),
        Job::Seats {
            file,
            choices,
            seats,
        } => scheduling::seats(&file, &choices, seats.as_ref()),
        Job::Round {
            file,
            choices,
            seats,
        } => scheduling::round(&file, &choices, seats.as_ref()),
        Job::Dispatch {
            file,
            rounds,
            seats,
            sparing,
        } => scheduling::dispatch(&file, rounds, seats.as_ref(), sparing),
    }
}

pub fn answer(text: &str) -> Result<Outcome, WrongUse> {
    output::print(text.as_bytes())?;
    Ok(Outcome::Answer)
}

pub fn refusal(message: &str) -> Result<Outcome, WrongUse> {
    output::say(message);
    Ok(Outcome::Refusal)
}

fn turn_file(turn: Turn, file: &Source, out: &Out) -> Result<Outcome, WrongUse> {
    output::spare(&[file], out)?;
    let bytes = file.clinic()?;
    let mut room = [0; ROOM];
    let written = turn.call(&bytes, &mut room);
    let name = file.name();
    if !written.is_written() {
        return refusal(&turning::refused(turn, &bytes, written.verdict()));
    }
    let length = usize::from(written.length);
    output::deliver(&room[..length.min(ROOM)], out)?;
    let into = out.told(" in");
    output::say(&format!("{name}: {}, {length} bytes{into}", turn.done()));
    packing::say_lost(&bytes);
    Ok(Outcome::Answer)
}

fn notice(first_day: u16, file: &Source, out: &Out) -> Result<Outcome, WrongUse> {
    output::spare(&[file], out)?;
    let bytes = file.clinic()?;
    let verdict = pilzdamo::read(&bytes);
    if !verdict.is_clean() {
        return refusal(&bytes.refused(verdict));
    }
    let notice = notices::notice(first_day, &bytes);
    output::deliver(&notice, out)?;
    let (name, begins) = (file.name(), days::date(first_day));
    let written = out.told(" in");
    let (length, planned) = (notice.len(), names::planned(&bytes));
    output::say(&format!(
        "{name}: a notice from {begins} on, {length} bytes{written}{planned}"
    ));
    packing::say_lost(&bytes);
    Ok(Outcome::Answer)
}

fn in_force(day: u16, sources: [&Source; 2], out: Option<&Out>) -> Result<Outcome, WrongUse> {
    if let Some(out) = out {
        output::spare(&sources, out)?;
    }
    let (one, other) = (sources[0].start()?, sources[1].start()?);
    let both = [(sources[0].name(), &one), (sources[1].name(), &other)];
    let (told, part) = pilzdamo::in_force(&one, &other, day);
    if !told.verdict().is_clean() {
        return refusal(&notices::refused(&both, told.verdict()));
    }
    let (told, planned) = (notices::told(&both, day, told), names::planned(part));
    let Some(out) = out else {
        return answer(&format!("{told}{planned}\n"));
    };
    output::deliver(part, out)?;
    let written = out.told(" in");
    output::say(&format!("{told}{written}{planned}"));
    Ok(Outcome::Answer)
}

fn sheet(files: &[Source], json: bool) -> Result<Outcome, WrongUse> {
    let mut input = Vec::new();
    for file in files {
        let bytes = file.clinic()?;
        let record = pilzdamo::records([&bytes[..]]).ok_or_else(|| {
            let (name, length) = (file.name(), bytes.length());
            let most = "a file of a sheet has at most 65535";
            WrongUse(format!("{name}: it has {length}, and {most}"))
        });
        input.extend(record?);
    }
    let sheet = pilzdamo::sheet(&input);
    answer(&match json {
        true => sheets::json(&sheet),
        false => sheets::text(&sheet),
    })
}

fn show(file: &NamedFile, form: Form, out: &Out) -> Result<Outcome, WrongUse> {
    output::spare(&file.sources(), out)?;
    let input = file.clinic()?;
    match form {
        Form::Json => {
            let object = objects::shown(&file.file.typed(), &input);
            output::deliver_text(objects::line(&object).as_bytes(), out)?;
            Ok(Outcome::Answer)
        }
        Form::Svg => svg::show(&input, out),
        Form::Page => answer(&shown::page(&input)),
    }
}

fn explain(number: u16, json: bool) -> Result<Outcome, WrongUse> {
    match refusals::of(number) {
        Some(refusal) if json => answer(&objects::line(&objects::explained(number, refusal))),
        Some(refusal) => answer(&explain::text(number, refusal)),
        None => Err(WrongUse(format!("there is no refusal {number}"))),
    }
}

fn reason(sentence: &[u8]) -> Result<Outcome, WrongUse> {
    let told = pilzdamo::read_reason(sentence);
    if told.is_one() {
        return answer(&reasons::text(told, sentence));
    }
    let shown = text::printable(sentence);
    let form = "give it as it was printed, from \"Refused\" to the full stop, in quotes";
    refusal(&format!(
        "pilzdamo: no refusal has this sentence: '{shown}'\n  {form}"
    ))
}
