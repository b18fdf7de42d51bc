//! Refusals in messages. What a refusal is is said by the engine's own sentence.

use crate::clinic::{Clinic, ROLES};
use crate::faults;
use crate::hours;
use crate::input::Input;
use crate::length::Bytes;
use crate::names;
use crate::records;
use crate::refusals;
use pilzdamo::{Counts, Verdict, NO_TAG};

/// Said of a file whose steps want roles that nothing puts on.
pub const UNPLACED: &str = "the routine has no on or off yet: pilzdamo place adds them";

/// The message for a refused file, by check or placing.
pub fn of_file(name: &str, input: &Input, verdict: Verdict) -> String {
    let counts = refusals::counts(verdict.number, verdict.place, false);
    in_file(name, input, verdict, counts)
}

/// The same with what there is to say of the place.
pub fn of_place(name: &str, bytes: &[u8], verdict: Verdict, more: String) -> String {
    let sentence = sentence_of(&Clinic::of(bytes), verdict);
    message(name, verdict, &sentence, Some(more))
}

/// The message for a refused run, with where the threads of a refused choice stand.
pub fn of_run(
    name: &str,
    bytes: &[u8],
    choices: &[u16],
    verdict: Verdict,
    stands: Option<String>,
) -> String {
    let clinic = Clinic::of(bytes);
    match refusals::counts(verdict.number, verdict.place, true) {
        Counts::Choice => {
            let sentence = sentence(&clinic, verdict, Counts::Choice);
            let choice = choice(choices, verdict.place);
            let lines: Vec<String> = choice.into_iter().chain(stands).collect();
            let more = (!lines.is_empty()).then(|| lines.join("\n  "));
            message(name, verdict, &sentence, more)
        }
        Counts::Nothing if verdict.number == 17 => {
            let sentence = sentence(&clinic, verdict, Counts::Nothing);
            message(name, verdict, &sentence, Some(length(choices)))
        }
        counts => in_file(name, bytes, verdict, counts),
    }
}

/// The message for a table of hours that is refused for a file.
pub fn of_hours(name: &str, table: &hours::Table, file: &[u8], verdict: Verdict) -> String {
    let Verdict { number, place } = verdict;
    let counts = refusals::counts(number, place, false);
    let sentence = sentence(&Clinic::default(), verdict, counts);
    let more = match number {
        22 => Some(format!(
            "the table has {}, and at most 64 are taken",
            names::several(table.lines.len(), "row")
        )),
        _ => row(table, &Clinic::of(file), place),
    };
    message(name, verdict, &sentence, more)
}

/// The line that a row comes from, and its role.
fn row(table: &hours::Table, clinic: &Clinic, number: u16) -> Option<String> {
    let index = usize::from(number).checked_sub(1)?;
    let line = table.lines.get(index)?;
    let [role, ..] = table.words.as_chunks::<3>().0.get(index)?;
    let there = records::there(clinic, ROLES);
    Some(format!(
        "row {number} comes from line {line}: it is of role {role}, {there}"
    ))
}

/// The message for two files that can't be one, though neither is refused by itself,
/// with what there is to say of both.
pub fn of_both(name: &str, verdict: Verdict, more: Option<String>) -> String {
    let sentence = sentence(&Clinic::default(), verdict, Counts::Nothing);
    message(name, verdict, &sentence, more)
}

/// The message for notices that are refused, with what there is to say of them.
pub fn of_notices(name: &str, verdict: Verdict, more: String) -> String {
    let sentence = sentence_of(&Clinic::default(), verdict);
    message(name, verdict, &sentence, Some(more))
}

/// The line that marks what a check refuses in a shown file.
pub fn mark(clinic: &Clinic, verdict: Verdict) -> String {
    let sentence = sentence_of(clinic, verdict);
    match refusals::of(verdict.number) {
        Some(refusal) => format!("!! {sentence} ({})", refusal.who),
        None => format!("!! {sentence}"),
    }
}

/// A message with what a file's bytes have at the place.
fn in_file<B: Bytes + ?Sized>(name: &str, file: &B, verdict: Verdict, counts: Counts) -> String {
    let more = more(file, verdict, counts, "\n  ");
    let sentence = sentence(&Clinic::of(file), verdict, counts);
    message(name, verdict, &sentence, more)
}

/// What there is to say of a refused file below the engine's sentence.
pub fn more<B: Bytes + ?Sized>(
    file: &B,
    verdict: Verdict,
    counts: Counts,
    between: &str,
) -> Option<String> {
    let lines = faults::lines(file, verdict, counts);
    (!lines.is_empty()).then(|| lines.join(between))
}

/// What stands below a refusal in a text: the engine's sentence, and who can mend it.
pub fn below(bytes: &[u8], verdict: Verdict) -> String {
    let counts = refusals::counts(verdict.number, verdict.place, false);
    let sentence = sentence(&Clinic::of(bytes), verdict, counts);
    let mut lines = vec![sentence];
    lines.extend(mend(verdict));
    lines.join("\n  ")
}

/// The engine's sentence for a refused choice.
pub fn sentence_of_choice(verdict: Verdict) -> String {
    sentence(&Clinic::default(), verdict, Counts::Choice)
}

/// What stands below a refused choice: the engine's sentence, and who can mend it.
pub fn below_choice(verdict: Verdict) -> String {
    let mut lines = vec![sentence_of_choice(verdict)];
    lines.extend(mend(verdict));
    lines.join("\n  ")
}

/// What takes out what is there before placing, and who can mend it.
fn mend(verdict: Verdict) -> Vec<String> {
    let Verdict { number, place } = verdict;
    let out = match (number, place) {
        (14, 0) => Some("remove the roles with which this session starts by hand"),
        (14, _) => Some("pilzdamo strip FILE removes on and off"),
        _ => None,
    };
    let who = refusals::of(number).map(|refusal| {
        let who = refusal.who;
        format!("{who} can mend it; more: pilzdamo explain {number}")
    });
    out.map(str::to_string).into_iter().chain(who).collect()
}

/// The sentence, what more there is to say of the place, and who can mend it.
fn message(name: &str, verdict: Verdict, sentence: &str, more: Option<String>) -> String {
    let mut lines = vec![format!("pilzdamo: {name}: {sentence}")];
    lines.extend(more);
    lines.extend(mend(verdict));
    lines.join("\n  ")
}

/// The engine's sentence for a refusal that is none of a run.
pub fn sentence_of(clinic: &Clinic, verdict: Verdict) -> String {
    let counts = refusals::counts(verdict.number, verdict.place, false);
    sentence(clinic, verdict, counts)
}

/// The engine's sentence for a refusal whose place counts so.
pub fn sentence(clinic: &Clinic, verdict: Verdict, counts: Counts) -> String {
    let reason = verdict.reason(counts, tag(clinic, verdict, counts));
    reason.sentence().unwrap_or_else(|| verdict.to_string())
}

/// The tag of the node that is refused, where its sentence says it.
fn tag(clinic: &Clinic, verdict: Verdict, counts: Counts) -> u16 {
    match (verdict.number, counts) {
        (9..=15, Counts::Node) => {
            let index = usize::from(verdict.place).checked_sub(1);
            let node = index.and_then(|index| clinic.nodes.get(index));
            node.map_or(NO_TAG, |[tag, ..]| *tag)
        }
        _ => NO_TAG,
    }
}

/// The length of a list that can't be one.
pub fn length(choices: &[u16]) -> String {
    let numbers = names::several(choices.len(), "number");
    let most = "at most 65,535 choices (65,471 before a round)";
    format!("the list has {numbers}: two for each choice, {most}")
}

/// A choice: its number, thread and partner.
pub fn choice(choices: &[u16], number: u16) -> Option<String> {
    let at = 2 * (usize::from(number).checked_sub(1)?);
    let [thread, partner] = choices.get(at..at + 2)? else {
        return None;
    };
    Some(format!(
        "choice {number}: thread {thread}, partner {partner}"
    ))
}
