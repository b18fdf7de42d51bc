//! What a run did, and what can be done next: `run --trace` and `choices`.

use crate::called::Called;
use crate::course::Course;
use crate::listed::Listed;
use crate::names;
use crate::output;
use crate::report;
use crate::seats::Table;
use pilzdamo::Verdict;

/// Each choice of a run with what it did, the state that it came to, and why it stopped.
pub fn traced(listed: &Listed, verdict: Verdict, state: &str) -> String {
    let lines = trace(listed);
    let why = match verdict.is_clean() {
        true => "all choices are done".to_string(),
        false => report::sentence_of_choice(verdict),
    };
    format!("{lines}{state}stopped: {why}\n")
}

/// A line for each choice that was done: its number, the choice, and what it did.
fn trace(listed: &Listed) -> String {
    let called = Called::of(&listed.input);
    let Ok(mut course) = Course::start(&called) else {
        return String::new();
    };
    let lines = course.through(&listed.list.words, &listed.waited());
    let width = lines.len().to_string().len();
    let numbered = (1..).zip(lines);
    let line = |(number, [choice, done]): (usize, [String; 2])| {
        format!("{number:width$}  {choice}: {done}\n")
    };
    numbered.map(line).collect()
}

/// A line for each choice that can be done where a list leads or halts, as a list has it,
/// with a comment on what it would do. A message says if there is none.
pub fn choices(listed: &Listed) -> String {
    let Listed { input, list, table } = listed;
    let called = Called::of(input);
    let Ok(mut course) = Course::start(&called) else {
        return String::new();
    };
    let done = course.through(&list.words, &listed.waited()).len();
    let found = possible(&course, table.as_ref(), &list.words[..2 * done]);
    if found.is_empty() {
        let left = names::several(course.desk.threads().len(), "thread");
        let hint = match course.is_unplaced() {
            true => format!("\n  {}", report::UNPLACED),
            false => String::new(),
        };
        output::say(&format!(
            "{}: no choice can be done, {left} left{hint}",
            input.name
        ));
    }
    aligned(found.into_iter().map(|(_, line)| line).collect())
}

/// The choices that can be done after these words, each in the list's form and with what
/// it would do.
pub fn possible(
    course: &Course,
    table: Option<&Table>,
    words: &[u16],
) -> Vec<([u16; 2], [String; 2])> {
    let told = |(thread, partner)| {
        let does = course.would(table, words, [thread, partner]);
        ([thread, partner], [course.choice(thread, partner), does])
    };
    course.desk.choices().into_iter().map(told).collect()
}

/// Lines with the comments below each other.
fn aligned(lines: Vec<[String; 2]>) -> String {
    let width = lines.iter().map(|[choice, _]| choice.chars().count()).max();
    let width = width.unwrap_or(0);
    let line = |[choice, does]: [String; 2]| format!("{choice:width$}  # {does}\n");
    lines.into_iter().map(line).collect()
}
