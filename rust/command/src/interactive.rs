//! `run -i`: a run that is driven by what is typed. What is said goes to standard error,
//! the choices that were done to standard output, so that they can be kept.

use crate::called::Called;
use crate::course::Course;
use crate::following::possible;
use crate::input::Input;
use crate::listed::Listed;
use crate::lists::MOST;
use crate::output::{self, Out};
use crate::reading::LONGEST_LIST;
use crate::refusals;
use crate::report;
use crate::runs;
use crate::seats::{self, Table};
use crate::source::{reason, shown, too_long, NamedFile, Source};
use crate::threads::Choice;
use crate::typed::{self, Typed};
use crate::{names, Outcome, WrongUse};
use pilzdamo::{Verdict, RUN_ROOM};
use std::io::{self, BufRead, IsTerminal, Read, Write};
use std::path::PathBuf;

/// Drives a file's run, from the end of a list on if there is one.
pub fn run(
    file: &NamedFile,
    list: Option<&Source>,
    table: Option<&Source>,
) -> Result<Outcome, WrongUse> {
    let inputs = file.sources().into_iter().chain(list).chain(table);
    let inputs: Vec<&Source> = inputs.collect();
    let listed = Listed::read(file, list, table)?;
    let verdict = listed.run(&mut [0; RUN_ROOM]);
    if !verdict.is_clean() {
        output::say(&listed.refused(verdict));
        if !refusals::is_halt(verdict) {
            return Ok(Outcome::Refusal);
        }
    }
    let called = Called::of(&listed.input);
    let Some(mut driven) = Driven::start(&called, &listed) else {
        return Ok(Outcome::Refusal);
    };
    driven.converse(&inputs)?;
    output::print(driven.list().as_bytes())?;
    Ok(Outcome::Answer)
}

/// A run, the choices that led to where it stands, and those that can be done there.
struct Driven<'a> {
    course: Course<'a>,
    table: Option<&'a Table>,
    words: Vec<u16>,
    /// The indices of the choices that got no seat.
    waited: Vec<usize>,
    /// The choices done, as a list has them.
    done: Vec<String>,
    listed: Vec<[u16; 2]>,
}

impl<'a> Driven<'a> {
    /// Goes through a list, up to a choice that is refused.
    fn start(called: &'a Called<'a>, listed: &'a Listed) -> Option<Driven<'a>> {
        let (words, waited) = (&listed.list.words, listed.waited());
        let mut course = Course::start(called).ok()?;
        let lines = course.through(words, &waited);
        Some(Driven {
            course,
            table: listed.table.as_ref(),
            words: words[..2 * lines.len()].to_vec(),
            waited,
            done: lines.into_iter().map(|[choice, _]| choice).collect(),
            listed: Vec::new(),
        })
    }

    /// Answers line by line, until the input ends or the person does.
    fn converse(&mut self, inputs: &[&Source]) -> Result<(), WrongUse> {
        let sessions = self.input().sessions();
        let prompts = io::stdin().is_terminal();
        self.tell();
        if prompts {
            output::say("a number does that choice; help lists the other inputs");
        }
        while let Some(line) = next_line(prompts)? {
            match typed::read(&line, &sessions) {
                Ok(Typed::Quit) => break,
                Ok(typed) => self.answer(typed, inputs),
                Err(what) => output::say(&what),
            }
        }
        Ok(())
    }

    fn answer(&mut self, typed: Typed, inputs: &[&Source]) {
        match typed {
            Typed::Nothing | Typed::Quit => (),
            Typed::Listed(number) => self.choose_listed(&number),
            Typed::Choices(choices) => self.choose_all(&choices),
            Typed::Undo => self.undo(),
            Typed::WhyNot(choice) => self.why_not(choice),
            Typed::List if self.done.is_empty() => output::say("no choice is done yet"),
            Typed::List => output::say(self.list().trim_end()),
            Typed::State => output::say(self.state().trim_end()),
            Typed::Save(path) => self.save(inputs, path.into()),
            Typed::Help => output::say(typed::HELP),
        }
    }

    fn input(&self) -> &'a Input {
        self.course.called.input
    }

    /// The state in a line, the roles with a limit, and the choices that can be done, by
    /// number.
    fn tell(&mut self) {
        let threads = (1..)
            .zip(self.course.desk.threads())
            .map(|(number, thread)| {
                let name = self.course.called.thread(&self.course.roll, number);
                format!("{name} at {}", self.course.called.place(thread.node))
            });
        let threads = match threads.collect::<Vec<_>>() {
            none if none.is_empty() => "none".to_string(),
            threads => threads.join(", "),
        };
        let (done, made) = (self.done.len(), self.course.desk.made().len());
        output::say(&format!(
            "choices done: {done}; threads: {threads}; made channels: {made}"
        ));
        for line in seats::limited(self.table, self.input(), &self.words) {
            output::say(&line);
        }
        let possible = possible(&self.course, self.table, &self.words);
        if possible.is_empty() {
            output::say("no choice can be done");
            if self.course.is_unplaced() {
                output::say(&format!("  {}", report::UNPLACED));
            }
        }
        let widths = possible
            .iter()
            .map(|(_, [choice, _])| choice.chars().count());
        let (width, digits) = (widths.max().unwrap_or(0), possible.len().to_string().len());
        for (number, (_, [choice, does])) in (1..).zip(&possible) {
            output::say(&format!("  {number:digits$}  {choice:width$}  {does}"));
        }
        self.listed = possible.into_iter().map(|(choice, _)| choice).collect();
    }

    fn choose_listed(&mut self, number: &str) {
        let at = number.parse::<usize>().ok();
        let at = at.and_then(|number| number.checked_sub(1));
        match at.and_then(|at| self.listed.get(at)) {
            Some(&choice) => {
                self.choose(choice);
                self.tell();
            }
            None => output::say(&format!(
                "there is no choice {} (choices listed: {})",
                text::shown(number),
                self.listed.len()
            )),
        }
    }

    /// Does the choices of a line, up to one that is refused.
    fn choose_all(&mut self, choices: &[Choice]) {
        let before = self.done.len();
        for &choice in choices {
            let Some(found) = self.numbers(choice) else {
                break;
            };
            if !self.choose(found) {
                break;
            }
        }
        if self.done.len() > before {
            self.tell();
        }
    }

    /// The numbers of a choice's threads, if they are there.
    fn numbers(&self, choice: Choice) -> Option<[u16; 2]> {
        let roll = &self.course.roll;
        match [choice.thread, choice.partner].map(|who| roll.number(who)) {
            [Ok(thread), Ok(partner)] => Some([thread, partner]),
            [Err(missing), _] | [_, Err(missing)] => {
                let sessions = self.input().sessions();
                output::say(&runs::not_there(&sessions, &roll.threads, missing));
                None
            }
        }
    }

    /// Does one choice, or says why it can't be done.
    fn choose(&mut self, [thread, partner]: [u16; 2]) -> bool {
        if self.done.len() == MOST {
            output::say("a list has at most 65,535 choices");
            return false;
        }
        let choice = self.course.choice(thread, partner);
        let waits = self
            .course
            .is_waiting(self.table, &self.words, [thread, partner]);
        let did = match waits {
            true => Ok(self.course.waits(thread)),
            false => self.course.choose(thread, partner),
        };
        match did {
            Ok(did) => {
                output::say(&format!("{choice}: {did}"));
                if waits {
                    self.waited.push(self.done.len());
                }
                self.words.extend([thread, partner]);
                self.done.push(choice);
                true
            }
            Err(refusal) => {
                self.refused(refusal, [thread, partner]);
                false
            }
        }
    }

    /// Says why a choice after those that are done is refused.
    fn refused(&self, refusal: Verdict, choice: [u16; 2]) {
        let number = refusal.number;
        let place = u16::try_from(self.done.len() + 1).unwrap_or(u16::MAX);
        let why = self.course.why(number, choice);
        let below = report::below_choice(Verdict { number, place });
        let mut message = format!("refused {number}: {why}\n  {below}");
        if number == 13 && self.course.called.is_bare() {
            message += &format!("\n  {}", report::UNPLACED);
        }
        output::say(&message);
    }

    fn why_not(&self, choice: Choice) {
        let Some([thread, partner]) = self.numbers(choice) else {
            return;
        };
        match self.course.desk.why_not(thread, partner) {
            Some(refusal) => self.refused(refusal, [thread, partner]),
            None => {
                let choice = [thread, partner];
                let does = self.course.would(self.table, &self.words, choice);
                output::say(&format!("it can be done: {does}"));
            }
        }
    }

    /// Takes the last choice back: goes through all but the last again.
    fn undo(&mut self) {
        let Some(last) = self.done.pop() else {
            output::say("there is no choice to take back");
            return;
        };
        let left = self.done.len();
        self.words.truncate(2 * left);
        self.waited.retain(|&index| index < left);
        if let Ok(course) = Course::start(self.course.called) {
            self.course = course;
            self.course.through(&self.words, &self.waited);
        }
        output::say(&format!("taken back: {last}"));
        self.tell();
    }

    /// The choices done, a line for each.
    fn list(&self) -> String {
        let lines = self.done.iter().map(|choice| format!("{choice}\n"));
        lines.collect()
    }

    fn state(&self) -> String {
        let mut room = [0; RUN_ROOM];
        // It was done choice by choice, so that nothing is refused.
        let _ = seats::run(self.input(), &self.words, self.table, &mut room);
        let seated = seats::after(self.table, self.input(), &self.words);
        runs::told(self.input(), &room, &self.course.roll.threads) + &seated
    }

    /// Writes the choices done so far, over nothing that was read.
    fn save(&self, inputs: &[&Source], path: PathBuf) {
        let name = shown(&path);
        let out = Out {
            path: Some(path),
            force: false,
        };
        if output::spare(inputs, &out).is_err() {
            output::say(&format!("{name} is an input, and isn't overwritten"));
            return;
        }
        match output::deliver_text(self.list().as_bytes(), &out) {
            Err(WrongUse(why)) => output::say(&why),
            Ok(()) => {
                let choices = names::several(self.done.len(), "choice");
                output::say(&format!("{choices} in {name}"));
            }
        }
    }
}

/// The next line that is typed, with a prompt before it; none at the end of the input.
fn next_line(prompts: bool) -> Result<Option<String>, WrongUse> {
    if prompts {
        let mut err = io::stderr().lock();
        let _ = write!(err, "> ").and_then(|()| err.flush());
    }
    let mut line = Vec::new();
    let stdin = io::stdin().lock();
    let read = stdin.take(LONGEST_LIST).read_until(b'\n', &mut line);
    match read {
        Ok(0) if prompts => {
            // The line of the prompt is ended by nobody else.
            output::say("");
            Ok(None)
        }
        Ok(0) => Ok(None),
        Ok(read) if read as u64 == LONGEST_LIST => {
            Err(too_long(&Source::StandardInput.name(), LONGEST_LIST))
        }
        Ok(_) => Ok(Some(String::from_utf8_lossy(&line).into_owned())),
        Err(error) => {
            let why = reason(&error);
            Err(WrongUse(format!("standard input: can't be read: {why}")))
        }
    }
}
