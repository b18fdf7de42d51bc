//! A clinic's file, which may come as text.

use crate::clinic::{Clinic, SESSIONS};
use crate::length::{Bytes, Length};
use crate::output;
use crate::reading::{Start, LONGEST_TEXT};
use crate::refusals;
use crate::report;
use crate::source::{too_long, Source};
use crate::WrongUse;
use pilzdamo::{Counts, Verdict};
use std::cell::OnceCell;
use std::ops::Deref;
use text::{At, Flaw, Lent, Packed, Records, MOST_FLAWS};

/// A file's bytes, and the text that says them, if it came as one.
pub struct Input {
    pub name: String,
    bytes: Start,
    pub text: Option<Text>,
}

/// A text that was understood, or the canonical one of bytes whose names are known.
pub struct Text {
    pub text: String,
    pub packed: Packed,
    /// Whether the file came as this text, so that its lines mean something.
    pub has_lines: bool,
    /// The mark of the byte order, if it stood before the text.
    mark: &'static str,
    /// The step of each node as it is written, once that is asked for.
    steps: OnceCell<Vec<String>>,
}

/// A mark of the byte order.
pub const MARK: &str = "\u{feff}";

impl Text {
    /// The names of the sessions.
    pub fn sessions(&self) -> Vec<String> {
        let sessions = self.packed.names.sessions.iter();
        sessions.map(|session| session.name.clone()).collect()
    }

    /// A text made of this one, with the mark that stood before it.
    pub fn marked(&self, made: &str) -> Vec<u8> {
        [self.mark, made].concat().into_bytes()
    }

    /// The step of the node of this number, as it is written.
    pub fn step(&self, node: usize) -> Option<&str> {
        let steps = self.steps.get_or_init(|| self.written_steps());
        steps.get(node.checked_sub(1)?).map(String::as_str)
    }

    /// The step of each node; the lines are gone through once.
    fn written_steps(&self) -> Vec<String> {
        let mut lines = (1..).zip(self.text.split('\n'));
        let nodes = self.packed.source.nodes.iter();
        nodes
            .map(|place| match place.behind {
                true => "end".to_string(),
                false => {
                    let line = lines.find(|(number, _)| *number == place.at.line);
                    line.map_or(String::new(), |(_, line)| words_at(line, place.at))
                }
            })
            .collect()
    }
}

impl Deref for Input {
    type Target = [u8];

    fn deref(&self) -> &[u8] {
        &self.bytes
    }
}

impl Bytes for Input {
    fn start(&self) -> &[u8] {
        &self.bytes
    }

    fn length(&self) -> Length {
        self.bytes.length()
    }
}

impl Input {
    /// A text is recognized by its first word.
    pub fn of(name: String, bytes: Start) -> Result<Input, WrongUse> {
        match text::is_text(&bytes) {
            true if !bytes.is_whole() => Err(too_long(&name, LONGEST_TEXT)),
            true => Input::of_text(name, &bytes),
            false => Ok(Input::of_bytes(name, bytes)),
        }
    }

    /// What is to be bytes.
    pub fn of_bytes(name: String, bytes: Start) -> Input {
        Input {
            name,
            bytes,
            text: None,
        }
    }

    /// What is to be a text.
    pub fn of_text(name: String, bytes: &[u8]) -> Result<Input, WrongUse> {
        let text =
            text::decoded(bytes).map_err(|_| flawed(&name, bytes, &text::undecoded(bytes)))?;
        let packed = text::pack(text).map_err(|flaws| flawed(&name, text, &flaws))?;
        Ok(Input {
            name,
            bytes: Start::whole(packed.bytes()),
            text: Some(Text {
                text: text.to_string(),
                packed,
                has_lines: true,
                mark: match bytes.starts_with(MARK.as_bytes()) {
                    true => MARK,
                    false => "",
                },
                steps: OnceCell::new(),
            }),
        })
    }

    /// Bytes with names for their records, which stand beside them. What 1 to 6, 8 and 9
    /// refuse has no text and stays in numbers.
    pub fn with_names(mut self, names: &Source) -> Result<Input, WrongUse> {
        if self.text.is_some() {
            let (file, from) = (&self.name, names.name());
            let why = "--names is for bytes";
            return Err(WrongUse(format!(
                "{from}: {file} is a text and has names of its own; {why}"
            )));
        }
        let text = self.named_text(&names.name(), &read_names(names)?)?;
        let packed = text.as_deref().and_then(|text| text::pack(text).ok());
        self.text = text.zip(packed).map(|(text, packed)| Text {
            text,
            packed,
            has_lines: false,
            mark: "",
            steps: OnceCell::new(),
        });
        Ok(self)
    }

    /// The canonical text with these names; none where the file has no text.
    pub fn named_text(&self, from: &str, lent: &Lent) -> Result<Option<String>, WrongUse> {
        let name = &self.name;
        let unfit = |what: String, why: &str| {
            Err(WrongUse(format!(
                "{from}: these names don't fit {name}: {what}\n  {why}"
            )))
        };
        if let Some(what) = text::misfit(self, &lent.names) {
            let why = "there is one for each kind, role, user, channel, session and variable, in the file's order";
            return unfit(what, why);
        }
        let text = text::unpack_named(self, &lent.names);
        let records = Records::of(self).filter(|_| text.is_some());
        match records.and_then(|records| lent.other(&records)) {
            Some(what) => unfit(what, OTHER),
            None => Ok(text),
        }
    }

    /// The text that the file came as.
    pub fn source_text(&self) -> Option<&Text> {
        self.text.as_ref().filter(|text| text.has_lines)
    }

    /// The message for a refused file, by check or placing. In a text it is at its
    /// line, with who or what is to blame.
    pub fn refused(&self, verdict: Verdict) -> String {
        match self.culprit(verdict) {
            Some(told) => format!("{told}\n  {}", report::below(self, verdict)),
            None => match self.blamed(verdict) {
                Some(more) => report::of_place(&self.name, self, verdict, more),
                None => report::of_file(&self.name, self, verdict) + self.hint(verdict),
            },
        }
    }

    /// What there is to say of a refusal of bytes in their names: the record or step, and
    /// who or what is to blame.
    fn blamed(&self, verdict: Verdict) -> Option<String> {
        let Verdict { number, place } = verdict;
        let Text { text, packed, .. } = self.text.as_ref()?;
        let culprit = text::why(packed, number, place)?;
        let line = text.split('\n').nth(culprit.at.line.checked_sub(1)?)?;
        let node = match refusals::counts(number, place, false) {
            Counts::Node => format!("node {place}: "),
            _ => String::new(),
        };
        Some(format!("{node}{}\n  {}", line.trim(), culprit.what))
    }

    /// Said of bytes that nobody would write but as a text.
    fn hint(&self, verdict: Verdict) -> &'static str {
        let written = |c: char| !c.is_control() || c.is_ascii_whitespace();
        let text = std::str::from_utf8(self).is_ok_and(|text| text.chars().all(written));
        match text && verdict.number <= 5 {
            true => "\n  if it is meant as a text: its first line is 'clinic 1'",
            false => "",
        }
    }

    /// The names of the sessions; of bytes those that `unpack` invents.
    pub fn sessions(&self) -> Vec<String> {
        match &self.text {
            Some(text) => text.sessions(),
            None => {
                let count = Clinic::of(self).count(SESSIONS);
                (1..=count).map(|number| format!("s{number}")).collect()
            }
        }
    }

    /// A kind's name; of bytes its number.
    pub fn kind(&self, number: u16) -> String {
        self.named(number, |text| text.packed.names.kinds.clone())
    }

    /// A role's name; of bytes its number.
    pub fn role(&self, number: u16) -> String {
        self.named(number, |text| text.packed.names.roles.clone())
    }

    /// A session's name; of bytes its number.
    pub fn session(&self, number: u16) -> String {
        self.named(number, Text::sessions)
    }

    fn named(&self, number: u16, names: impl Fn(&Text) -> Vec<String>) -> String {
        let index = usize::from(number).checked_sub(1);
        let names = self.text.as_ref().map(names);
        let name = index
            .zip(names)
            .and_then(|(index, names)| names.into_iter().nth(index));
        name.unwrap_or_else(|| number.to_string())
    }

    /// The place of a refusal in the text.
    fn culprit(&self, verdict: Verdict) -> Option<String> {
        let Verdict { number, place } = verdict;
        let Text { packed, .. } = self.source_text()?;
        let culprit = text::why(packed, number, place)?;
        let what = format!("refused {number}: {}", culprit.what);
        Some(self.told(culprit.at, &what))
    }

    /// A message about a place in the text.
    pub fn told(&self, at: At, what: &str) -> String {
        let text = self.text.as_ref().map_or("", |text| &text.text);
        text::told(&self.name, text, at, what)
    }
}

/// The words that stand at a place of this line, with one space for any white space.
fn words_at(line: &str, at: At) -> String {
    let words: String = line.chars().skip(at.column - 1).take(at.width).collect();
    words.split_whitespace().collect::<Vec<_>>().join(" ")
}

/// Said of names whose sum isn't the file's.
const OTHER: &str =
    "they name other records or steps than the file has, or the same in another order; \
    give the names or the text that the file was packed from";

/// Names from a file of their own, or from a text.
pub fn read_names(source: &Source) -> Result<Lent, WrongUse> {
    let (name, bytes) = (source.name(), source.read()?);
    if text::is_text(&bytes) {
        let input = Input::of_text(name, &bytes)?;
        return Ok(input
            .text
            .map_or(Lent::default(), |text| Lent::of(&text.packed)));
    }
    let text = decoded(&name, &bytes)?;
    Lent::read(text).map_err(|flaws| flawed(&name, text, &flaws))
}

/// The characters of a text.
pub fn decoded<'a>(name: &str, bytes: &'a [u8]) -> Result<&'a str, WrongUse> {
    text::decoded(bytes).map_err(|flaw| flawed(name, bytes, &[flaw]))
}

/// How many errors are reported at once.
const TOLD: usize = 20;

/// Reports the errors in a text.
pub fn flawed(name: &str, text: impl AsRef<[u8]>, flaws: &[Flaw]) -> WrongUse {
    for told in text::told_first(name, &text, flaws, TOLD) {
        output::say(&told);
    }
    let errors = crate::names::several(flaws.len(), "error");
    let more = match flaws.len().checked_sub(TOLD) {
        Some(_) if flaws.len() == MOST_FLAWS => " or more".to_string(),
        Some(more @ 1..) => format!(" ({more} more)"),
        _ => String::new(),
    };
    WrongUse(format!("{name}: {errors}{more}"))
}
