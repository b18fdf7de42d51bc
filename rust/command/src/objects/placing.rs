//! Checks, placings and measures.

use super::refused;
use crate::asked::Hours;
use crate::input::Input;
use crate::json::{object, Json};
use crate::output::Out;
use crate::source::NamedFile;
use pilzdamo::{Placed, Verdict};
use text::week;

/// What was asked of a file.
pub struct Asked<'a> {
    /// The file as it was named.
    file: String,
    input: &'a Input,
    hours: Option<&'a Hours>,
}

impl<'a> Asked<'a> {
    pub fn of(file: &NamedFile, input: &'a Input, hours: Option<&'a Hours>) -> Asked<'a> {
        Asked {
            file: file.file.typed(),
            input,
            hours,
        }
    }

    /// An object that says the answer of a word, or that it is refused, and with it these
    /// keys.
    fn object<const N: usize>(
        &self,
        answer: &str,
        verdict: Verdict,
        said: [(&str, Json); N],
    ) -> Json {
        let answer = match verdict.is_clean() {
            true => answer,
            false => "refused",
        };
        let at = self.hours.map(|hours| week::clock(hours.minute));
        let rows = self.hours.map(|hours| &hours.table.lines[..]);
        let before = [
            ("file", self.file.as_str().into()),
            ("answer", answer.into()),
            ("at", at.into()),
            ("nothing_planned", self.input.is_empty().into()),
        ];
        let refusal = ("refusal", refused::asked(self.input, rows, verdict));
        object(before.into_iter().chain(said).chain([refusal]))
    }
}

pub fn checked(asked: &Asked, verdict: Verdict) -> Json {
    asked.object("passes", verdict, [])
}

/// What was placed, and where it was written in which form.
pub fn placed(asked: &Asked, told: Placed, out: Option<(&Out, &'static str)>) -> Json {
    let [on_steps, length] = figures(told);
    let (out, form) = out.unzip();
    let out = out.and_then(|out| out.path.as_ref());
    let out = out.map(|path| path.to_string_lossy().to_string());
    let said = [
        ("on_steps", on_steps),
        ("length", length),
        ("out", out.into()),
        ("form", form.into()),
    ];
    asked.object("placed", told.verdict(), said)
}

pub fn measured(asked: &Asked, told: Placed) -> Json {
    let [on_steps, length] = figures(told);
    let said = [("on_steps", on_steps), ("length", length)];
    asked.object("can be placed", told.verdict(), said)
}

/// The on steps and the length of a placed file, null where it is refused.
fn figures(told: Placed) -> [Json; 2] {
    [told.on_steps, told.length].map(|figure| told.is_placed().then_some(figure).into())
}
