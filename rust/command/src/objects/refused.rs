//! Refusals.

use super::named::lines;
use crate::clinic::Clinic;
use crate::input::Input;
use crate::json::{object, Json};
use crate::listed::Listed;
use crate::refusals;
use crate::report;
use crate::runs;
use pilzdamo::{Counts, Verdict};

/// A refusal with all that there is to say of it.
struct Refused {
    verdict: Verdict,
    counts: Counts,
    sentence: String,
    /// Which input is refused.
    of: &'static str,
    line: Option<usize>,
    column: Option<usize>,
    what: Option<String>,
}

impl From<Refused> for Json {
    fn from(refused: Refused) -> Json {
        let Verdict { number, place } = refused.verdict;
        let who = refusals::of(number).map(|refusal| refusal.who);
        object([
            ("number", number.into()),
            ("place", place.into()),
            ("counts", word(refused.counts).into()),
            ("sentence", refused.sentence.into()),
            ("who", who.into()),
            ("of", refused.of.into()),
            ("line", refused.line.into()),
            ("column", refused.column.into()),
            ("what", refused.what.into()),
        ])
    }
}

fn word(counts: Counts) -> &'static str {
    match counts {
        Counts::Nothing => "nothing",
        Counts::Word => "word",
        Counts::Session => "session",
        Counts::Node => "node",
        Counts::Choice => "choice",
        Counts::Row => "row",
        Counts::Notice => "notice",
    }
}

/// What check or placing refuses, null if that is nothing. The rows of the table of
/// hours, if there is one, come from these lines.
pub fn asked(input: &Input, rows: Option<&[usize]>, verdict: Verdict) -> Json {
    match (verdict.number, rows) {
        (0, _) => Json::Null,
        (22 | 23, Some(rows)) => of_hours(rows, verdict).into(),
        _ => of_file(input, verdict).into(),
    }
}

/// What a run refuses, null if that is nothing.
pub fn in_run(listed: &Listed, verdict: Verdict) -> Json {
    let Listed { input, list, .. } = listed;
    if verdict.is_clean() {
        return Json::Null;
    }
    if let Some(table) = listed.wrong_table(verdict) {
        return apart("seats", verdict, Some(table.wrong(input))).into();
    }
    if verdict.number == 17 {
        return apart("choices", verdict, Some(report::length(&list.words))).into();
    }
    match refusals::is_halt(verdict) {
        true => of_choice(listed, verdict).into(),
        false => of_file(input, verdict).into(),
    }
}

fn of_file(input: &Input, verdict: Verdict) -> Refused {
    let clinic = Clinic::of(input);
    let counts = refusals::counts(verdict.number, verdict.place, false);
    let packed = input.text.as_ref().map(|text| &text.packed);
    let culprit = packed.and_then(|packed| text::why(packed, verdict.number, verdict.place));
    let at = lines(input).and_then(|_| Some(culprit.as_ref()?.at));
    let told = culprit.map(|culprit| culprit.what);
    Refused {
        verdict,
        counts,
        sentence: report::sentence(&clinic, verdict, counts),
        of: "file",
        line: at.map(|at| at.line),
        column: at.map(|at| at.column),
        what: told.or_else(|| report::more(input, verdict, counts, "; ")),
    }
}

fn of_choice(listed: &Listed, verdict: Verdict) -> Refused {
    let list = &listed.list;
    let at = list.place(verdict.place);
    let why = runs::why(listed, verdict);
    Refused {
        counts: Counts::Choice,
        sentence: report::sentence(&Clinic::default(), verdict, Counts::Choice),
        line: at.map(|at| at.line),
        column: at.map(|at| at.column),
        ..apart(
            "choices",
            verdict,
            why.or_else(|| report::choice(&list.words, verdict.place)),
        )
    }
}

fn of_hours(rows: &[usize], verdict: Verdict) -> Refused {
    let row = usize::from(verdict.place).checked_sub(1);
    Refused {
        line: row.and_then(|row| rows.get(row)).copied(),
        ..apart("hours", verdict, None)
    }
}

/// A refusal that has no place in a file.
fn apart(of: &'static str, verdict: Verdict, what: Option<String>) -> Refused {
    let counts = refusals::counts(verdict.number, verdict.place, false);
    Refused {
        verdict,
        counts,
        sentence: report::sentence(&Clinic::default(), verdict, counts),
        of,
        line: None,
        column: None,
        what,
    }
}
