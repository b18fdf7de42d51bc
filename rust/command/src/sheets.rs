//! The group's sheet, to be read and for programs.

use crate::json::object;
use crate::names::several;
use pilzdamo::Sheet;

/// The numbers at which files are refused, and how many are.
fn refused(sheet: &Sheet) -> impl Iterator<Item = (u16, u32)> + '_ {
    let by_number = (1..).zip(sheet.refused);
    by_number.filter(|(_, count)| *count > 0)
}

/// A line for each figure.
pub fn text(sheet: &Sheet) -> String {
    let refusals = refused(sheet).map(|(number, count)| {
        let files = several(count as usize, "file");
        let meaning = pilzdamo::meaning(number).unwrap_or_default();
        let why = meaning.split_once(": ").map_or("", |(_, why)| why);
        format!("refused with {number}: {files} ({why})\n")
    });
    format!(
        "files: {}\n\
         {}\
         placed: {}\n\
         sessions placed: {}\n\
         on steps: {}\n\
         most on steps in one session: {}\n\
         on steps per 1,000 sessions: {}, remainder {}\n",
        sheet.files,
        refusals.collect::<String>(),
        sheet.placed(),
        sheet.sessions,
        sheet.on_steps,
        sheet.most,
        sheet.quotient,
        sheet.remainder
    )
}

/// One line of JSON; numbers at which no file is refused are left out.
pub fn json(sheet: &Sheet) -> String {
    let refused = refused(sheet).map(|(number, count)| (number, count.into()));
    let object = object([
        ("files", sheet.files.into()),
        ("refused", object(refused)),
        ("sessions", sheet.sessions.into()),
        ("on_steps", sheet.on_steps.into()),
        ("most", sheet.most.into()),
        ("quotient", sheet.quotient.into()),
        ("remainder", sheet.remainder.into()),
    ]);
    format!("{object}\n")
}
