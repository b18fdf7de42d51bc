//! Notices: made from a file, and compared.

use crate::clinic::Clinic;
use crate::days::date;
use crate::faults;
use crate::length::{Bytes, Length};
use crate::names::several;
use crate::reading::Start;
use crate::refusals;
use crate::report;
use pilzdamo::{InForce, Verdict};

/// The two notices, with their names.
pub type Notices<'a> = [(String, &'a Start); 2];

/// A notice of a file that 1 to 10 leave clean: its first day, its length, its bytes.
pub fn notice(first_day: u16, file: &[u8]) -> Vec<u8> {
    let length = file.len() as u16;
    [&first_day.to_le_bytes()[..], &length.to_le_bytes(), file].concat()
}

/// What is answered: which notice is in force, and since when.
pub fn told(notices: &Notices, day: u16, told: InForce) -> String {
    let number = told.notice;
    let (name, bytes) = &notices[usize::from(number == 2)];
    let since = words(bytes).map_or(String::new(), |[since, _]| {
        format!(" since {}", date(since))
    });
    let (day, length) = (date(day), several(told.length.into(), "byte"));
    format!("{name}: notice {number} is in force on {day},{since}, a file of {length}")
}

/// The message for notices that are refused.
pub fn refused(notices: &Notices, verdict: Verdict) -> String {
    let place = usize::from(verdict.place).checked_sub(1);
    match place.and_then(|place| notices.get(place)) {
        Some((name, bytes)) => report::of_notices(name, verdict, unsound(bytes)),
        None => {
            let names = notices.each_ref().map(|(name, _)| name.as_str());
            let begins = |(at, (_, bytes)): (usize, &(String, &Start))| {
                let [first_day, _] = words(bytes)?;
                Some(format!("notice {at} begins on {}", date(first_day)))
            };
            let lines: Vec<String> = (1..).zip(notices).filter_map(begins).collect();
            report::of_notices(&names.join(", "), verdict, lines.join("\n  "))
        }
    }
}

/// Why a notice is refused.
fn unsound(notice: &Start) -> String {
    let Some([_, length]) = words(notice) else {
        let bytes = notice.length();
        return format!("it has {bytes}, and its first day and length alone have 4");
    };
    let file = &notice[4..];
    let behind = match notice.length() {
        Length::Exactly(bytes) => (bytes - 4).to_string(),
        Length::MoreThan(bytes) => format!("more than {}", bytes - 4),
    };
    if length.to_string() != behind {
        return format!(
            "its length word is {length}, and the number of bytes after it is {behind}"
        );
    }
    let verdict = pilzdamo::read(file);
    let sentence = report::sentence_of(&Clinic::of(file), verdict);
    let counts = refusals::counts(verdict.number, verdict.place, false);
    let mut lines = vec![format!("its file: {sentence}")];
    lines.extend(faults::lines(file, verdict, counts));
    lines.join("\n  ")
}

/// The first day and the length, if both are there.
fn words(notice: &[u8]) -> Option<[u16; 2]> {
    let &[day_low, day_high, low, high] = notice.first_chunk()?;
    Some([[day_low, day_high], [low, high]].map(u16::from_le_bytes))
}
