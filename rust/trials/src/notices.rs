//! The plan in force by both implementations: compared, judged and counted.

mod deal;
mod tally;

pub use deal::{deal_notices, typical_notices, Notices};
pub use tally::NoticeTally;

use crate::answers::engine_read;
use second::draft::word_at;
use second::InForce;
use std::fmt::Display;

/// The engine's answer, in the second implementation's form, and the part.
pub fn engine_in_force<'a>(first: &'a [u8], second: &'a [u8], day: u16) -> (InForce, &'a [u8]) {
    let (told, part) = pilzdamo::in_force(first, second, day);
    let told = InForce {
        number: told.number,
        place: told.place,
        notice: told.notice,
        at: told.at,
        length: told.length,
    };
    (told, part)
}

/// What both answer. Panics if they differ, if the answer is wrong, or if the part isn't
/// a notice's own memory.
pub fn agreed_in_force(notices: &Notices, origin: impl Display) -> InForce {
    let Notices { first, second, day } = notices;
    let (told, part) = engine_in_force(first, second, *day);
    let other = second::in_force(first, second, *day);
    let fail = |fault: &str| {
        panic!(
            "{fault} at {origin}: engine {told:?}, second {other:?}, {}",
            notices.told()
        )
    };
    if told != other {
        fail("the answer differs");
    }
    if let Err(fault) = judge(notices, told, part) {
        fail(fault);
    }
    told
}

/// Whether a notice is sound, by the engine's judgement of its file.
fn is_sound(notice: &[u8]) -> bool {
    notice.len() >= 4
        && usize::from(word_at(notice, 1)) == notice.len() - 4
        && engine_read(&notice[4..]) == (0, 0)
}

/// Judges an answer by what is asked of it.
fn judge(notices: &Notices, told: InForce, part: &[u8]) -> Result<(), &'static str> {
    let Notices { first, second, day } = notices;
    let verdict = (told.number, told.place);
    let held = (told.notice, told.at, told.length);
    if told.number != 0 && (held != (1, 0, 0) || !std::ptr::eq(part, &first[..0])) {
        return Err("a refusal without the first notice's empty part");
    }
    match (is_sound(first), is_sound(second)) {
        (false, _) if verdict == (27, 1) => return Ok(()),
        (true, false) if verdict == (27, 2) => return Ok(()),
        (true, true) => {}
        _ => return Err("27"),
    }
    let begins = [first, second].map(|notice| word_at(notice, 0));
    let begun = begins.iter().filter(|begins| *begins <= day);
    let Some(last) = begun.max() else {
        return match verdict {
            (28, 0) => Ok(()),
            _ => Err("28"),
        };
    };
    let (number, notice) = if begins[1] == *last {
        (2, second)
    } else {
        (1, first)
    };
    if verdict != (0, 0) || told.notice != number {
        return Err("not the notice that supersedes");
    }
    if !std::ptr::eq(part, &notice[4..]) || (told.at, part.len()) != (4, told.length.into()) {
        return Err("not the file of the notice itself");
    }
    Ok(())
}

/// Deals `pairs` pairs of notices to both and panics at the first difference.
pub fn compare_notices(seed: u64, pairs: u64) -> NoticeTally {
    let mut tally = NoticeTally::default();
    for index in 0..pairs {
        let notices = deal_notices(seed, index);
        let origin = format_args!("trials::deal_notices({seed}, {index})");
        let told = agreed_in_force(&notices, origin);
        tally.count(&notices, told);
    }
    tally
}
