//! The plan in force: refusals 27 and 28.

use crate::answers::InForce;
use crate::cause::{Cause, Refusal};
use crate::draft::word_at;

/// The bytes of a notice before its file: the first day of validity, and the file's
/// length.
const BEFORE_FILE: usize = 4;

/// A notice that 27 leaves clean.
pub struct Notice<'a> {
    /// In days since 1 January 2000.
    first_day: u16,
    file: &'a [u8],
}

impl<'a> Notice<'a> {
    /// Judges 27, where `refused` says why a file is refused by 1 to 10.
    pub fn of(
        notice: &'a [u8],
        refused: impl Fn(&[u8]) -> Option<Refusal>,
    ) -> Result<Notice<'a>, Cause> {
        if notice.len() < BEFORE_FILE {
            return Err(Cause::NoticeShort);
        }
        let (head, file) = notice.split_at(BEFORE_FILE);
        if usize::from(word_at(head, 1)) != file.len() {
            return Err(Cause::NoticeLength);
        }
        match refused(file) {
            Some(refusal) => Err(Cause::NoticeFile(refusal.cause.number())),
            None => Ok(Notice {
                first_day: word_at(head, 0),
                file,
            }),
        }
    }

    fn has_begun(&self, day: u16) -> bool {
        self.first_day <= day
    }
}

/// The notice of the two that supersedes on this day, and its number; or 28.
pub fn superseding<'a>(
    [first, second]: [Notice<'a>; 2],
    day: u16,
) -> Result<(u16, Notice<'a>), Refusal> {
    match (first.has_begun(day), second.has_begun(day)) {
        (true, true) if first.first_day > second.first_day => Ok((1, first)),
        (_, true) => Ok((2, second)),
        (true, false) => Ok((1, first)),
        (false, false) => Err(Refusal {
            cause: Cause::NotBegun,
            place: 0,
        }),
    }
}

/// The answer where this notice is in force.
pub fn answer((number, notice): (u16, Notice)) -> InForce {
    InForce::part(number, BEFORE_FILE as u16, notice.file.len() as u16)
}
