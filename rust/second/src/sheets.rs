//! The group's quarterly sheet.

use crate::answers::Sheet;
use crate::cause::Refusal;

/// The most files that a sheet reads.
pub const MOST_FILES: usize = 1_000;

/// What a file that is placed brings to a sheet.
pub struct Share {
    pub sessions: usize,
    pub on_steps: u16,
    /// The most in one session.
    pub most: u16,
}

/// The files at the start of an input, each after a word with its length in bytes, up
/// to the most that a sheet reads or to the first that isn't there to its end.
pub fn whole_files(input: &[u8]) -> impl Iterator<Item = &[u8]> {
    let mut rest = input;
    let next = move || {
        let (length, after) = rest.split_first_chunk()?;
        let length = usize::from(u16::from_le_bytes(*length));
        let (file, after) = after.split_at_checked(length)?;
        rest = after;
        Some(file)
    };
    std::iter::from_fn(next).take(MOST_FILES)
}

impl Sheet {
    /// Adds a file, by its refusal or its share.
    pub fn add(&mut self, judged: Result<Share, Refusal>) {
        self.files += 1;
        match judged {
            Ok(share) => {
                self.sessions += share.sessions as u32;
                self.on_steps += u32::from(share.on_steps);
                self.most = self.most.max(share.most.into());
            }
            Err(refusal) => self.refused[usize::from(refusal.cause.number()) - 1] += 1,
        }
    }

    /// Divides the on steps among the sessions, where there are some.
    pub fn divide(&mut self) {
        let per_1_000 = 1_000 * self.on_steps;
        self.quotient = per_1_000.checked_div(self.sessions).unwrap_or(0);
        self.remainder = per_1_000.checked_rem(self.sessions).unwrap_or(0);
    }
}
