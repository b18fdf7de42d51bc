//! Roles with opening hours: refusals 22 and 23, and which roles are open.

use crate::cause::{Cause, Refusal};
use crate::file::{numbered, File};

/// Words of a row: the role, the first minute, the end minute.
const ROW: usize = 3;

const MOST_ROWS: usize = 64;

/// The minutes of a week, from Monday 00:00 on.
const WEEK: u16 = 7 * 24 * 60;

/// The mask of all roles, which are open without hours.
pub const ALWAYS: u16 = u16::MAX;

/// A table of hours and a minute of the week, which 22 leaves clean.
pub struct Hours<'h> {
    rows: &'h [[u16; ROW]],
    minute: u16,
}

impl<'h> Hours<'h> {
    /// Judges 22.
    pub fn of(table: &'h [u16], minute: u16) -> Result<Hours<'h>, Refusal> {
        let refuse = |cause| Err(Refusal { cause, place: 0 });
        if minute >= WEEK {
            return refuse(Cause::MinuteAbove);
        }
        let (rows, rest) = table.as_chunks();
        if !rest.is_empty() {
            return refuse(Cause::PartOfRow);
        }
        if rows.len() > MOST_ROWS {
            return refuse(Cause::TooManyRows);
        }
        Ok(Hours { rows, minute })
    }

    /// Judges 23 on a file that 1 to 8 leave clean. Gives the mask of the roles
    /// that are open: those with a row that is, and those without rows.
    pub fn open(&self, file: &File) -> Result<u16, Refusal> {
        let (mut with_rows, mut open) = (0, 0);
        for (place, &[role, first, end]) in numbered(self.rows) {
            judge_row(file, role, first, end).map_err(|cause| Refusal { cause, place })?;
            let bit = 1 << (role - 1);
            with_rows |= bit;
            if first <= self.minute && self.minute < end {
                open |= bit;
            }
        }
        Ok(open | !with_rows)
    }
}

fn judge_row(file: &File, role: u16, first: u16, end: u16) -> Result<(), Cause> {
    if role == 0 {
        return Err(Cause::RowRoleZero);
    }
    if usize::from(role) > file.roles.len() {
        return Err(Cause::RowRoleAbove);
    }
    if first >= end {
        return Err(Cause::RowFirstNotBelow);
    }
    if end > WEEK {
        return Err(Cause::RowEndAbove);
    }
    Ok(())
}
