//! Nodes by column, and by row again.

use crate::clinic::Clinic;
use crate::input::Input;
use pilzdamo::{Verdict, Written};

/// Which way a file is turned.
#[derive(Clone, Copy)]
pub enum Turn {
    ToColumns,
    ToRows,
}

impl Turn {
    /// Asks the engine.
    pub fn call(self, file: &[u8], out: &mut [u8]) -> Written {
        match self {
            Turn::ToColumns => pilzdamo::to_columns(file, out),
            Turn::ToRows => pilzdamo::to_rows(file, out),
        }
    }

    /// What has become of the nodes.
    pub fn done(self) -> &'static str {
        match self {
            Turn::ToColumns => "nodes by column",
            Turn::ToRows => "nodes by row",
        }
    }

    /// What is said of a version that is read and not turned.
    fn other(self, version: u16) -> Option<&'static str> {
        match (self, version) {
            (Turn::ToColumns, 3) => Some("this file has its nodes by column already"),
            (Turn::ToRows, 1 | 2) => Some("this file has its nodes by row already"),
            (Turn::ToColumns, 1) => {
                Some("this file has version 1, and only files of version 2 are turned to columns")
            }
            _ => None,
        }
    }
}

/// The message for a file that isn't turned.
pub fn refused(turn: Turn, input: &Input, verdict: Verdict) -> String {
    let message = input.refused(verdict);
    let more = match verdict.number {
        2 => turn.other(Clinic::of(input).version()),
        _ => None,
    };
    match more {
        Some(more) => format!("{message}\n  {more}"),
        None => message,
    }
}
