//! What is answered.

use crate::cause::Refusal;
use crate::running::{LINE_WORDS, ROLES, ROUND_WORDS, TOTALS};

/// A refusal's number and place; 0 and 0 where nothing is refused.
#[derive(Clone, Copy, Debug, PartialEq, Eq)]
pub struct Verdict {
    pub number: u16,
    pub place: u16,
}

impl Verdict {
    /// The verdict on a file that is not refused.
    pub const CLEAN: Verdict = Verdict {
        number: 0,
        place: 0,
    };

    pub(crate) fn of<T>(judged: Result<T, Refusal>) -> Verdict {
        match judged {
            Ok(_) => Verdict::CLEAN,
            Err(refusal) => refusal.verdict(),
        }
    }
}

/// What placing answers. Refused, it has a length and on steps of 0; placed,
/// a number and place of 0.
#[derive(Clone, Copy, Debug, PartialEq, Eq)]
pub struct Placed {
    pub number: u16,
    pub place: u16,
    pub length: u16,
    pub on_steps: u16,
}

impl Placed {
    /// The answer where nothing is placed.
    pub const fn refused(number: u16, place: u16) -> Placed {
        Placed {
            number,
            place,
            length: 0,
            on_steps: 0,
        }
    }

    /// The answer where this many bytes are written, with so many on steps.
    pub const fn written(length: u16, on_steps: u16) -> Placed {
        Placed {
            number: 0,
            place: 0,
            length,
            on_steps,
        }
    }
}

/// What is ready after a list of choices. Refused, it has a sender and
/// receiver of 0; where no pair can meet, all four are 0.
#[derive(Clone, Copy, Debug, PartialEq, Eq)]
pub struct Ready {
    pub number: u16,
    pub place: u16,
    pub sender: u16,
    pub receiver: u16,
}

impl Ready {
    /// The answer where the list, or the file, is refused.
    pub const fn refused(number: u16, place: u16) -> Ready {
        Ready {
            number,
            place,
            sender: 0,
            receiver: 0,
        }
    }

    /// The answer where these two can meet; 0 and 0 for none.
    pub const fn pair(sender: u16, receiver: u16) -> Ready {
        Ready {
            number: 0,
            place: 0,
            sender,
            receiver,
        }
    }
}

/// What a round after a list of choices answers: a number and place of 0, how
/// many bytes are written, and the round's choices, two words each, 0 past the
/// last. Refused before the first choice, it has a length of 0; where the list
/// stops, that of the state before. Either way there are no choices.
#[derive(Clone, Copy, Debug, PartialEq, Eq)]
pub struct Round {
    pub number: u16,
    pub place: u16,
    pub length: u16,
    pub words: [u16; ROUND_WORDS],
}

impl Round {
    /// The answer where there is no round, and so many bytes are written.
    pub const fn refused(number: u16, place: u16, length: u16) -> Round {
        Round {
            number,
            place,
            length,
            words: [0; ROUND_WORDS],
        }
    }

    /// The answer where this many bytes are written after these choices.
    pub const fn done(length: u16, words: [u16; ROUND_WORDS]) -> Round {
        Round {
            number: 0,
            place: 0,
            length,
            words,
        }
    }
}

/// Who is waiting after a list of choices: for each kind from 1 on how many threads
/// stand at a receive whose channel has that kind, also where the list stops. Refused
/// before the first choice, it has totals of 0.
#[derive(Clone, Copy, Debug, PartialEq, Eq)]
pub struct Totals {
    pub number: u16,
    pub place: u16,
    pub totals: [u16; TOTALS],
}

impl Totals {
    /// The answer where the run stands in a state with these totals.
    pub const fn of(verdict: Verdict, totals: [u16; TOTALS]) -> Totals {
        Totals {
            number: verdict.number,
            place: verdict.place,
            totals,
        }
    }
}

/// A refusal as a sentence says it: its number, what its place counts (0 nothing, 1
/// words, 2 sessions, 3 nodes, 4 choices, 5 rows, 6 notices), the place, and the node's
/// tag, 9 where none belongs. All are 0 for bytes that are no sentence.
#[derive(Clone, Copy, Debug, PartialEq, Eq, PartialOrd, Ord)]
pub struct Reason {
    pub number: u16,
    pub counts: u16,
    pub place: u16,
    pub tag: u16,
}

impl Reason {
    /// The answer to bytes that are no sentence.
    pub const NONE: Reason = Reason {
        number: 0,
        counts: 0,
        place: 0,
        tag: 0,
    };
}

/// What merging answers. Refused, it has a length of 0; written, a number and place of
/// 0. It is also what a run with seats answers, which has a length where it halts too.
#[derive(Clone, Copy, Debug, PartialEq, Eq)]
pub struct Written {
    pub number: u16,
    pub place: u16,
    pub length: u16,
}

impl Written {
    /// The answer where nothing is written.
    pub const fn refused(number: u16, place: u16) -> Written {
        Written {
            number,
            place,
            length: 0,
        }
    }

    /// The answer where this many bytes are written.
    pub const fn bytes(length: u16) -> Written {
        Written {
            number: 0,
            place: 0,
            length,
        }
    }
}

/// What is read of the seats after a list of choices, also where the list stops: how
/// many choices were answered 26, what the last one done was answered (26 or 0), for
/// each role from 1 on how many sessions have it active and how many wait for it, the
/// line of role r from word 32 × (r − 1) on, 0 past those who wait, and how many threads
/// wait on each kind. Refused before the first choice, all but number and place are 0.
#[derive(Clone, Copy, Debug, PartialEq, Eq)]
pub struct Seats {
    pub number: u16,
    pub place: u16,
    pub waited: u16,
    pub last: u16,
    pub taken: [u16; ROLES],
    pub waiting: [u16; ROLES],
    pub line: [u16; LINE_WORDS],
    pub totals: [u16; TOTALS],
}

impl Seats {
    /// The answer where there is no state.
    pub const fn refused(number: u16, place: u16) -> Seats {
        Seats {
            number,
            place,
            waited: 0,
            last: 0,
            taken: [0; ROLES],
            waiting: [0; ROLES],
            line: [0; LINE_WORDS],
            totals: [0; TOTALS],
        }
    }
}

/// What is said of a certificate. `row` is the number from 1 on of the row at fault, with
/// 18, and else 0.
#[derive(Clone, Copy, Debug, PartialEq, Eq)]
pub struct Closing {
    pub number: u16,
    pub place: u16,
    pub row: u32,
}

impl Closing {
    /// The answer where the certificate holds.
    pub const CLEAN: Closing = Closing::refused(0, 0);

    /// The answer where there is no row to blame.
    pub const fn refused(number: u16, place: u16) -> Closing {
        Closing {
            number,
            place,
            row: 0,
        }
    }

    /// The answer where this row, from 1 on, is at fault.
    pub const fn at(row: u32) -> Closing {
        Closing {
            number: 18,
            place: 0,
            row,
        }
    }
}

/// What is offered in a state: how many choices there are that aren't refused, and how many
/// words they have together. With 17 for want of room these are the ones written; with
/// another refusal both are 0.
#[derive(Clone, Copy, Debug, PartialEq, Eq)]
pub struct Offers {
    pub number: u16,
    pub place: u16,
    pub count: u16,
    pub length: u32,
}

impl Offers {
    /// The answer where nothing is written.
    pub const fn refused(number: u16, place: u16) -> Offers {
        Offers {
            number,
            place,
            count: 0,
            length: 0,
        }
    }
}

/// Which of two notices is in force: 1 or 2, and where its file stands in it, in bytes.
/// Refused, it is the first notice's empty part at 0.
#[derive(Clone, Copy, Debug, PartialEq, Eq)]
pub struct InForce {
    pub number: u16,
    pub place: u16,
    pub notice: u16,
    pub at: u16,
    pub length: u16,
}

impl InForce {
    /// The answer where there is none.
    pub const fn refused(number: u16, place: u16) -> InForce {
        InForce {
            number,
            place,
            notice: 1,
            at: 0,
            length: 0,
        }
    }

    /// The answer where it is this notice's file.
    pub const fn part(notice: u16, at: u16, length: u16) -> InForce {
        InForce {
            number: 0,
            place: 0,
            notice,
            at,
            length,
        }
    }
}

/// The numbers that a refusal can have.
pub const NUMBERS: usize = 28;

/// What a group reads of its files: how many there are, how many are refused at each
/// number from 1 on, and of the others the sessions, the on steps, the most on steps
/// in one session, and the on steps per 1,000 sessions as quotient and remainder.
#[derive(Clone, Copy, Debug, Default, PartialEq, Eq)]
pub struct Sheet {
    pub files: u32,
    pub refused: [u32; NUMBERS],
    pub sessions: u32,
    pub on_steps: u32,
    pub most: u32,
    pub quotient: u32,
    pub remainder: u32,
}
