//! Named cases with the answers that the paper gives them, for both
//! implementations.

mod checking;
mod columns;
mod hours;
mod juniors;
mod merging;
mod nothing;
mod notices;
mod placing;
mod reading;
mod reasons;
mod running;
mod sheets;

pub use columns::{turn_cases, Turn, TurnCase, BY_COLUMN};
pub use hours::{CheckAtCase, PlaceAtCase};
pub use merging::{merge_cases, DueOfBoth, MergeCase};
pub use nothing::NOTHING;
pub use notices::{notice, notice_cases, NoticeCase};
pub use placing::{Due, PlaceCase};
pub use reasons::{cases as reason_cases, ReasonCase, NO_SENTENCES};
pub use running::{booking, choose_cases, placed_booking, round_cases, start_cases};
pub use running::{closing_cases, closing_part_cases, offers_cases};
pub use running::{seat_cases, seated_round_cases, SeatCase, SeatedRoundCase};
pub use running::{totals_cases, ChooseCase, Lent, RoundCase, RunCase, StartCase, TotalsCase};
pub use running::{ClosingCase, ClosingPartCase, OffersCase};
pub use sheets::{records, sheet_cases, SheetCase};

use crate::draft::Draft;

/// A file, and its refusal (number, place) by [`crate::check`].
pub struct Case {
    pub name: &'static str,
    pub file: Vec<u8>,
    pub answer: (u16, u16),
}

impl Case {
    /// The answer of a judge who has these numbers only.
    pub fn by(&self, has: impl Fn(u16) -> bool) -> (u16, u16) {
        if has(self.answer.0) {
            self.answer
        } else {
            CLEAN
        }
    }
}

const END: [u16; 3] = [0, 0, 0];
const CLEAN: (u16, u16) = (0, 0);

/// The booking of the paper, word by word.
pub const BOOKING: [u16; 41] = [
    1, 2, 2, 2, 2, 1, 3, 13, 15, 23, 25, 29, 32, 3, 0, 1, 0, 0, 0, 3, 0, 0, 0, 0, 0, 2, 1, 2, 2, 1,
    0, 1, 6, 257, 2, 6, 258, 2, 0, 0, 0,
];

/// Role 1 sends and receives on kind 1, role 2 on kind 2. Kind 1 is carried by
/// kind 2. User 1 has both roles and channels 1 (kind 1) and 2 (kind 2), user 2 has
/// no role and channel 3 (kind 1).
fn clinic(nodes: &[[u16; 3]]) -> Draft {
    Draft {
        users: vec![[3], [0]],
        roles: vec![[1, 0, 1, 0], [2, 0, 2, 0]],
        kinds: vec![[0], [1]],
        channels: vec![[1, 1], [1, 2], [2, 1]],
        sessions: vec![[1, 0, 1]],
        nodes: nodes.to_vec(),
        ..Draft::default()
    }
}

fn case(name: &'static str, file: Vec<u8>, answer: (u16, u16)) -> Case {
    Case { name, file, answer }
}

/// A tree in the clinic.
fn checked(name: &'static str, nodes: &[[u16; 3]], answer: (u16, u16)) -> Case {
    case(name, clinic(nodes).bytes(), answer)
}

/// All of them.
pub fn cases() -> Vec<Case> {
    [
        reading::head(),
        reading::records(),
        reading::trees(),
        checking::names(),
        checking::roles(),
        juniors::heads(),
        juniors::records(),
        juniors::roles(),
        nothing::checks(),
        columns::checks(),
    ]
    .into_iter()
    .flatten()
    .collect()
}

/// All of placing.
pub fn place_cases() -> Vec<PlaceCase> {
    [
        placing::starred(),
        placing::chains(),
        placing::forks(),
        placing::refusals(),
        placing::sizes(),
        juniors::placing(),
        juniors::rooms(),
        nothing::placings(),
        columns::placings(),
    ]
    .into_iter()
    .flatten()
    .collect()
}

/// All of the check at a minute.
pub fn check_at_cases() -> Vec<CheckAtCase> {
    [
        hours::open(),
        hours::roles(),
        hours::tables(),
        nothing::checks_at(),
    ]
    .into_iter()
    .flatten()
    .collect()
}

/// All of placing at a minute.
pub fn place_at_cases() -> Vec<PlaceAtCase> {
    let of_hours = hours::placing().into_iter();
    of_hours.chain(nothing::placings_at()).collect()
}

/// All of runs.
pub fn run_cases() -> Vec<RunCase> {
    running::cases()
}
