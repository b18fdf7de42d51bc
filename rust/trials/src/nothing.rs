//! Zero bytes, and files that hold next to nothing, in every call of both
//! implementations: compared and counted.

mod deal;
mod tally;

pub use deal::{deal_asked, Asked};
pub use tally::NothingTally;

use crate::answers::{agreed, Answer};
use crate::choosing::agreed_choice;
use crate::hours::{agreed_check_at, agreed_placing_at};
use crate::lists::Lists;
use crate::measuring::{agreed_measure, agreed_measure_at};
use crate::merging::{agreed_merge, Pair};
use crate::placing::agreed_placing;
use crate::rounds::agreed_round;
use crate::running::{agreed_run, engine_ready};
use crate::starting::agreed_start;
use crate::totals::agreed_totals;
use second::cases::NOTHING;
use second::draft::to_bytes;
use second::{Placed, Ready, Round, Totals, Verdict, Written};
use std::fmt::Display;

/// What both answer to every call, and leave in what is lent to be written.
#[derive(Debug, PartialEq)]
pub struct Answers {
    pub check: Answer,
    pub check_at: Verdict,
    pub place: (Placed, Vec<u8>),
    pub place_at: (Placed, Vec<u8>),
    pub measure: Placed,
    pub measure_at: Placed,
    pub run: (Verdict, Vec<u8>),
    pub ready: Ready,
    pub round: (Round, Vec<u8>),
    pub totals: Totals,
    pub start: (Verdict, Lists),
    pub choose: (Verdict, Lists),
    /// Of the file with itself.
    pub merge: (Written, Vec<u8>),
}

/// What both answer to every call. Panics if they differ, in a byte of an output too.
pub fn agreed_answers(asked: &Asked, origin: impl Display) -> Answers {
    let Asked {
        at,
        before,
        dealt,
        lists,
        choice,
    } = asked;
    let (file, choices) = (&at.file, &dealt.choices);
    let twice = Pair {
        first: file.clone(),
        second: file.clone(),
        before: before.clone(),
    };
    Answers {
        check: agreed(file, &origin),
        check_at: agreed_check_at(at, &origin),
        place: agreed_placing(file, before, &origin),
        place_at: agreed_placing_at(at, before, &origin),
        measure: agreed_measure(file, &origin),
        measure_at: agreed_measure_at(at, &origin),
        run: agreed_run(dealt, &origin),
        // Compared with the second's by the run.
        ready: engine_ready(file, choices),
        round: agreed_round(dealt, &origin),
        totals: agreed_totals(file, choices, &origin),
        start: agreed_start(file, lists, &origin),
        choose: agreed_choice(file, lists, *choice, &origin),
        merge: agreed_merge(&twice, &origin),
    }
}

/// Deals `files` files to every call of both and panics at the first difference. Zero
/// bytes are answered as the file that they are read as.
pub fn compare_nothing(seed: u64, files: u64) -> NothingTally {
    let mut tally = NothingTally::default();
    let nothing = to_bytes(&NOTHING);
    for index in 0..files {
        let asked = deal_asked(seed, index);
        let origin = format_args!("trials::deal_asked({seed}, {index})");
        let answers = agreed_answers(&asked, origin);
        if asked.at.file.is_empty() {
            let due = agreed_answers(&asked.with_file(&nothing), origin);
            assert!(answers == due, "{origin}: {answers:?} and not {due:?}");
        }
        tally.count(&asked);
    }
    tally
}
