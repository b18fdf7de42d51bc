//! Random files, reproducible from a seed and an index, and what is counted
//! and compared over them.

#![forbid(unsafe_code)]

mod aim;
mod answers;
mod bare;
mod certificates;
mod change;
mod choosing;
mod columns;
mod cost;
mod deal;
mod desk;
pub mod former;
mod grow;
mod hours;
pub mod juniors;
mod lists;
mod measuring;
mod merging;
mod nothing;
mod notices;
mod offers;
mod parts;
mod placing;
mod reasons;
pub mod rivals;
mod rng;
mod rounds;
mod running;
mod schedule;
mod schema;
mod seats;
mod sheets;
mod starting;
pub mod states;
mod tally;
mod totals;
mod trees;
mod wards;
mod wild;

pub use answers::{agreed, engine_check, engine_read, second_check, second_read, Answer};
pub use bare::{chain_bare, deal_bare, full_bare, largest_bare, overfull_bare, small_bare};
pub use bare::{tied_bare, typical_bare};
pub use certificates::{agreed_closing, compare_certificates, engine_closing};
pub use certificates::{CertificateTally, Certified};
pub use choosing::{agreed_choice, compare_choosing, deal_lent, engine_choose, full_lent};
pub use choosing::{long_run_by_choices, run_by_choices, typical_lent};
pub use choosing::{ChooseTally, Lent, Steps};
pub use columns::{agreed_turn, column_file, compare_turning, deal_turn, engine_turn, row_file};
pub use columns::{second_turn, TurnTally, Turned};
pub use cost::Cost;
pub use deal::{deal, largest, sized, typical};
pub use hours::{agreed_check_at, agreed_placing_at, closed, without_roles, At};
pub use hours::{compare_checking_at, compare_placing_at, deal_at, deal_bare_at, grant_more};
pub use hours::{engine_check_at, engine_place_at, CheckAtTally, PlaceAtTally};
pub use lists::{to_engine, Lists};
pub use measuring::{agreed_measure, agreed_measure_at, compare_measuring};
pub use measuring::{engine_measure, engine_measure_at, MeasureTally};
pub use merging::{agreed_merge, compare_merging, deal_pair, engine_merge, largest_pair};
pub use merging::{run_in_house, typical_pair, HouseSteps, MergeTally, Pair};
pub use nothing::{agreed_answers, compare_nothing, deal_asked, Answers, Asked, NothingTally};
pub use notices::{agreed_in_force, compare_notices, deal_notices, engine_in_force};
pub use notices::{typical_notices, NoticeTally, Notices};
pub use offers::{agreed_offers, compare_offers, engine_offers, Lending, OfferTally};
pub use offers::{search_by_choose, search_by_offers};
pub use parts::{agreed_part, compare_parts, engine_closing_part, Part, PartTally};
pub use placing::{active_sets, agreed_placing, compare_placing, engine_place, PlaceTally};
pub use reasons::{agreed_phrase, agreed_read, agreed_reason, given_reason};
pub use reasons::{compare_reading_reasons, compare_reasons, ReadTally, ReasonTally};
pub use reasons::{engine_read_reason, engine_reason, second_reason};
pub use rng::Rng;
pub use rounds::{agreed_round, choices_of, compare_rounds, deal_round, engine_round};
pub use rounds::{dispatch_placed, lone_round, meeting_round, typical_round};
pub use rounds::{Dispatched, RoundTally};
pub use running::{agreed_run, compare_running, deal_run, deal_state, run_placed, sends_in};
pub use running::{engine_ready, engine_run, Dealt, PlacedRuns, RunTally};
pub use schedule::{busy, crowded, largest_run, typical_run, MOST_CHOICES};
pub use seats::{agreed_seated, compare_seats, deal_seated, largest_seated, typical_seated};
pub use seats::{engine_round_seated, engine_run_seated, engine_seats, SeatTally, Seated};
pub use sheets::{agreed_sheet, by_placing, compare_sheets, deal_sheet, engine_sheet};
pub use sheets::{full_sheet, typical_sheet, Dealing, SheetTally};
pub use starting::{agreed_start, any_lists, compare_starting, deal_start};
pub use starting::{engine_start, StartTally};
pub use tally::{compare, Tally};
pub use totals::{agreed_totals, compare_totals, deal_totals, engine_totals, TotalsTally};
pub use trees::Trees;
pub use wards::{compare_wards, deal_wards, OwnTree, Wards, WardsTally};

/// A sound file with bytes after it, to several lengths, and the number that each
/// is refused with.
pub fn lengthened(sound: &[u8]) -> impl Iterator<Item = (Vec<u8>, u16)> + '_ {
    let by_size = [6_874, 6_875, 6_908, 6_909, 6_910, 65_536, 65_537, 131_098];
    let lengths = by_size.into_iter().chain([65_536 + sound.len()]);
    lengths.map(|length| {
        let mut file = sound.to_vec();
        file.resize(length, 0);
        (file, if length % 2 == 1 { 1 } else { 5 })
    })
}

/// The seed of the tests, unless `PILZDAMO_SEED` names another.
pub fn seed() -> u64 {
    setting("PILZDAMO_SEED", 2004)
}

/// The number of files, unless `PILZDAMO_FILES` names another.
pub fn files() -> u64 {
    setting("PILZDAMO_FILES", 400_000)
}

fn setting(name: &str, usual: u64) -> u64 {
    std::env::var(name).map_or(usual, |value| {
        value
            .parse()
            .unwrap_or_else(|_| panic!("{name} is no number: {value}"))
    })
}
