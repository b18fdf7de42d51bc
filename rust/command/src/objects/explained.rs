//! Explanations.

use crate::json::{object, Json};
use crate::refusals::Refusal;

/// All that there is to say of a refusal by its number.
pub fn explained(number: u16, refusal: &Refusal) -> Json {
    object([
        ("number", number.into()),
        ("meaning", pilzdamo::meaning(number).into()),
        ("place_counts", refusal.place.into()),
        ("who_can_mend_it", refusal.who.into()),
        ("what_is_wrong", refusal.wrong.into()),
        ("how_to_mend_it", refusal.mend.into()),
    ])
}
