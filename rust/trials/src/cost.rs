//! What placing minimises.

use std::iter::Sum;
use std::ops::Add;

/// The on steps of a placement, and the file's nodes of tags 0 to 4 that are
/// reached with a role.
#[derive(Clone, Copy, Debug, Default, PartialEq, Eq, PartialOrd, Ord)]
pub struct Cost {
    pub on_steps: u32,
    pub idle: u32,
}

impl Add for Cost {
    type Output = Cost;

    fn add(self, other: Cost) -> Cost {
        Cost {
            on_steps: self.on_steps + other.on_steps,
            idle: self.idle + other.idle,
        }
    }
}

impl Sum for Cost {
    fn sum<I: Iterator<Item = Cost>>(costs: I) -> Cost {
        costs.fold(Cost::default(), Cost::add)
    }
}
