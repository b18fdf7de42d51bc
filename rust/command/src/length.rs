//! How long a file is, of which perhaps only the start was read.

use crate::names::several;
use std::fmt::{self, Display, Formatter};

/// A number of bytes, or more than that.
#[derive(Clone, Copy, PartialEq)]
pub enum Length {
    Exactly(u64),
    MoreThan(u64),
}

impl Default for Length {
    fn default() -> Length {
        Length::Exactly(0)
    }
}

impl Display for Length {
    fn fmt(&self, f: &mut Formatter) -> fmt::Result {
        match *self {
            Length::Exactly(length) => f.write_str(&several(length as usize, "byte")),
            Length::MoreThan(length) => write!(f, "more than {length} bytes"),
        }
    }
}

/// Bytes that can be answered for, though there may be more after them.
pub trait Bytes {
    fn start(&self) -> &[u8];

    /// The length of all of them.
    fn length(&self) -> Length {
        Length::Exactly(self.start().len() as u64)
    }
}

impl Bytes for [u8] {
    fn start(&self) -> &[u8] {
        self
    }
}
