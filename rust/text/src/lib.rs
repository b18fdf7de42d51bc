//! The text form of a clinic's file: text to bytes and back. `docs/FORMAT.md` has the
//! grammar. What the engine checks is left to the engine.
//!
//! ```
//! let text = "clinic 1\nkind note\nuser desk\nchannel notes: note, owner desk\n";
//! let packed = text::pack(text).unwrap();
//! let file = packed.bytes();
//! assert_eq!(file.len(), 34);
//! assert_eq!(text::unpack_named(&file, &packed.names).unwrap(), text);
//! assert!(text::unpack(&file).unwrap().ends_with("channel c1: k1, owner u1\n"));
//!
//! let flaws = text::pack("clinic 1\nuser desk: clerk").unwrap_err();
//! assert_eq!(flaws[0].what, "there is no role 'clerk' (there are no roles)");
//! ```

#![forbid(unsafe_code)]

mod blocks;
mod edit;
mod fit;
mod join;
mod lent;
mod limits;
mod line;
mod mark;
mod names;
mod pack;
mod printable;
mod records;
mod tables;
mod tree;
mod unpack;
pub mod week;
mod why;
mod words;

pub use edit::{placed, stripped};
pub use fit::{misfit, several};
pub use join::{differences, joined, ordered, other_limits, Apart, Difference};
pub use lent::{sum, Lent};
pub use limits::Limits;
pub use line::{shown, tokens, unless_flawed, At, Flaw, Token, MOST_FLAWS};
pub use mark::{decoded, is_text, told, told_first, undecoded};
pub use names::{Names, SessionNames};
pub use pack::{pack, NodeAt, Packed, Source};
pub use printable::{printable, printable_line};
pub use records::{Channel, Node, Records, Role, Session, Version};
pub use unpack::{canonical, unpack, unpack_named};
pub use why::{held, variables, variables_at, why, why_in_numbers, Culprit};
