//! What is written in boxes, bands and marks, no longer than fits.

use super::figure::{Step, Turned};
use super::layout::{PADDING, SMALL};
use super::xml::{cut, width};
use crate::input::Input;

/// The most characters of a box, of a role in a mark, and of one in a band.
const IN_BOX: usize = 80;
const IN_MARK: usize = 30;
const IN_BAND: usize = 14;

/// The names of the roles; of bytes their numbers.
pub struct Labels {
    roles: Vec<String>,
    /// The check's refusal.
    refusal: u16,
}

/// A mark in a box.
pub struct Mark {
    pub class: String,
    pub words: String,
    pub wide: usize,
}

impl Mark {
    fn new(class: String, words: String) -> Mark {
        let wide = width(&words, SMALL + 1) + PADDING;
        Mark { class, words, wide }
    }
}

impl Labels {
    pub fn of(input: &Input, refusal: u16) -> Labels {
        Labels {
            roles: (1..=16).map(|role| input.role(role)).collect(),
            refusal,
        }
    }

    /// A role in full.
    pub fn role(&self, role: u16) -> &str {
        &self.roles[usize::from(role) - 1]
    }

    /// A role in a band.
    pub fn band(&self, role: u16) -> String {
        cut(self.role(role), IN_BAND)
    }

    /// A node's words in its box.
    pub fn words(&self, step: &Step) -> String {
        cut(&step.words, IN_BOX)
    }

    /// The marks in a node's box.
    pub fn marks(&self, step: &Step) -> Vec<Mark> {
        let turned = step.turned.as_ref().map(|turned| self.turned(turned));
        let refused = step.is_refused.then(|| {
            let words = format!("!! refused {}", self.refusal);
            Mark::new("refusal".to_string(), words)
        });
        turned.into_iter().chain(refused).collect()
    }

    fn turned(&self, turned: &Turned) -> Mark {
        let (word, sign) = match turned.is_on {
            true => ("on", '+'),
            false => ("off", '-'),
        };
        match turned.role {
            Some(role) => {
                let words = format!("{sign} {}", cut(self.role(role), IN_MARK));
                Mark::new(format!("{word} role-{role}"), words)
            }
            None => Mark::new(word.to_string(), format!("{sign} ?")),
        }
    }
}
