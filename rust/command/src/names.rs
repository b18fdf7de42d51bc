//! Operands, masks and steps in words.

use crate::clinic::{Clinic, CHANNELS, KINDS, ROLES, USERS};
pub use text::several;

/// Said of zero bytes, so that an input that was lost on its way is seen.
pub fn planned(bytes: &[u8]) -> &'static str {
    match bytes {
        [] => " (zero bytes: nothing is planned)",
        _ => "",
    }
}

/// The items of a mask, lowest first.
pub fn items(mask: u32) -> impl Iterator<Item = u32> {
    (1..=32).filter(move |item| mask >> (item - 1) & 1 == 1)
}

/// `no role`, `role 2` or `roles 1, 3`; items above the count are marked.
pub fn list(noun: &str, mask: u32, count: usize) -> String {
    let items: Vec<String> = items(mask)
        .map(|item| counted(&item.to_string(), item as usize, count))
        .collect();
    match items.as_slice() {
        [] => format!("no {noun}"),
        [item] => format!("{noun} {item}"),
        _ => format!("{noun}s {}", items.join(", ")),
    }
}

/// `; junior: role 1` or `; juniors: roles 1, 2`; those that are not lower than
/// their senior are marked.
pub fn juniors(mask: u16, senior: usize, roles: usize) -> String {
    let texts: Vec<String> = items(u32::from(mask))
        .map(|item| match item as usize {
            junior if junior > roles => format!("{item} (out of count)"),
            junior if junior >= senior => format!("{item} (not lower)"),
            _ => item.to_string(),
        })
        .collect();
    let many = if texts.len() == 1 { "" } else { "s" };
    format!("; junior{many}: role{many} {}", texts.join(", "))
}

/// What a role may: `sends on kind 1; receives on no kind`.
pub fn grants([low, high, low_in, high_in]: [u16; 4], kinds: usize) -> String {
    let wide = |low, high| u32::from(high) << 16 | u32::from(low);
    let sends = list("kind", wide(low, high), kinds);
    let receives = list("kind", wide(low_in, high_in), kinds);
    format!("sends on {sends}; receives on {receives}")
}

/// What a kind carries.
pub fn carries([carried]: [u16; 1], kinds: usize) -> String {
    match carried {
        0 => "carries a plain value".to_string(),
        kind => format!("carries a channel of {}", record("kind", kind, kinds)),
    }
}

/// A user, role, kind or channel by its number.
pub fn record(noun: &str, number: u16, count: usize) -> String {
    counted(&format!("{noun} {number}"), usize::from(number), count)
}

fn counted(text: &str, number: usize, count: usize) -> String {
    match number {
        0 => format!("{text} (there is none)"),
        _ if number > count => format!("{text} (out of count)"),
        _ => text.to_string(),
    }
}

/// A value in a run.
pub fn value(word: u16) -> String {
    match word {
        1..=32 => format!("user {word}"),
        257..=320 => format!("channel {}", word - 256),
        385..=448 => format!("made channel {}", word - 384),
        _ => format!("{word}"),
    }
}

/// What is known of a node besides its words: how many variables are bound
/// above it, and, of a fork, the second child that is due.
#[derive(Clone, Copy, Default)]
pub struct Above {
    pub bound: Option<usize>,
    pub due: Option<usize>,
}

/// What an operand names.
fn operand(clinic: &Clinic, word: u16, above: Above) -> String {
    match word {
        1..=32 => record("user", word, clinic.count(USERS)),
        257..=320 => record("channel", word - 256, clinic.count(CHANNELS)),
        512..=519 => variable(usize::from(word - 511), above),
        _ => format!("{word} (names nothing)"),
    }
}

fn variable(number: usize, above: Above) -> String {
    match above.bound {
        Some(bound) if number > bound => format!("variable {number} (not bound here)"),
        _ => format!("variable {number}"),
    }
}

/// The variable that a node binds.
fn binds(above: Above) -> String {
    match above.bound {
        Some(bound) if bound >= 8 => format!("variable {} (at most 8)", bound + 1),
        Some(bound) => format!("variable {}", bound + 1),
        None => "a variable".to_string(),
    }
}

/// A node in words.
pub fn step(clinic: &Clinic, [tag, f1, f2]: [u16; 3], above: Above) -> String {
    let named = |word| operand(clinic, word, above);
    let role = || record("role", f1, clinic.count(ROLES));
    let (text, unused) = match tag {
        0 => ("end".to_string(), [f1, f2]),
        1 => (fork(f1, above), [0, f2]),
        2 => ("repeat".to_string(), [f1, f2]),
        3 => {
            let kind = record("kind", f1, clinic.count(KINDS));
            (
                format!("new channel of {kind} as {}", binds(above)),
                [0, f2],
            )
        }
        4 => (format!("compare {} with {}", named(f1), named(f2)), [0, 0]),
        5 => (
            format!("receive {} on {}", binds(above), named(f1)),
            [0, f2],
        ),
        6 => (format!("send {} on {}", named(f2), named(f1)), [0, 0]),
        7 => (format!("on {}", role()), [0, f2]),
        8 => (format!("off {}", role()), [0, f2]),
        _ => (format!("tag {tag}, f1 {f1}, f2 {f2} (no such tag)"), [0, 0]),
    };
    text + &leftover(unused)
}

fn fork(second: u16, above: Above) -> String {
    match above.due {
        Some(due) if due != usize::from(second) => {
            format!("fork, second child {second} ({due} is due)")
        }
        _ => format!("fork, second child {second}"),
    }
}

/// A remark on unused fields that aren't 0.
fn leftover(unused: [u16; 2]) -> String {
    match unused {
        [0, 0] => String::new(),
        [f1, 0] => format!(" (f1 is {f1}, due is 0)"),
        [0, f2] => format!(" (f2 is {f2}, due is 0)"),
        [f1, f2] => format!(" (f1 is {f1} and f2 is {f2}, due is 0)"),
    }
}
