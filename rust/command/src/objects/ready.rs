//! Threads that can meet.

use super::runs::Ran;
use crate::json::{object, Json};

/// The lowest sender and receiver that can meet after a list.
pub fn ready(ran: &Ran, pair: Option<(u16, u16)>) -> Json {
    let answer = match (pair, ran.verdict.is_clean()) {
        (_, false) => "refused",
        (Some(_), true) => "can meet",
        (None, true) => "none can meet",
    };
    let ready = pair.map(|(sender, receiver)| {
        object([
            ("sender", ran.thread(sender)),
            ("receiver", ran.thread(receiver)),
        ])
    });
    object([
        ("file", ran.file.as_str().into()),
        ("choices", ran.choices.as_str().into()),
        ("answer", answer.into()),
        ("ready", ready.into()),
        ("refusal", ran.refusal()),
    ])
}
