//! What the two implementations answer, in one form.

use std::fmt::Display;

/// A refusal's number and place, of either implementation.
pub type Answer = (u16, u16);

/// The engine, refusals 1 to 10.
pub fn engine_read(file: &[u8]) -> Answer {
    engine(pilzdamo::read(file))
}

/// The engine, refusals 1 to 13.
pub fn engine_check(file: &[u8]) -> Answer {
    engine(pilzdamo::check(file))
}

/// The second implementation, refusals 1 to 10.
pub fn second_read(file: &[u8]) -> Answer {
    second(second::read_names(file))
}

/// The second implementation, refusals 1 to 13.
pub fn second_check(file: &[u8]) -> Answer {
    second(second::check(file))
}

fn engine(verdict: pilzdamo::Verdict) -> Answer {
    (verdict.number, verdict.place)
}

fn second(verdict: second::Verdict) -> Answer {
    (verdict.number, verdict.place)
}

/// What both answer by 1 to 13, once they have agreed by 1 to 10. Panics if they
/// differ, with the file.
pub fn agreed(file: &[u8], origin: impl Display) -> Answer {
    let same = |question, ours: Answer, theirs: Answer| {
        assert!(
            ours == theirs,
            "{question} differs at {origin}: engine {ours:?}, second {theirs:?}, on {} bytes, \
             to be had back by `xxd -r -p`:\n{}",
            file.len(),
            hex(file)
        );
        ours
    };
    same("read", engine_read(file), second_read(file));
    same("check", engine_check(file), second_check(file))
}

fn hex(file: &[u8]) -> String {
    file.iter().map(|byte| format!("{byte:02x}")).collect()
}
