//! Reasons in words by both implementations: compared, judged and counted.

mod deal;
mod tally;

pub use deal::given_reason;

use deal::{deal_bytes, deal_reason};
pub use tally::{ReadTally, ReasonTally};

use second::{Reason, SENTENCE};
use std::fmt::Display;

/// The engine's length, and what it leaves in the output.
pub fn engine_reason(reason: Reason, out: &mut [u8]) -> u16 {
    let Reason {
        number,
        counts,
        place,
        tag,
    } = reason;
    let reason = pilzdamo::Reason {
        number,
        counts,
        place,
        tag,
    };
    pilzdamo::reason(reason, out)
}

/// The second implementation's.
pub fn second_reason(of: Reason, out: &mut [u8]) -> u16 {
    second::reason(of.number, of.counts, of.place, of.tag, out)
}

/// The engine's reading, in the second implementation's form.
pub fn engine_read_reason(sentence: &[u8]) -> Reason {
    let told = pilzdamo::read_reason(sentence);
    Reason {
        number: told.number,
        counts: told.counts,
        place: told.place,
        tag: told.tag,
    }
}

/// What both write at the start of an output that holds `before`, if they write
/// anything. Panics if they differ in the length or in any byte of the output, or if the
/// length is impossible.
fn agreed_output(
    origin: impl Display,
    before: &[u8],
    engine: impl Fn(&mut [u8]) -> u16,
    second: impl Fn(&mut [u8]) -> u16,
) -> Vec<u8> {
    let (mut out, mut of_second) = (before.to_vec(), before.to_vec());
    let [length, other] = [engine(&mut out), second(&mut of_second)].map(usize::from);
    let fail = |what: &str| -> ! {
        let shown = String::from_utf8_lossy(&out[..length.min(out.len())]);
        panic!("{what} at {origin}: engine {length}, second {other}, {shown:?}")
    };
    if length != other {
        fail("another length");
    }
    if let Some(at) = (0..out.len()).find(|&at| out[at] != of_second[at]) {
        fail(&format!("byte {at} differs"));
    }
    if length > SENTENCE || length > 0 && before.len() < SENTENCE {
        fail("no such length");
    }
    if out[length..] != before[length..] {
        fail("a byte past the length");
    }
    out.truncate(length);
    out
}

/// The sentence that both write, empty where they write none. Both read it back.
pub fn agreed_reason(reason: Reason, before: &[u8]) -> Vec<u8> {
    let origin = format!("{reason:?} in {} bytes", before.len());
    let engine = |out: &mut [u8]| engine_reason(reason, out);
    let second = |out: &mut [u8]| second_reason(reason, out);
    let sentence = agreed_output(&origin, before, engine, second);
    if !sentence.is_empty() {
        assert_eq!(agreed_read(&sentence), reason, "{origin}");
    }
    sentence
}

/// What both say that a number means, empty where it means nothing.
pub fn agreed_phrase(number: u16, before: &[u8]) -> Vec<u8> {
    let origin = format!("phrase {number} in {} bytes", before.len());
    let engine = |out: &mut [u8]| pilzdamo::phrase(number, out);
    let second = |out: &mut [u8]| second::phrase(number, out);
    agreed_output(origin, before, engine, second)
}

/// What both read. What they say yes to is the sentence that both write for it.
pub fn agreed_read(sentence: &[u8]) -> Reason {
    let (told, other) = (engine_read_reason(sentence), second::read_reason(sentence));
    let shown = || String::from_utf8_lossy(sentence);
    assert!(
        told == other,
        "read_reason differs: engine {told:?}, second {other:?}, on {:?}",
        shown()
    );
    if told.number == 0 {
        assert_eq!(told, Reason::NONE, "{:?}", shown());
        return told;
    }
    for write in [engine_reason, second_reason] {
        let mut out = [0; SENTENCE];
        let length = usize::from(write(told, &mut out));
        assert_eq!(out[..length], *sentence, "{told:?}, {:?}", shown());
    }
    told
}

/// Deals `count` reasons to both and panics at the first difference.
pub fn compare_reasons(seed: u64, count: u64) -> ReasonTally {
    let mut tally = ReasonTally::default();
    for index in 0..count {
        let (reason, before) = deal_reason(seed, index);
        let sentence = agreed_reason(reason, &before);
        let unsaid = second::cause_in_reason(reason, before.len());
        assert_eq!(unsaid.is_none(), !sentence.is_empty(), "{reason:?}");
        tally.count(reason, unsaid);
        agreed_phrase(reason.number, &before);
    }
    tally
}

/// Deals `count` strings of bytes, near sentences and not, to both readers and panics
/// at the first difference.
pub fn compare_reading_reasons(seed: u64, count: u64) -> ReadTally {
    let mut tally = ReadTally::default();
    for index in 0..count {
        let (change, bytes) = deal_bytes(seed, index);
        tally.count(change, agreed_read(&bytes));
    }
    tally
}
