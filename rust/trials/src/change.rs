//! Changes without an aim, on words and on bytes.

use crate::rng::Rng;
use second::draft::{set_word, word_at, Draft};
use second::Version;

/// Sets one word of the file: one of the header, or of a record of any
/// section, all of them as likely.
pub fn one_word(rng: &mut Rng, file: &mut [u8]) {
    let count = file.len() / 2;
    let version = Version::claimed(file);
    let (header, sections) = (version.header(), version.sections().len());
    if count < header {
        return;
    }
    // The offsets are the last words of the header.
    let offset = |section: usize| word_at(file, header - sections + section).into();
    let (start, end) = match rng.below(sections + 1) {
        0 => (0, header),
        last if last == sections => (offset(last - 1), count),
        section => (offset(section - 1), offset(section)),
    };
    if start >= end || end > count {
        return;
    }
    let at = start + rng.index(end - start);
    let old = word_at(file, at);
    let neighbour = word_at(file, start + rng.below(end - start));
    let new = match rng.below(8) {
        0 => 0,
        1 => old.wrapping_add(1),
        2 => old.wrapping_sub(1),
        3 => u16::MAX,
        4 => rng.word(),
        5 => old ^ 1 << rng.below(16),
        6 => *rng.of(&[8, 9, 16, 17, 32, 33, 64, 65, 257, 320, 512, 519, 1024, 1025]),
        _ => neighbour,
    };
    set_word(file, at, new);
}

/// Gives the nodes' fields any words, mostly small ones; tags and the forks'
/// second children stay.
pub fn any_fields(rng: &mut Rng, draft: &mut Draft) {
    for node in &mut draft.nodes {
        let fields = match node[0] {
            0..=2 => continue,
            4 | 6 => 2,
            _ => 1,
        };
        for field in &mut node[1..=fields] {
            *field = match rng.below(5) {
                0 => rng.from(0, 33),
                1 => rng.from(256, 321),
                2 => rng.from(511, 520),
                3 => rng.from(1, 4),
                _ => rng.word(),
            };
        }
    }
}

/// Gives a few nodes another tag, with no unused field; a fork's second child
/// is near.
pub fn few_tags(rng: &mut Rng, draft: &mut Draft) {
    let count = draft.nodes.len();
    for _ in 0..(1 + rng.below(3)).min(count) {
        let at = rng.below(count);
        let tag = rng.from(0, 8);
        let near = at as u16 + rng.from(2, 5);
        draft.nodes[at] = match tag {
            0 | 2 => [tag, 0, 0],
            1 => [tag, near, 0],
            4 | 6 => [tag, 257, 1],
            _ => [tag, 1, 0],
        };
    }
}

/// Cuts the file, makes it longer, or writes over some of its bytes.
pub fn any_bytes(rng: &mut Rng, file: &mut Vec<u8>) {
    match rng.below(4) {
        0 => file.truncate(rng.below(file.len() + 1)),
        1 => {
            let more = match rng.below(40) {
                0 => 100_000,
                1..=9 => 7_000,
                _ => 10,
            };
            let length = file.len() + rng.below(more);
            file.resize_with(length, || rng.word() as u8);
        }
        _ => {
            for _ in 0..=rng.below(6) {
                let at = rng.below(file.len());
                file[at] = rng.word() as u8;
            }
        }
    }
}

/// Random bytes, mostly few. In versions 2 and 3 the first word says so.
pub fn noise(rng: &mut Rng, version: Version) -> Vec<u8> {
    let most = *rng.of(&[30, 80, 80, 300, 7_000]);
    let length = rng.below(most);
    let bytes = std::iter::repeat_with(|| rng.word() as u8);
    let mut bytes: Vec<u8> = bytes.take(length).collect();
    if version.has_juniors() && length >= 2 {
        set_word(&mut bytes, 0, version.number());
    }
    bytes
}

/// Gives all records random words, or only the nodes; the header stays right.
pub fn any_words(rng: &mut Rng, draft: &mut Draft) {
    match rng.below(3) {
        0 => draft.nodes.as_flattened_mut().fill_with(|| rng.from(0, 9)),
        1 => fill(draft, || rng.from(0, 3)),
        _ => fill(draft, || rng.word()),
    }
}

fn fill(draft: &mut Draft, mut word: impl FnMut() -> u16) {
    draft.users.as_flattened_mut().fill_with(&mut word);
    draft.roles.as_flattened_mut().fill_with(&mut word);
    if let Some(juniors) = &mut draft.juniors {
        juniors.as_flattened_mut().fill_with(&mut word);
    }
    draft.kinds.as_flattened_mut().fill_with(&mut word);
    draft.channels.as_flattened_mut().fill_with(&mut word);
    draft.sessions.as_flattened_mut().fill_with(&mut word);
    draft.nodes.as_flattened_mut().fill_with(&mut word);
}

/// Few records of any section, all words 0.
pub fn blank(rng: &mut Rng, version: Version) -> Draft {
    let mut few = || rng.below(3);
    let (users, roles) = (few(), few());
    Draft {
        users: vec![[0; 1]; users],
        roles: vec![[0; 4]; roles],
        juniors: version.has_juniors().then(|| vec![[0; 1]; roles]),
        kinds: vec![[0; 1]; few()],
        channels: vec![[0; 2]; few()],
        sessions: vec![[0; 3]; few()],
        nodes: vec![[0; 3]; few()],
        by_column: version == Version::Three,
    }
}
