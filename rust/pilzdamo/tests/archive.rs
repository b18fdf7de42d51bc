//! The static library has no memory of its own that a call could write, so that calls
//! from several threads have nothing in common: no section of it is writable. From
//! outside it needs `memcpy` and `memset` alone.
#![cfg(target_os = "linux")]

use std::collections::BTreeSet;

/// A section that is part of the memory of a program, and one that can be written.
const ALLOCATED: u64 = 2;
const WRITABLE: u64 = 1;

/// A section that is a table of symbols.
const SYMBOLS: usize = 2;

fn number(bytes: &[u8], at: usize, width: usize) -> usize {
    let low_first = bytes[at..at + width].iter().rev();
    low_first.fold(0, |number, byte| 256 * number + usize::from(*byte))
}

/// The members of an archive, each behind a header of 60 bytes.
fn members(archive: &[u8]) -> Vec<&[u8]> {
    let mut rest = archive.strip_prefix(b"!<arch>\n").expect("an archive");
    let mut members = Vec::new();
    while rest.len() >= 60 {
        let size = std::str::from_utf8(&rest[48..58]).expect("a size");
        let size: usize = size.trim().parse().expect("a size");
        members.push(&rest[60..60 + size]);
        let next = 60 + size + size % 2;
        rest = rest.get(next..).unwrap_or(&[]);
    }
    members
}

/// Where the headers of the sections of an ELF object of 64 bits are.
fn sections(object: &[u8]) -> Vec<usize> {
    let (from, size, count) = (
        number(object, 40, 8),
        number(object, 58, 2),
        number(object, 60, 2),
    );
    (0..count).map(|section| from + section * size).collect()
}

/// The sizes of the writable sections.
fn writable(object: &[u8]) -> Vec<usize> {
    let is_writable = |at: &usize| {
        let flags = number(object, at + 8, 8) as u64;
        flags & ALLOCATED != 0 && flags & WRITABLE != 0
    };
    let sizes = sections(object)
        .into_iter()
        .filter(is_writable)
        .map(|at| number(object, at + 32, 8));
    sizes.filter(|size| *size > 0).collect()
}

/// The names that an object needs and doesn't define.
fn needed(object: &[u8]) -> BTreeSet<&str> {
    let sections = sections(object);
    let place = |at: usize| (number(object, at + 24, 8), number(object, at + 32, 8));
    let mut names = BTreeSet::new();
    for &at in &sections {
        if number(object, at + 4, 4) != SYMBOLS {
            continue;
        }
        let (from, size) = place(at);
        let (texts, _) = place(sections[number(object, at + 40, 4)]);
        for symbol in (from..from + size).step_by(24) {
            if number(object, symbol + 6, 2) == 0 {
                let text = &object[texts + number(object, symbol, 4)..];
                let end = text.iter().position(|byte| *byte == 0).expect("an end");
                names.insert(std::str::from_utf8(&text[..end]).expect("a name"));
            }
        }
    }
    names.remove("");
    names
}

fn with_objects(test: impl Fn(&[u8])) {
    let archive = std::fs::read(env!("PILZDAMO_ARCHIVE")).expect("the library");
    let is_object = |member: &&[u8]| member.starts_with(b"\x7fELF\x02");
    let objects: Vec<&[u8]> = members(&archive).into_iter().filter(is_object).collect();
    assert!(!objects.is_empty(), "no object in the library");
    objects.into_iter().for_each(test);
}

#[test]
fn no_section_is_writable() {
    with_objects(|object| assert_eq!(writable(object), []));
}

#[test]
fn only_memcpy_and_memset_are_needed() {
    let given = BTreeSet::from(["memcpy", "memset"]);
    with_objects(|object| assert_eq!(&needed(object) - &given, BTreeSet::new()));
}
