//! `place FILE`.

use crate::common::{example, example_bytes, pilzdamo, pilzdamo_fed, sentence, Folder};
use crate::draft::{off, on};
use crate::files;
use std::fs;

/// The booking with role 2 on from before the first send to after the second.
fn placed_booking() -> Vec<u8> {
    let mut draft = files::booking();
    draft.nodes.insert(0, on(2));
    draft.nodes.insert(3, off(2));
    draft.bytes()
}

#[test]
fn to_standard_output() {
    let file = example("booking.clinic");
    let answer = pilzdamo(&["place", &file]);
    assert_eq!(answer.status, 0);
    assert_eq!(answer.out, placed_booking());
    assert_eq!(answer.err, format!("{file}: placed, 1 on step, 94 bytes\n"));
}

#[test]
fn from_standard_input() {
    let answer = pilzdamo_fed(&["place", "-", "-o", "-"], &example_bytes("booking.clinic"));
    assert_eq!((answer.status, answer.out), (0, placed_booking()));
    assert_eq!(answer.err, "standard input: placed, 1 on step, 94 bytes\n");
}

#[test]
fn to_a_file() {
    let folder = Folder::new("place");
    let file = example("booking.clinic");
    let out = folder.file("placed here.clinic", [7; 5_000]);
    for words in [["place", &file, "-o", &out], ["place", "-o", &out, &file]] {
        let answer = pilzdamo(&words);
        assert_eq!((answer.status, answer.text()), (0, ""));
        let due = format!("{file}: placed, 1 on step, 94 bytes in {out}\n");
        assert_eq!(answer.err, due);
        assert_eq!(fs::read(&out).unwrap(), placed_booking());
    }
}

#[test]
fn onto_itself() {
    let folder = Folder::new("itself");
    let file = folder.file("a.clinic", example_bytes("booking.clinic"));
    let answer = pilzdamo(&["place", &file, "-o", &file]);
    assert_eq!(answer.status, 2);
    assert!(answer.err.contains("not written over without --force"));
    assert_eq!(fs::read(&file).unwrap(), example_bytes("booking.clinic"));
    let answer = pilzdamo(&["place", &file, "--force", "-o", &file]);
    assert_eq!(answer.status, 0);
    assert_eq!(fs::read(&file).unwrap(), placed_booking());
}

#[test]
fn a_refusal_writes_nothing() {
    let folder = Folder::new("refusal");
    let kept = folder.file("kept", "as it was");
    let absent = folder.at("absent");
    let file = example("refused/15-no-role.clinic");
    for out in [&kept, &absent] {
        let answer = pilzdamo(&["place", &file, "-o", out]);
        assert_eq!((answer.status, answer.text()), (1, ""));
        assert!(answer
            .err
            .contains("at node 4, a send.\n  node 4: send user 1 on channel 1\n"));
    }
    assert_eq!(fs::read_to_string(kept).unwrap(), "as it was");
    assert!(!fs::exists(absent).unwrap());
}

#[test]
fn a_file_that_cannot_be_written() {
    let folder = Folder::new("unwritable");
    let out = folder.at("no such folder/out");
    let answer = pilzdamo(&["place", &example("booking.clinic"), "-o", &out]);
    assert_eq!(answer.status, 2);
    let due = format!("pilzdamo: {out}: can't be written: there is no such file or folder\n");
    assert_eq!(answer.err, due);
    let here = folder.path().display().to_string();
    let answer = pilzdamo(&["place", &example("booking.clinic"), "-o", &here]);
    assert_eq!(answer.status, 2);
    assert!(answer.err.contains("can't be written: it is a folder"));
}

/// Of two placements with as few on steps the one with the smaller states is
/// taken, and it cuts between two sends that role 2 permits.
#[test]
fn sends_that_roles_share() {
    let file = example("overlap.clinic");
    let answer = pilzdamo(&["place", &file]);
    assert_eq!(
        (answer.status, answer.out),
        (0, example_bytes("overlap-placed.clinic"))
    );
    assert_eq!(
        answer.err,
        format!("{file}: placed, 2 on steps, 118 bytes\n")
    );
}

/// No role is held through the five compares.
#[test]
fn five_compares() {
    let answer = pilzdamo(&["place", &example("theatre.clinic")]);
    let placed = files::placed_theatre();
    assert_eq!((answer.status, answer.out), (0, placed.bytes()));
}

/// What is placed passes, and is refused by 14 if it is to be placed again.
#[test]
fn what_is_placed_passes() {
    for name in files::BARE {
        let placed = pilzdamo(&["place", &example(name)]).out;
        assert_eq!(pilzdamo_fed(&["check", "-"], &placed).status, 0, "{name}");
        let again = pilzdamo_fed(&["place", "-"], &placed);
        assert_eq!(again.status, 1, "{name}");
        assert!(again.err.contains("Refused 14: "), "{name}");
        assert!(again.err.contains(", an on.\n"), "{name}");
    }
}

/// A grant that was forgotten in version 1 comes by a junior in version 2. The
/// placed file has its version and its juniors.
#[test]
fn a_head_nurse() {
    let answer = pilzdamo(&["place", &example("head-nurse/copied.clinic")]);
    assert_eq!((answer.status, answer.text()), (1, ""));
    assert!(answer
        .err
        .contains("at node 2, a send.\n  node 2: send user 4 on channel 2\n"));
    let file = example("head-nurse/juniors.clinic");
    let answer = pilzdamo(&["place", &file]);
    let mut draft = files::by_juniors();
    let nodes = std::mem::take(&mut draft.nodes);
    let (hers, rest) = nodes.split_at(4);
    let (nurses, desks) = rest.split_at(3);
    draft.sessions.clear();
    let placed = draft
        .session(1, &held(2, hers))
        .session(2, &held(1, nurses))
        .session(3, &held(3, desks));
    assert_eq!((answer.status, answer.out), (0, placed.bytes()));
    assert_eq!(
        answer.err,
        format!("{file}: placed, 3 on steps, 204 bytes\n")
    );
}

/// The nodes with a role on from the first to before the last.
fn held(role: u16, nodes: &[[u16; 3]]) -> Vec<[u16; 3]> {
    let (end, steps) = nodes.split_last().expect("an end");
    [&[on(role)], steps, &[off(role), *end]].concat()
}

#[test]
fn a_starting_mask_has_no_place() {
    let mut draft = files::booking();
    draft.sessions[0][1] = 1;
    let answer = pilzdamo_fed(&["place", "-"], &draft.bytes());
    assert_eq!(answer.status, 1);
    assert!(answer.err.contains(&sentence(14, "")), "{}", answer.err);
}
