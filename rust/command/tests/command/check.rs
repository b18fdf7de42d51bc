//! `check FILE`.

use crate::common::{example, example_bytes, pilzdamo, pilzdamo_fed, Folder};

#[test]
fn a_file_that_passes() {
    let file = example("spring/cut.clinic");
    let answer = pilzdamo(&["check", &file]);
    assert_eq!((answer.status, answer.err.as_str()), (0, ""));
    assert_eq!(answer.text(), format!("{file}: passes\n"));
}

#[test]
fn standard_input() {
    let answer = pilzdamo_fed(&["check", "-"], &example_bytes("spring/cut.clinic"));
    assert_eq!(answer.status, 0);
    assert_eq!(answer.text(), "standard input: passes\n");
    let answer = pilzdamo_fed(&["check", "-"], &[1]);
    assert_eq!(answer.status, 1);
    assert!(answer
        .err
        .starts_with("pilzdamo: standard input: Refused 1: the file has 1 to 25 bytes"));
}

#[test]
fn a_bare_routine_is_to_be_placed() {
    let file = example("booking.clinic");
    let answer = pilzdamo(&["check", &file]);
    assert_eq!((answer.status, answer.text()), (1, ""));
    let due = format!(
        "pilzdamo: {file}: Refused 13: no active role permits the step at node 1, a send.\n  \
         node 1: send user 2 on channel 1\n  \
         user 1 has no role on that may send on kind 1 \
         (roles on: none; roles that may: role 1, role 2)\n  \
         the routine's author can mend it; more: pilzdamo explain 13\n  \
         the routine has no on or off yet: pilzdamo place adds them\n"
    );
    assert_eq!(answer.err, due);
}

#[test]
fn a_path_with_spaces_and_a_long_file() {
    let folder = Folder::new("check");
    let file = folder.file("night shift.clinic", example_bytes("spring/cut.clinic"));
    assert_eq!(pilzdamo(&["check", &file]).status, 0);
    let mut long = example_bytes("spring/cut.clinic");
    long.resize(200_000, 0);
    let answer = pilzdamo(&["check", &folder.file("long", long)]);
    assert_eq!(answer.status, 1);
    assert!(answer
        .err
        .contains("Refused 5: the length is not the one that the counts give; no place.\n"));
}
