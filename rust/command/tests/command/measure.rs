//! `measure FILE`.

use crate::common::{example, pilzdamo, pilzdamo_fed, sentence};
use crate::files;

/// What it says is what place says, and nothing is placed.
#[test]
fn what_place_would_say() {
    for name in files::BARE {
        let file = example(name);
        let placed = pilzdamo(&["place", &file]);
        let measured = pilzdamo(&["measure", &file]);
        assert_eq!((measured.status, measured.err.as_str()), (0, ""), "{name}");
        let said = placed.err.replace(": placed, ", ": can be placed, ");
        assert_eq!(measured.text(), said, "{name}");
        let bytes = format!(", {} bytes\n", placed.out.len());
        assert!(measured.text().ends_with(&bytes), "{name}");
    }
}

#[test]
fn from_standard_input() {
    let answer = pilzdamo_fed(&["measure", "-"], &files::booking().bytes());
    assert_eq!((answer.status, answer.err.as_str()), (0, ""));
    assert_eq!(
        answer.text(),
        "standard input: can be placed, 1 on step, 94 bytes\n"
    );
}

/// Refused as by place, word for word.
#[test]
fn refusals() {
    for name in [
        "head-nurse/copied.clinic",
        "refused/01-odd.clinic",
        "refused/08-tree.clinic",
        "refused/14-placed.clinic",
        "refused/15-no-role.clinic",
        "refused/16-too-long.clinic",
        "refused/21-junior.clinic",
    ] {
        let file = example(name);
        let placed = pilzdamo(&["place", &file]);
        let measured = pilzdamo(&["measure", &file]);
        assert_eq!((measured.status, measured.text()), (1, ""), "{name}");
        assert_eq!(measured.err, placed.err, "{name}");
    }
}

#[test]
fn at_a_time() {
    let (file, hours) = (example("hours/desk.clinic"), example("hours/week.hours"));
    let at =
        |hours: &str, time: &str| pilzdamo(&["measure", &file, "--at", time, "--hours", hours]);
    let answer = at(&hours, "mon 7:30");
    assert_eq!((answer.status, answer.err.as_str()), (0, ""));
    let due = format!("{file}: can be placed for Mon 07:30, 1 on step, 94 bytes\n");
    assert_eq!(answer.text(), due);
    let wrong = example("refused/23-role.hours");
    let answer = at(&wrong, "Mon 07:30");
    assert_eq!(answer.status, 1);
    let sentence = sentence(23, "row 6");
    let row = "row 6 comes from line 2: it is of role 3, and there are 2 roles";
    let due = format!("pilzdamo: {wrong}: {sentence}\n  {row}\n");
    assert!(answer.err.starts_with(&due), "{}", answer.err);
}
