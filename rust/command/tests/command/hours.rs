//! `check` and `place` with `--at` and `--hours`.

use crate::common::{example, example_bytes, pilzdamo, pilzdamo_fed, sentence};
use crate::common::{Answer, Folder};
use crate::files;

const WEEK: &str = "hours/week.hours";

/// Asks for an example at a time of the week, with the hours of an example.
fn asked(verb: &str, file: &str, time: &str, hours: &str) -> Answer {
    let (file, hours) = (example(file), example(hours));
    pilzdamo(&[verb, &file, "--at", time, "--hours", &hours])
}

#[test]
fn a_check_at_a_time() {
    let file = example("hours/by-day.clinic");
    for time in ["Mon 07:00", "Mon 12:00", "Fri 14:59", "Tue 7:15"] {
        let answer = asked("check", "hours/by-day.clinic", time, WEEK);
        assert_eq!((answer.status, answer.err.as_str()), (0, ""), "{time}");
    }
    let answer = asked("check", "hours/by-day.clinic", "mon 7:30", WEEK);
    assert_eq!(answer.text(), format!("{file}: passes at Mon 07:30\n"));
    for time in ["Mon 06:59", "Mon 15:00", "Sat 12:00", "Sun 23:59"] {
        let answer = asked("check", "hours/by-day.clinic", time, WEEK);
        assert_eq!((answer.status, answer.text()), (1, ""), "{time}");
        let due = format!(
            "pilzdamo: {file}: Refused 24: the role put on is closed at that minute at node 1.\n  \
             node 1: on role 1\n  \
             the routine's author can mend it; more: pilzdamo explain 24\n"
        );
        assert_eq!(answer.err, due, "{time}");
    }
    // Without hours it passes at any time.
    assert_eq!(pilzdamo(&["check", &file]).status, 0);
}

#[test]
fn placed_for_a_time() {
    let file = example("hours/desk.clinic");
    for (time, clock, role) in [
        ("Mon 12:00", "Mon 12:00", 1),
        ("mon 7:15", "Mon 07:15", 1),
        ("Mon 20:00", "Mon 20:00", 2),
        ("Tue 03:00", "Tue 03:00", 2),
        ("Sat 12:00", "Sat 12:00", 2),
        ("Mon 00:00", "Mon 00:00", 2),
    ] {
        let answer = asked("place", "hours/desk.clinic", time, WEEK);
        assert_eq!(answer.status, 0, "{}", answer.err);
        assert_eq!(answer.out, files::hours_desk_in(role).bytes(), "{time}");
        let due = format!("{file}: placed for {clock}, 1 on step, 94 bytes\n");
        assert_eq!(answer.err, due);
        let hours = example(WEEK);
        let words = ["check", "-", "--at", time, "--hours", &hours];
        let checked = pilzdamo_fed(&words, &answer.out);
        assert_eq!((checked.status, checked.err.as_str()), (0, ""), "{time}");
    }
}

#[test]
fn no_role_is_open() {
    let folder = Folder::new("closed");
    let hours = folder.file("short", "role 1 Mon 07:00-08:00\nrole 2 Mon 07:30-08:30\n");
    let file = example("hours/desk.clinic");
    let out = folder.at("placed");
    let at = |time| {
        let words = ["place", &file, "--hours", &hours, "-o", &out, "--at", time];
        pilzdamo(&words)
    };
    let answer = at("Mon 08:30");
    assert_eq!((answer.status, answer.text()), (1, ""));
    let sentence = sentence(15, "node 1, a send");
    let due = format!("{sentence}\n  node 1: send user 2 on channel 1\n");
    assert!(answer.err.contains(&due), "{}", answer.err);
    assert!(!std::fs::exists(&out).unwrap());
    assert_eq!(at("Mon 08:00").status, 0);
    assert_eq!(
        std::fs::read(&out).unwrap(),
        files::hours_desk_in(2).bytes()
    );
}

#[test]
fn refused_tables() {
    let rows = "  the table has 70 rows, and at most 64 are taken\n";
    let row = "  row 6 comes from line 2: it is of role 3, and there are 2 roles\n";
    for (hours, number, place, line) in [
        ("refused/22-rows.hours", 22, "", rows),
        ("refused/23-role.hours", 23, "row 6", row),
    ] {
        for (verb, file) in [
            ("check", "hours/by-day.clinic"),
            ("place", "hours/desk.clinic"),
        ] {
            let answer = asked(verb, file, "Mon 12:00", hours);
            assert_eq!((answer.status, answer.text()), (1, ""), "{verb} {hours}");
            let name = example(hours);
            let sentence = sentence(number, place);
            let due = format!("pilzdamo: {name}: {sentence}\n{line}");
            assert!(answer.err.starts_with(&due), "{}", answer.err);
            let mends = format!("\n  the caller can mend it; more: pilzdamo explain {number}\n");
            assert!(answer.err.ends_with(&mends), "{}", answer.err);
        }
    }
}

/// What is wrong with the file is said of the file.
#[test]
fn refused_files() {
    let answer = asked(
        "check",
        "refused/08-tree.clinic",
        "Mon 12:00",
        "refused/23-role.hours",
    );
    let file = example("refused/08-tree.clinic");
    let sentence = sentence(8, "node 1");
    let due = format!("pilzdamo: {file}: {sentence}\n  node 1: fork");
    assert!(answer.err.starts_with(&due), "{}", answer.err);
    let answer = asked("check", "booking.clinic", "Mon 12:00", WEEK);
    assert_eq!(answer.status, 1);
    assert!(answer
        .err
        .contains("at node 1, a send.\n  node 1: send user 2 on channel 1\n"));
    assert!(answer
        .err
        .ends_with("has no on or off yet: pilzdamo place adds them\n"));
}

#[test]
fn hours_from_standard_input() {
    let file = example("hours/by-day.clinic");
    let words = ["check", &file, "--at", "Mon 12:00", "--hours", "-"];
    let answer = pilzdamo_fed(&words, &example_bytes(WEEK));
    assert_eq!((answer.status, answer.err.as_str()), (0, ""));
    let answer = pilzdamo_fed(&words, b"role 9 Mon 07:00-08:00");
    assert_eq!(answer.status, 1);
    let sentence = sentence(23, "row 1");
    let row = "row 1 comes from line 1: it is of role 9, and there are 2 roles";
    let due = format!("pilzdamo: standard input: {sentence}\n  {row}\n");
    assert!(answer.err.starts_with(&due), "{}", answer.err);
}

#[test]
fn lines_that_are_wrong() {
    let folder = Folder::new("hours");
    let file = example("hours/by-day.clinic");
    for (text, place, what) in [
        (
            "role 1 Mon-Fri",
            "1:1",
            "'role 1 Mon-Fri' doesn't have four words",
        ),
        (
            "# a\nrole 1 Mo 07:00-15:00",
            "2:8",
            "'Mo' isn't one of the days Mon, Tue",
        ),
        (
            "role 1 Mon 7-15\nrole",
            "1:12",
            "'7-15' isn't a stretch such as 07:00-15:00",
        ),
    ] {
        let hours = folder.file("wrong.hours", text);
        for verb in ["check", "place"] {
            let answer = pilzdamo(&[verb, &file, "--at", "Mon 12:00", "--hours", &hours]);
            assert_eq!((answer.status, answer.text()), (2, ""), "{text}");
            let due = format!("{hours}:{place}: {what}");
            assert!(answer.err.starts_with(&due), "{}", answer.err);
            let form = "opening hours are text, a line for each stretch: role 2 Mon-Fri \
                        07:00-15:00 (by name with --names NAMES)\n";
            assert!(answer.err.ends_with(form), "{}", answer.err);
        }
    }
}
