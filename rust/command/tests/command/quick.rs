//! Texts as long as one may be are answered soon, whatever is in them.

use crate::common::{example, pilzdamo, Folder};
use std::time::{Duration, Instant};

/// The most bytes of a text.
const LONGEST: usize = 4_000_000;

/// Built for release each answer takes under 2 seconds; this is for a busy machine, and for a
/// build that isn't optimized.
const SOON: Duration = Duration::from_secs(120);

/// As many lines as a text may have after these.
fn filled(start: &str, line: impl Fn(usize) -> String) -> String {
    let mut text = start.to_string();
    for number in 1.. {
        let line = line(number);
        if text.len() + line.len() > LONGEST {
            break;
        }
        text += &line;
    }
    text
}

const SESSION: &str = "clinic 1\nkind k\nrole r: send k; receive k\nuser u: r\n\
                       channel c: k, owner u\nsession s by u\n";

const OPEN: &str = "clinic 1\nrole r: 1 seat; open Mon 07:00-15:00";

/// Texts of one sort of line each, and the exit status of their check.
fn shapes() -> Vec<(&'static str, String, i32)> {
    let long = "x".repeat(LONGEST - 100);
    let deep = |number: usize| " ".repeat(number) + "repeat\n";
    let bound = |number| format!(" new x{number}: k\n send y{number} on x{number}\n");
    let placed = " on r\n off r\n".to_string() + &"\n".repeat(7_900);
    vec![
        (
            "kinds",
            filled("clinic 1\n", |n| format!("kind k{n} carries z\n")),
            2,
        ),
        (
            "users",
            filled("clinic 1\nrole r\n", |n| format!("user u{n}: r, s{n}\n")),
            2,
        ),
        (
            "one name",
            filled("clinic 1\n", |_| "role r\n".to_string()),
            2,
        ),
        (
            "sessions",
            filled("clinic 1\n", |n| format!("session s{n} by u{n}\n")),
            2,
        ),
        ("variables", filled(SESSION, bound), 2),
        ("depth", filled(SESSION, deep), 2),
        (
            "forks",
            filled(&format!("{SESSION} fork\n"), |_| "  branch\n".to_string()),
            2,
        ),
        (
            "lines after a file of zero bytes",
            filled("clinic nothing planned\n", |_| "x\n".to_string()),
            2,
        ),
        ("tabs", filled("clinic 1\n", |_| "\tx\n".to_string()), 2),
        ("a word", format!("clinic 1\nuser {long}"), 2),
        (
            "a line of words",
            "clinic 1\nuser u: ".to_string() + &long.replace("xx", "x "),
            2,
        ),
        (
            "a line of names",
            "clinic 1\nuser u: ".to_string() + &long.replace("xx", "x,"),
            2,
        ),
        (
            "stretches",
            filled(OPEN, |_| ", Mon-Sun 22:00-06:00".to_string()),
            0,
        ),
        (
            "seats",
            filled("clinic 1\n", |n| format!("role r{n}: {n} seats; open x\n")),
            2,
        ),
        ("a comment", format!("clinic 1 # {long}"), 0),
        (
            "blank lines",
            "clinic 1\n".to_string() + &long.replace('x', "\n"),
            0,
        ),
        (
            "comments",
            "clinic 1\n".to_string() + &long.replace("xx", "#\n"),
            0,
        ),
        (
            "steps far apart",
            SESSION.to_string() + &placed.repeat(500),
            0,
        ),
        (
            "a wide step",
            format!(
                "{SESSION} repeat\n  send{}u on c\n",
                " ".repeat(LONGEST - 200)
            ),
            1,
        ),
    ]
}

fn answers_soon(words: &[&str], status: Option<i32>, shape: &str) {
    let begun = Instant::now();
    let answer = pilzdamo(words);
    let taken = begun.elapsed();
    assert!(taken < SOON, "{words:?}, {shape}: {taken:?}");
    assert!((0..=2).contains(&answer.status), "{words:?}, {shape}");
    let due = status.unwrap_or(answer.status);
    assert_eq!(answer.status, due, "{words:?}, {shape}: {}", answer.err);
}

#[test]
fn any_text_is_checked_soon() {
    let folder = Folder::new("quick");
    for (shape, text, status) in shapes() {
        assert!(text.len() <= LONGEST && text.len() > 3_900_000, "{shape}");
        let file = folder.file("long.txt", text);
        answers_soon(&["check", &file], Some(status), shape);
    }
}

#[test]
fn sound_texts_are_answered_soon_by_every_command() {
    let folder = Folder::new("quick calls");
    let booking = example("booking.clinic");
    for (shape, text, status) in shapes() {
        if status == 2 {
            continue;
        }
        let file = folder.file("long.txt", text);
        let calls: [&[&str]; 16] = [
            &["place", &file],
            &["check", &file, "--at", "Mon 12:00"],
            &[
                "pack",
                &file,
                "--names",
                "/dev/null",
                "--hours",
                "/dev/null",
            ],
            &["measure", &file],
            &["show", &file],
            &["show", "--json", &file],
            &["show", "--svg", &file],
            &["strip", &file],
            &["pack", &file],
            &["unpack", &file],
            &["merge", &file, &file],
            &["run", &file, "/dev/null"],
            &["choices", &file, "/dev/null"],
            &["dispatch", &file, "9"],
            &["sheet", &file],
            &["unpack", &booking, "--names", &file],
        ];
        for words in calls {
            answers_soon(words, None, shape);
        }
    }
}

/// Lists, tables and names.
#[test]
fn other_texts_are_answered_soon() {
    let folder = Folder::new("quick lists");
    let (file, bytes) = (example("desks.txt"), example("desks.clinic"));
    for pattern in [
        "x\n",
        "x ",
        "1 0 ",
        "desk ",
        "desk->",
        "desk.1 ",
        "9",
        "role 1 Mon-Sun 22:00-06:00\n",
        "holder 1\n",
        "holde 1\n",
        "holde Mon-Sun 22:00-06:00\n",
    ] {
        let list = folder.file("list", pattern.repeat(LONGEST / pattern.len()));
        let calls: [&[&str]; 6] = [
            &["run", &file, &list],
            &["run", "--trace", &bytes, &list],
            &["choices", &file, &list],
            &["seats", &file, "/dev/null", &list],
            &["check", &file, "--at", "Mon 12:00", "--hours", &list],
            &["unpack", &bytes, "--names", &list],
        ];
        for words in calls {
            answers_soon(words, None, pattern);
        }
    }
    let names = filled("names\n", |n| format!("roles r{n}\nrole r{n}: 1 seat\n"));
    let turned = filled("names\nroles r\n", |n| format!("role r{n}: 1 seat\n"));
    for (shape, names) in [("roles", names), ("unknown roles", turned)] {
        let names = folder.file("names", names);
        answers_soon(&["unpack", &bytes, "--names", &names], Some(2), shape);
    }
}

/// Behind a thousand errors the rest isn't read.
#[test]
fn errors_are_counted_up_to_a_thousand() {
    let folder = Folder::new("quick errors");
    for (errors, due) in [
        (999, "999 errors (979 more)"),
        (1_000, "1000 errors or more"),
        (5_000, "1000 errors or more"),
    ] {
        let file = folder.file(
            "wrong.txt",
            "clinic 1\n".to_string() + &"what\n".repeat(errors),
        );
        let answer = pilzdamo(&["check", &file]);
        assert_eq!(answer.status, 2);
        assert!(
            answer.err.ends_with(&format!("pilzdamo: {file}: {due}\n")),
            "{}",
            answer.err
        );
        assert_eq!(answer.err.lines().count(), 61);
    }
}
