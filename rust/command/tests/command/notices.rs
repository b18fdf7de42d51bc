//! `notice DATE FILE` and `in-force DAY NOTICE NOTICE`.

use crate::common::{example, example_bytes, pilzdamo, pilzdamo_fed, sentence, Answer, Folder};
use crate::files;
use std::fs;

fn november() -> String {
    example("notices/november.notice")
}

fn december() -> String {
    example("notices/december.notice")
}

fn in_force(day: &str, first: &str, second: &str) -> Answer {
    pilzdamo(&["in-force", day, first, second])
}

const IN_NOVEMBER: &str = "notice 1 is in force on 2026-11-15 (day 9815), \
    since 2026-11-01 (day 9801), a file of 82 bytes";

#[test]
fn a_notice_is_made() {
    let folder = Folder::new("notice");
    let (booking, out) = (example("booking.clinic"), folder.at("a notice"));
    for date in ["2026-11-01", "9801"] {
        let answer = pilzdamo(&["notice", date, &booking]);
        assert_eq!((answer.status, answer.out), (0, files::november()));
        let told = "a notice from 2026-11-01 (day 9801) on, 86 bytes";
        assert_eq!(answer.err, format!("{booking}: {told}\n"));
        let answer = pilzdamo(&["notice", date, &booking, "-o", &out]);
        assert_eq!((answer.status, answer.text()), (0, ""));
        assert_eq!(answer.err, format!("{booking}: {told} in {out}\n"));
        assert_eq!(fs::read(&out).unwrap(), files::november());
    }
    let answer = pilzdamo_fed(&["notice", "2000-01-01", "-"], b"");
    assert_eq!((answer.status, &answer.out[..]), (0, &[0; 4][..]));
    let planned = "4 bytes (zero bytes: nothing is planned)";
    let due = format!("standard input: a notice from 2000-01-01 (day 0) on, {planned}\n");
    assert_eq!(answer.err, due);
}

/// A refused file makes no notice, and a file isn't written over.
#[test]
fn no_notice_is_made() {
    let folder = Folder::new("no-notice");
    let wrong = example("refused/10-kinds.clinic");
    let out = folder.at("a notice");
    let answer = pilzdamo(&["notice", "0", &wrong, "-o", &out]);
    assert_eq!((answer.status, answer.text()), (1, ""));
    let due = format!("pilzdamo: {wrong}: {}\n", sentence(10, "node 2, a receive"));
    assert!(answer.err.starts_with(&due), "{}", answer.err);
    assert!(fs::read(&out).is_err());
    // What 11 to 13 refuse is no matter.
    let answer = pilzdamo(&["notice", "0", &example("refused/13-role.clinic")]);
    assert_eq!(answer.status, 0, "{}", answer.err);
    let file = folder.file("a.clinic", example_bytes("booking.clinic"));
    let answer = pilzdamo(&["notice", "0", &file, "-o", &file]);
    assert_eq!((answer.status, answer.text()), (2, ""));
    assert!(answer.err.contains("an input is not written over"));
    assert_eq!(fs::read(&file).unwrap(), example_bytes("booking.clinic"));
}

#[test]
fn the_plan_in_force() {
    let (november, december) = (november(), december());
    for day in ["2026-11-15", "9815"] {
        let answer = in_force(day, &november, &december);
        assert_eq!((answer.status, answer.err.as_str()), (0, ""));
        assert_eq!(answer.text(), format!("{november}: {IN_NOVEMBER}\n"));
    }
    let due = |name: &str, number, day| {
        format!(
            "{name}: notice {number} is in force on {day}, since 2026-12-01 (day 9831), a file of \
             150 bytes\n"
        )
    };
    let answer = in_force("2026-12-01", &november, &december);
    assert_eq!(answer.text(), due(&december, 2, "2026-12-01 (day 9831)"));
    let answer = in_force("2027-01-01", &december, &november);
    assert_eq!(answer.text(), due(&december, 1, "2027-01-01 (day 9862)"));
    let answer = in_force("2026-11-30", &december, &november);
    let due = format!("{november}: notice 2 is in force on 2026-11-30 (day 9830), since");
    assert!(answer.text().starts_with(&due), "{}", answer.text());
}

#[test]
fn its_file() {
    let folder = Folder::new("in-force");
    let (november, december) = (november(), december());
    let (file, out) = (example_bytes("booking.clinic"), folder.at("the file"));
    let words = ["in-force", "2026-11-15", &november, &december, "-o", &out];
    let answer = pilzdamo(&words);
    assert_eq!((answer.status, answer.text()), (0, ""));
    assert_eq!(answer.err, format!("{november}: {IN_NOVEMBER} in {out}\n"));
    assert_eq!(fs::read(&out).unwrap(), file);
    let words = ["in-force", "-o", "-", "2026-11-15", "-", &december];
    let answer = pilzdamo_fed(&words, &files::november());
    assert_eq!((answer.status, &answer.out), (0, &file));
    assert_eq!(answer.err, format!("standard input: {IN_NOVEMBER}\n"));
}

/// Neither notice is written over, by whatever name or link.
#[test]
fn over_neither_notice() {
    let folder = Folder::new("over-neither");
    let first = folder.file("first", files::november());
    let second = folder.file("second", files::december());
    let link = folder.at("link");
    std::os::unix::fs::symlink(&second, &link).expect("a link");
    for out in [&first, &second, &link] {
        let answer = pilzdamo(&["in-force", "2026-11-15", &first, &second, "-o", out]);
        assert_eq!((answer.status, answer.text()), (2, ""));
        assert!(answer.err.contains("an input is not written over"));
    }
    assert_eq!(fs::read(&first).unwrap(), files::november());
    assert_eq!(fs::read(&second).unwrap(), files::december());
    // Nothing is written that wasn't asked for.
    assert_eq!(in_force("2026-11-15", &first, &second).status, 0);
}

#[test]
fn nothing_planned() {
    let folder = Folder::new("notice-of-nothing");
    let none = folder.file("none", [7, 0, 0, 0]);
    let answer = in_force("2000-01-08", &none, &none);
    let due = format!(
        "{none}: notice 2 is in force on 2000-01-08 (day 7), since 2000-01-08 (day 7), a file of \
         0 bytes (zero bytes: nothing is planned)\n"
    );
    assert_eq!((answer.status, answer.text()), (0, due.as_str()));
}

/// The message of a refusal: its name, sentence, and the lines between it and the last.
fn message(name: &str, number: u16, place: &str, lines: &str, who: &str) -> String {
    format!(
        "pilzdamo: {name}: {}\n  {lines}\n  {who} can mend it; more: pilzdamo explain {number}\n",
        sentence(number, place)
    )
}

#[test]
fn unsound_notices() {
    let folder = Folder::new("unsound");
    let sound = november();
    let short = folder.file("short", [1, 2, 3]);
    let longer = folder.file("longer", [1, 0, 0, 0, 9]);
    let wrong = [&[0, 0, 1, 0], &[1][..]].concat();
    let wrong = folder.file("wrong", wrong);
    let refused = example_bytes("refused/10-kinds.clinic");
    let length = (refused.len() as u16).to_le_bytes();
    let kinds = folder.file("kinds", [&[0, 0], &length[..], &refused].concat());
    let kinds_line = format!(
        "its file: {}\n  node 2: receive variable 1 on channel 2\n  user 1 receives on channel 2, and its owner is user 2",
        sentence(10, "node 2, a receive")
    );
    let one_line = format!(
        "its file: {}\n  it has 1 byte, and its head alone has 26",
        sentence(1, "")
    );
    let cut = example("refused/27-cut.notice");
    for (notice, line) in [
        (
            &short,
            "it has 3 bytes, and its first day and length alone have 4",
        ),
        (
            &longer,
            "its length word is 0, and the number of bytes after it is 1",
        ),
        (
            &cut,
            "its length word is 150, and the number of bytes after it is 149",
        ),
        (&wrong, &one_line),
        (&kinds, &kinds_line),
    ] {
        let who = "the notice's sender";
        // Before any day is looked at.
        let answer = in_force("0", &sound, notice);
        assert_eq!((answer.status, answer.text()), (1, ""));
        assert_eq!(answer.err, message(notice, 27, "notice 2", line, who));
        let answer = in_force("2026-11-15", notice, &short);
        assert_eq!((answer.status, answer.text()), (1, ""));
        assert_eq!(answer.err, message(notice, 27, "notice 1", line, who));
    }
}

#[test]
fn neither_has_begun() {
    let folder = Folder::new("not-begun");
    let (november, december) = (november(), december());
    let out = folder.at("the file");
    let names = format!("{november}, {december}");
    let lines = "notice 1 begins on 2026-11-01 (day 9801)\n  \
                 notice 2 begins on 2026-12-01 (day 9831)";
    let words = ["in-force", "2026-10-31", &november, &december, "-o", &out];
    let answer = pilzdamo(&words);
    assert_eq!((answer.status, answer.text()), (1, ""));
    assert_eq!(answer.err, message(&names, 28, "", lines, "the caller"));
    assert!(fs::read(&out).is_err());
}
