//! Words that can't be understood, and files that can't be read.

use crate::common::{example, pilzdamo, Folder};

#[test]
fn help_and_version() {
    let help = include_str!("../../src/help.txt");
    for words in [vec!["--help"], vec!["-h"], vec!["help"]] {
        let answer = pilzdamo(&words);
        assert_eq!(
            (answer.status, answer.text(), answer.err.as_str()),
            (0, help, "")
        );
    }
    let version = concat!("pilzdamo ", env!("CARGO_PKG_VERSION"), "\n");
    assert_eq!(pilzdamo(&["--version"]).text(), version);
}

#[test]
fn words() {
    let wrong: [(&[&str], &str); 92] = [
        (&[], "no command; one of check, "),
        (&[""], "there is no command ''"),
        (&["judge", "a"], "there is no command 'judge'"),
        (&["--verbose"], "there is no command '--verbose'"),
        (&["check"], "check: FILE is missing"),
        (&["check", "-x"], "check has no option '-x'"),
        (&["check", "a", "-o", "b"], "check has no option '-o'"),
        (&["place"], "place: FILE is missing"),
        (&["place", "-o"], "place: -o needs the name of a file"),
        (&["place", "a", "b"], "place: 'b' is too many"),
        (
            &["place", "a", "-o", "b", "-o", "c"],
            "place: -o is given twice",
        ),
        (
            &["check", "a", "--at", "noon"],
            "check: --at needs a day and a time such as \"Mon 07:30\", not 'noon'",
        ),
        (
            &["place", "a", "--hours", "b"],
            "place: --hours goes with --at TIME",
        ),
        (
            &["check", "a", "--at", "noon", "--hours", "b"],
            "check: --at needs a day and a time such as \"Mon 07:30\", not 'noon'",
        ),
        (
            &["place", "a", "--at", "Sun 24:00", "--hours", "b"],
            "place: --at needs a day and a time such as \"Mon 07:30\", not 'Sun 24:00'",
        ),
        (
            &["check", "a", "--at"],
            "check: --at needs a day and a time",
        ),
        (
            &["place", "a", "--hours"],
            "place: --hours needs the name of a file",
        ),
        (
            &["check", "a", "--at", "b", "--at", "c"],
            "check: --at is given twice",
        ),
        (
            &["check", "a", "--hours", "b", "--hours", "c"],
            "check: --hours is given twice",
        ),
        (
            &["check", "-", "--at", "Mon 07:30", "--hours", "-"],
            "check: only one of FILE and HOURS can be standard input",
        ),
        (&["run", "--at", "Mon 07:30"], "run has no option '--at'"),
        (
            &["show", "a", "--hours", "b"],
            "show has no option '--hours'",
        ),
        (&["measure"], "measure: FILE is missing"),
        (&["measure", "a", "-o", "b"], "measure has no option '-o'"),
        (
            &["measure", "a", "--hours", "b"],
            "measure: --hours goes with --at TIME",
        ),
        (&["merge"], "merge: A is missing"),
        (&["merge", "a"], "merge: B is missing"),
        (&["merge", "a", "-o", "b"], "merge: B is missing"),
        (&["merge", "a", "b", "c"], "merge: 'c' is too many"),
        (
            &["merge", "-", "-"],
            "merge: only one of A and B can be standard input",
        ),
        (
            &["merge", "a", "b", "-o"],
            "merge: -o needs the name of a file",
        ),
        (
            &["merge", "-o", "c", "a", "b", "-o", "c"],
            "merge: -o is given twice",
        ),
        (
            &["merge", "a", "b", "--at", "Mon 07:30"],
            "merge has no option '--at'",
        ),
        (&["notice"], "notice: DATE is missing"),
        (&["notice", "0"], "notice: FILE is missing"),
        (&["notice", "0", "a", "b"], "notice: 'b' is too many"),
        (
            &["notice", "0", "a", "-o"],
            "notice: -o needs the name of a file",
        ),
        (
            &["notice", "1999-12-31", "a"],
            "notice: DATE is a date from 2000-01-01 to 2179-06-06, or a number of days from 0 to \
             65535, not '1999-12-31'",
        ),
        (
            &["notice", "2026-02-29", "a"],
            "notice: DATE is a date from 2000-01-01 to 2179-06-06, or a number of days from 0 to \
             65535, not '2026-02-29'",
        ),
        (&["in-force"], "in-force: DAY is missing"),
        (&["in-force", "0"], "in-force: NOTICE is missing"),
        (&["in-force", "0", "a"], "in-force: NOTICE is missing"),
        (
            &["in-force", "0", "a", "b", "c"],
            "in-force: 'c' is too many",
        ),
        (
            &["in-force", "2179-06-07", "a", "b"],
            "in-force: DAY is a date from 2000-01-01 to 2179-06-06, or a number of days from 0 to \
             65535, not '2179-06-07'",
        ),
        (
            &["in-force", "65536", "a", "b"],
            "in-force: DAY is a date from 2000-01-01 to 2179-06-06, or a number of days from 0 to \
             65535, not '65536'",
        ),
        (
            &["in-force", "0", "-", "-"],
            "in-force: only one NOTICE can be standard input",
        ),
        (
            &["in-force", "0", "a", "b", "-o"],
            "in-force: -o needs the name of a file",
        ),
        (
            &["in-force", "0", "a", "b", "--at", "Mon 07:30"],
            "in-force has no option '--at'",
        ),
        (&["sheet"], "sheet: FILE is missing"),
        (&["sheet", "--json"], "sheet: FILE is missing"),
        (
            &["sheet", "-", "a", "-"],
            "sheet: only one FILE can be standard input",
        ),
        (&["sheet", "a", "-o", "b"], "sheet has no option '-o'"),
        (&["run"], "run: FILE is missing"),
        (&["run", "a"], "run: CHOICES is missing"),
        (&["run", "a", "b", "c"], "run: 'c' is too many"),
        (
            &["run", "-", "-"],
            "run: only one of FILE and CHOICES can be standard input",
        ),
        (&["waiting"], "waiting: FILE is missing"),
        (&["waiting", "a"], "waiting: CHOICES is missing"),
        (&["waiting", "a", "b", "1"], "waiting: '1' is too many"),
        (
            &["waiting", "-", "-"],
            "waiting: only one of FILE and CHOICES can be standard input",
        ),
        (
            &["waiting", "a", "b", "--at", "Mon 07:30"],
            "waiting has no option '--at'",
        ),
        (&["seats"], "seats: FILE is missing"),
        (&["seats", "a"], "seats: CHOICES is missing"),
        (&["seats", "a", "b", "c", "d"], "seats: 'd' is too many"),
        (
            &["seats", "-", "b", "-"],
            "seats: only one of FILE, CHOICES and SEATS can be standard input",
        ),
        (
            &["seats", "a", "b", "--seats", "c"],
            "seats has no option '--seats'",
        ),
        (
            &["run", "a", "b", "--seats"],
            "run: --seats needs the name of a file",
        ),
        (
            &["run", "--seats", "c", "a", "b", "--seats", "c"],
            "run: --seats is given twice",
        ),
        (&["run", "a", "--seats", "c"], "run: CHOICES is missing"),
        (
            &["run", "a", "-", "--seats", "-"],
            "run: only one of FILE, CHOICES and SEATS can be standard input",
        ),
        (
            &["round", "-", "b", "--seats", "-"],
            "round: only one of FILE, CHOICES and SEATS can be standard input",
        ),
        (
            &["waiting", "a", "-", "--seats=-"],
            "waiting: only one of FILE, CHOICES and SEATS can be standard input",
        ),
        (&["round"], "round: FILE is missing"),
        (&["round", "a"], "round: CHOICES is missing"),
        (&["round", "a", "b", "c"], "round: 'c' is too many"),
        (
            &["round", "-", "-"],
            "round: only one of FILE and CHOICES can be standard input",
        ),
        (&["round", "a", "b", "-o"], "round has no option '-o'"),
        (&["dispatch"], "dispatch: FILE is missing"),
        (&["dispatch", "a", "2", "3"], "dispatch: '3' is too many"),
        (
            &["dispatch", "a", "0"],
            "dispatch: ROUNDS is a number from 1 to 65535, not '0'",
        ),
        (
            &["dispatch", "a", "65536"],
            "dispatch: ROUNDS is a number from 1 to 65535, not '65536'",
        ),
        (
            &["dispatch", "a", "+2"],
            "dispatch: ROUNDS is a number from 1 to 65535, not '+2'",
        ),
        (
            &["dispatch", "a", "all"],
            "dispatch: ROUNDS is a number from 1 to 65535, not 'all'",
        ),
        (
            &["dispatch", "a", "--at", "Mon 07:30"],
            "dispatch has no option '--at'",
        ),
        (
            &["pack", "a", "-o", "b", "--seats", "-", "--hours", "-"],
            "pack: only one of SEATS and HOURS can be standard output",
        ),
        (
            &["seats", "a", "b", "--seats=c"],
            "seats has no option '--seats=c'; SEATS is its third operand\n",
        ),
        (&["show"], "show: FILE is missing"),
        (&["show", "a", "b"], "show: 'b' is too many"),
        (&["explain"], "explain: N is missing"),
        (&["explain", "1", "2"], "explain: '2' is too many"),
        (&["reason"], "reason: SENTENCE is missing"),
        (&["reason", "Refused", "3:"], "reason: '3:' is too many"),
    ];
    for (words, due) in wrong {
        let answer = pilzdamo(words);
        assert_eq!((answer.status, answer.text()), (2, ""), "{words:?}");
        assert!(
            answer.err.starts_with(&format!("pilzdamo: {due}")),
            "{}",
            answer.err
        );
        // A command that is known has a help of its own.
        let way = match words.first() {
            Some(&word) if word != "help" && pilzdamo(&["help", word]).status == 0 => {
                format!("\n  pilzdamo help {word} says how to use it\n")
            }
            _ => "\n  pilzdamo --help lists all commands\n".to_string(),
        };
        assert!(answer.err.ends_with(&way), "{}", answer.err);
    }
}

#[test]
fn files_that_cannot_be_read() {
    let folder = Folder::new("unreadable");
    let absent = folder.at("no such file");
    let here = folder.path().display().to_string();
    let sound = example("booking.clinic");
    let list = example("desks.choices");
    for (file, why) in [
        (&absent, "there is no such file or folder"),
        (&here, "it is a folder"),
    ] {
        let due = format!("pilzdamo: {file}: can't be read: {why}\n");
        let uses: [&[&str]; 25] = [
            &["check", file],
            &["place", file],
            &["measure", file],
            &["check", &sound, "--at", "Mon 07:30", "--hours", file],
            &["place", &sound, "--at", "Mon 07:30", "--hours", file],
            &["show", file],
            &["merge", file, &sound],
            &["merge", &sound, file],
            &["sheet", file],
            &["sheet", &sound, file, &sound],
            &["notice", "0", file],
            &["in-force", "0", file, &sound],
            &["in-force", "0", &sound, file],
            &["run", file, &sound],
            &["run", &sound, file],
            &["waiting", file, &sound],
            &["waiting", &sound, file],
            &["seats", file, &sound, &sound],
            &["seats", &example("desks.clinic"), file, &sound],
            &["seats", &sound, &list, file],
            &["run", &sound, &list, "--seats", file],
            &["round", &sound, &list, "--seats", file],
            &["round", file, &sound],
            &["round", &sound, file],
            &["dispatch", file],
        ];
        for words in uses {
            let answer = pilzdamo(words);
            assert_eq!((answer.status, answer.text()), (2, ""), "{words:?}");
            assert_eq!(answer.err, due);
        }
    }
}

#[cfg(unix)]
#[test]
fn names_that_are_no_text() {
    use std::ffi::OsStr;
    use std::os::unix::ffi::OsStrExt;
    let name = OsStr::from_bytes(b"/no/such/\xff\xfe");
    let answer = pilzdamo(&[OsStr::new("check"), name]);
    assert_eq!(answer.status, 2);
    assert_eq!(pilzdamo(&[name]).status, 2);
    assert_eq!(pilzdamo(&[OsStr::new("explain"), name]).status, 2);
}
