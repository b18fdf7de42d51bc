//! `--not-empty`, and the warning of zero bytes from a pipe.

use crate::common::{example, example_bytes, pilzdamo, pilzdamo_fed, pilzdamo_piped, Folder};
use crate::markdown::page;
use std::process::Command;

const WARNING: &str =
    "pilzdamo: standard input: warning: zero bytes, taken for a clinic with nothing planned; did \
     the command before the pipe fail?\n  --not-empty refuses zero bytes\n";

/// Every call that reads a clinic's file, with this name for it; the other inputs are sound.
fn calls<'a>(file: &'a str, other: &'a str, seats: &'a str) -> Vec<Vec<&'a str>> {
    let list = "/dev/null";
    vec![
        vec!["check", file],
        vec!["check", "--json", file],
        vec!["place", file],
        vec!["measure", file],
        vec!["measure", "--json", file],
        vec!["merge", file, other],
        vec!["merge", other, file],
        vec!["columns", file],
        vec!["rows", file],
        vec!["notice", "0", file],
        vec!["sheet", file],
        vec!["run", file, list],
        vec!["choices", file, list],
        vec!["ready", file, list],
        vec!["waiting", file, list],
        vec!["seats", file, list, seats],
        vec!["round", file, list],
        vec!["dispatch", file],
        vec!["show", file],
        vec!["show", "--json", file],
        vec!["show", "--svg", file],
        vec!["unpack", file],
        vec!["strip", file],
    ]
}

#[test]
fn zero_bytes_are_refused_by_every_command() {
    let folder = Folder::new("not empty");
    let empty = folder.file("empty", "");
    let (other, seats) = (example("booking.clinic"), folder.file("seats", ""));
    let told = |name: &str, more: &str| {
        format!("pilzdamo: {name}: refused: it has no bytes, and --not-empty asks for some\n{more}")
    };
    let by_name = calls(&empty, &other, &seats).into_iter();
    let by_name = by_name.chain([vec!["run", "-i", &empty]]);
    for mut words in by_name {
        words.push("--not-empty");
        let answer = pilzdamo(&words);
        let due = told(&empty, "");
        assert_eq!((answer.status, answer.err), (1, due), "{words:?}");
        assert_eq!(answer.out, b"", "{words:?}");
    }
    for mut words in calls("-", &other, &seats) {
        words.insert(1, "--not-empty");
        let answer = pilzdamo_piped(&words, b"");
        let due = told(
            "standard input",
            "  did the command before the pipe fail?\n",
        );
        assert_eq!((answer.status, answer.err), (1, due), "{words:?}");
        assert_eq!(answer.out, b"", "{words:?}");
    }
}

/// Without it the answer is that for the empty file, after a warning.
#[test]
fn a_pipe_gets_a_warning() {
    let folder = Folder::new("warned");
    let empty = folder.file("empty", "");
    let (other, seats) = (example("booking.clinic"), folder.file("seats", ""));
    let named = calls(&empty, &other, &seats);
    for (words, fed) in named.iter().zip(calls("-", &other, &seats)) {
        // What isn't piped gets none.
        let (named, plain) = (pilzdamo(words), pilzdamo(&fed));
        let fed = pilzdamo_piped(&fed, b"");
        assert_eq!(plain.out, fed.out, "{words:?}");
        let told = fed.err.strip_prefix(WARNING).expect("a warning");
        assert_eq!(plain.err, told, "{words:?}");
        assert_eq!(
            named.err.replace(&empty, "standard input"),
            told,
            "{words:?}"
        );
        assert_eq!(named.status, fed.status, "{words:?}");
    }
}

/// Every call that reads a list or a table, with this name for it.
fn calls_beside<'a>(file: &'a str, other: &'a str) -> Vec<Vec<&'a str>> {
    let list = "/dev/null";
    let mut calls = vec![
        vec!["seats", other, list, file],
        vec!["seats", other, file, list],
        vec!["dispatch", other, "1", "--seats", file],
    ];
    for verb in ["check", "place", "measure"] {
        calls.push(vec![verb, other, "--at", "Mon 07:30", "--hours", file]);
    }
    for verb in ["run", "choices", "ready", "waiting", "round"] {
        calls.push(vec![verb, other, file]);
        calls.push(vec![verb, other, list, "--seats", file]);
    }
    calls
}

/// Lists and tables of zero bytes from a pipe get the warning too, and are refused; those of
/// an ordinary file or the null device may be empty.
#[test]
fn lists_and_tables() {
    let folder = Folder::new("empty tables");
    let (empty, other) = (folder.file("empty", ""), example("hours/desk.txt"));
    for named in ["/dev/null", &empty] {
        let plain = calls_beside(named, &other).into_iter();
        for (mut words, mut fed) in plain.zip(calls_beside("-", &other)) {
            let answer = pilzdamo(&words);
            assert!(
                !answer.err.contains("zero bytes"),
                "{words:?}: {}",
                answer.err
            );
            words.push("--not-empty");
            let asked = pilzdamo(&words);
            assert_eq!((asked.status, &asked.out), (answer.status, &answer.out));
            let piped = pilzdamo_piped(&fed, b"");
            let told = piped
                .err
                .strip_prefix("pilzdamo: standard input: warning: zero bytes, ");
            let told = told.unwrap_or_else(|| panic!("{fed:?}: {}", piped.err));
            assert!(told.starts_with("taken for an empty "), "{told}");
            let failed = "; did the command before the pipe fail?\n  --not-empty refuses zero";
            assert!(told.contains(failed), "{told}");
            assert_eq!((piped.status, piped.out), (answer.status, answer.out));
            fed.push("--not-empty");
            let refused = pilzdamo_piped(&fed, b"");
            assert_eq!((refused.status, refused.text()), (1, ""), "{fed:?}");
            let due = "pilzdamo: standard input: refused: it has no bytes, and --not-empty asks \
                       for some\n  did the command before the pipe fail?\n";
            assert_eq!(refused.err, due, "{fed:?}");
        }
    }
}

/// A pipe may have a name.
#[test]
fn a_pipe_by_its_name() {
    let warning = "pilzdamo: /dev/stdin: warning: zero bytes, taken for a clinic with nothing \
                   planned; did the command that writes it fail?\n  --not-empty refuses zero \
                   bytes\n";
    let answer = pilzdamo_piped(&["check", "/dev/stdin"], b"");
    assert_eq!((answer.status, &*answer.err), (0, warning));
    let refused = pilzdamo_piped(&["check", "/dev/stdin", "--not-empty"], b"");
    let due = "pilzdamo: /dev/stdin: refused: it has no bytes, and --not-empty asks for some\n  \
               did the command that writes it fail?\n";
    assert_eq!((refused.status, &*refused.err), (1, due));
    // The null device is none, by any name.
    let answer = pilzdamo(&["check", "/dev/stdin"]);
    assert_eq!((answer.status, &*answer.err), (0, ""));
    let script = "mkfifo \"$1\" && { : >\"$1\" & \"$0\" check \"$1\"; wait; }";
    let folder = Folder::new("fifo");
    let output = Command::new("sh")
        .args(["-c", script, env!("CARGO_BIN_EXE_pilzdamo")])
        .arg(folder.at("pipe"))
        .output()
        .expect("a shell");
    let told = String::from_utf8(output.stderr).expect("text");
    let named = warning.replace("/dev/stdin", &folder.at("pipe"));
    assert_eq!((output.status.code(), told), (Some(0), named));
}

/// What has bytes is answered as without it: also 26 of them, and a text of nothing planned.
#[test]
fn nothing_else_is_refused() {
    let nothing = [1, 0, 0, 0, 0, 0, 0, 13, 13, 13, 13, 13, 13].map(u16::to_le_bytes);
    for bytes in [
        example_bytes("booking.clinic"),
        example_bytes("spring/cut.txt"),
        b"clinic nothing planned\n".to_vec(),
        nothing.concat(),
        b"x".to_vec(),
    ] {
        let plain = pilzdamo_fed(&["check", "-"], &bytes);
        let asked = pilzdamo_fed(&["check", "-", "--not-empty"], &bytes);
        assert_eq!(
            (plain.status, &plain.out, &plain.err),
            (asked.status, &asked.out, &asked.err)
        );
    }
    // Of several files each gets its answer.
    let folder = Folder::new("several not empty");
    let (empty, cut) = (folder.file("empty", ""), example("spring/cut.clinic"));
    let answer = pilzdamo(&["check", &empty, &cut, "--not-empty"]);
    assert_eq!(
        (answer.status, answer.text()),
        (1, &*format!("{cut}: passes\n"))
    );
}

/// A command that fails before the pipe isn't taken for a clinic.
#[test]
fn a_pipe_that_failed() {
    let script = "\"$0\" place \"$1\" 2>/dev/null | \"$0\" check - --not-empty";
    let output = Command::new("sh")
        .args(["-c", script, env!("CARGO_BIN_EXE_pilzdamo")])
        .arg(example("refused/15-no-role.clinic"))
        .output()
        .expect("a shell");
    assert_eq!((output.status.code(), output.stdout.len()), (Some(1), 0));
}

/// Where a page feeds the command from a pipe, it says how that fails.
#[test]
fn pages_that_pipe() {
    for name in [
        "README.md",
        "docs/CLI.md",
        "docs/FORMAT.md",
        "docs/GUIDE.md",
        "docs/JSON.md",
        "examples/README.md",
        "examples/published/README.md",
    ] {
        let page = page(name);
        let fails = page.contains("set -o pipefail");
        for line in page.lines().filter(|line| line.contains("| ./pilzdamo ")) {
            let typed = line.contains("run -i");
            assert!(
                fails || typed || line.contains("--not-empty"),
                "{name}: {line}"
            );
        }
    }
}
