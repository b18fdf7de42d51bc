//! Operands and options: their forms, `--`, and words that are nearly right.

use crate::common::{example, example_bytes, pilzdamo, pilzdamo_fed, placed, Folder};
use std::fs;

/// Fails as wrong use, with this message.
fn wrong(words: &[&str], due: &str) {
    let answer = pilzdamo(words);
    let help = pilzdamo(&["help", words[0]]).status == 0 && words[0] != "help";
    let way = match help {
        true => format!("pilzdamo help {} says how to use it", words[0]),
        false => "pilzdamo --help lists all commands".to_string(),
    };
    let due = format!("pilzdamo: {due}\n  {way}\n");
    assert_eq!((answer.status, answer.text()), (2, ""), "{words:?}");
    assert_eq!(answer.err, due, "{words:?}");
}

#[test]
fn every_form_of_an_output() {
    let folder = Folder::new("forms");
    let file = example("booking.clinic");
    let out = folder.at("out");
    let (joined, long) = (format!("-o{out}"), format!("--output={out}"));
    let forms: [&[&str]; 4] = [&["-o", &out], &[&joined], &["--output", &out], &[&long]];
    for form in forms {
        for words in [
            [&["place", &file][..], form].concat(),
            [&["place"], form, &[&file]].concat(),
        ] {
            let answer = pilzdamo(&words);
            assert_eq!((answer.status, answer.text()), (0, ""), "{words:?}");
            assert_eq!(fs::read(&out).expect("a file"), placed("booking.clinic"));
            fs::remove_file(&out).expect("it goes");
        }
    }
    for form in [&["-o", "-"][..], &["-o-"], &["--output=-"]] {
        let answer = pilzdamo(&[&["place", &file][..], form].concat());
        assert_eq!(answer.out, placed("booking.clinic"));
    }
}

#[test]
fn every_form_of_the_others() {
    let file = example("hours/by-day.clinic");
    let hours = example("hours/week.hours");
    let due = pilzdamo(&["check", &file, "--at", "Mon 07:30", "--hours", &hours]);
    let joined = format!("--hours={hours}");
    for words in [
        ["check", "--at=Mon 07:30", &joined, &file],
        ["check", &file, &joined, "--at=Mon 07:30"],
    ] {
        let answer = pilzdamo(&words);
        assert_eq!((answer.status, answer.out), (due.status, due.out.clone()));
        assert_eq!(answer.err, due.err);
    }
    let folder = Folder::new("joined");
    let (text, names) = (example("booking.txt"), folder.at("names"));
    let joined = format!("--names={names}");
    assert_eq!(pilzdamo(&["pack", &text, &joined]).status, 0);
    let answer = pilzdamo(&["unpack", &example("booking.clinic"), &joined]);
    assert!(answer.text().contains("scheduler"), "{}", answer.text());
    let answer = pilzdamo(&["pack", &text, "-o", &folder.at("bytes"), "--names=-"]);
    assert_eq!(answer.out, fs::read(&names).expect("names"));
}

#[test]
fn an_option_twice_in_two_forms() {
    for words in [
        ["place", "a", "-ob", "--output=c"],
        ["place", "a", "--output=b", "-oc"],
    ] {
        wrong(&words, "place: -o is given twice");
    }
    wrong(
        &["check", "a", "--at=b", "--at=c"],
        "check: --at is given twice",
    );
    wrong(
        &["round", "a", "b", "--seats=c", "--seats", "d"],
        "round: --seats is given twice",
    );
}

#[test]
fn what_stands_behind_an_option() {
    wrong(
        &["place", "a", "--output"],
        "place: --output needs the name of a file",
    );
    wrong(
        &["sheet", "a", "--json=yes"],
        "sheet: --json takes no value, as in '--json=yes'",
    );
    wrong(&["run", "-ia", "b"], "run has no option '-ia'");
    wrong(
        &["place", "a", "--outputs=b"],
        "place has no option '--outputs=b'",
    );
}

#[test]
fn nothing_is_an_option_behind_two_hyphens() {
    let folder = Folder::new("hyphens");
    folder.file("-o", example_bytes("spring/cut.clinic"));
    let check = |words: &[&str]| {
        let output = std::process::Command::new(env!("CARGO_BIN_EXE_pilzdamo"))
            .args(words)
            .current_dir(folder.path())
            .output()
            .expect("the command ends");
        (
            output.status.code(),
            String::from_utf8_lossy(&output.stdout).to_string(),
        )
    };
    let passes = (Some(0), "-o: passes\n".to_string());
    assert_eq!(check(&["check", "--", "-o"]), passes);
    folder.file("--", example_bytes("spring/cut.clinic"));
    let both = (Some(0), "--: passes\n-o: passes\n".to_string());
    assert_eq!(check(&["check", "--", "--", "-o"]), both);
    wrong(&["place", "--", "a", "-o", "b"], "place: '-o' is too many");
    wrong(&["check", "--"], "check: FILE is missing");
    let answer = pilzdamo_fed(&["check", "--", "-"], &example_bytes("spring/cut.clinic"));
    assert_eq!(answer.text(), "standard input: passes\n");
}

#[test]
fn sentences_and_numbers_may_begin_with_a_hyphen() {
    for words in [["reason", "--", "--help"].as_slice(), &["reason", "-x"]] {
        let answer = pilzdamo(words);
        assert_eq!(answer.status, 1, "{words:?}");
        assert!(answer.err.contains("no refusal has this sentence"));
    }
    let due = "explain: the refusals have the numbers 1 to 28, not '-1'";
    wrong(&["explain", "-1"], due);
    wrong(&["explain", "--", "-1"], due);
}

#[test]
fn nearly_right() {
    wrong(
        &["plaec", "a"],
        "there is no command 'plaec'; did you mean 'place'?",
    );
    wrong(
        &["inforce"],
        "there is no command 'inforce'; did you mean 'in-force'?",
    );
    wrong(&["show-all"], "there is no command 'show-all'");
    wrong(
        &["place", "a", "--ouput", "b"],
        "place has no option '--ouput'; did you mean '--output'?",
    );
    wrong(
        &["check", "a", "-at", "Mon 07:30"],
        "check has no option '-at'; did you mean '--at'?",
    );
    wrong(&["merge", "a", "b", "--jsn"], "merge has no option '--jsn'");
}

#[test]
fn options_that_do_not_go_together() {
    wrong(
        &["show", "a", "--svg", "--json"],
        "show: --svg and --json don't go together",
    );
    wrong(
        &["show", "a", "-o", "b"],
        "show: -o goes with --svg or --json",
    );
    wrong(
        &["run", "a", "b", "--trace", "--json"],
        "run: --trace and --json don't go together",
    );
    for other in ["--trace", "--json"] {
        let due = format!("run: -i and {other} don't go together");
        wrong(&["run", "-i", "a", other], &due);
        wrong(&["run", "a", "b", "--interactive", other], &due);
    }
    wrong(&["run", "-i"], "run: FILE is missing");
    wrong(&["run", "-i", "a", "b", "c"], "run: 'c' is too many");
    for words in [["run", "-i", "-", "b"], ["run", "-i", "a", "-"]] {
        let due = "run: with -i standard input is what is typed, and no file can be it";
        wrong(&words, due);
    }
    wrong(
        &["check", "a", "b", "--names", "c"],
        "check: --names goes with one FILE",
    );
    wrong(
        &["pack", "a", "--names=-"],
        "pack: only one of FILE and NAMES can be standard output",
    );
}

#[test]
fn one_standard_input() {
    for (words, due) in [
        (
            &["check", "-", "a", "-"][..],
            "check: only one FILE can be standard input",
        ),
        (
            &["check", "a", "-", "--at=Mon 07:30", "--hours=-"],
            "check: only one of FILE and HOURS can be standard input",
        ),
        (
            &["seats", "a", "-", "c", "--names", "-"],
            "seats: only one of FILE, CHOICES, SEATS and NAMES can be standard input",
        ),
        (
            &["unpack", "-", "--names=-"],
            "unpack: only one of FILE and NAMES can be standard input",
        ),
        (
            &["ready", "-", "-"],
            "ready: only one of FILE and CHOICES can be standard input",
        ),
    ] {
        wrong(words, due);
    }
}
