//! What the script `pilzdamo` at the root answers where nothing is built and no toolchain is
//! there: the same as the program.

use crate::common::pilzdamo;
use crate::script::{repository, said, Place};
use std::ffi::OsStr;
use std::fs;
use std::os::unix::ffi::OsStrExt;

/// The words that have a page of help.
pub fn words() -> Vec<String> {
    let pages = fs::read_dir(repository("rust/command/src/help")).expect("a folder");
    let names = pages.map(|page| page.expect("a page").file_name().display().to_string());
    let words = names.map(|name| name.strip_suffix(".txt").expect("a text").to_string());
    words.collect()
}

/// The script answers these words as the program does, and builds nothing.
fn alike(place: &Place, words: &[&str]) {
    let said = place.call(words);
    let due = pilzdamo(words);
    let got = (said.status, said.out.as_str(), said.err.as_str());
    assert_eq!(got, (due.status, due.text(), due.err.as_str()), "{words:?}");
    assert!(!place.at("target").exists(), "{words:?}");
}

#[test]
fn help_and_the_version() {
    let place = Place::new("unbuilt help");
    for words in [&["--help"][..], &["-h"], &["help"], &["--version"], &["-V"]] {
        alike(&place, words);
    }
    for word in words() {
        alike(&place, &["help", &word]);
        alike(&place, &[&word, "--help"]);
        alike(&place, &[&word, "a", "-h", "b"]);
    }
}

#[test]
fn explain() {
    let place = Place::new("unbuilt explain");
    for number in 1..=28 {
        alike(&place, &["explain", &number.to_string()]);
        alike(&place, &["explain", &number.to_string(), "--json"]);
    }
    for word in [
        "007", "+7", "0", "29", "-1", "", "x", "7 ", "7.txt", "70000",
    ] {
        alike(&place, &["explain", word]);
    }
    for words in [
        &["explain"][..],
        &["explain", "7", "8"],
        &["explain", "--json", "7", "--json"],
        &["explain", "7", "--json=1"],
        &["explain", "99", "--json"],
        &["check", "7", "--json=1"],
        &["explain", "--", "7"],
    ] {
        alike(&place, words);
    }
}

#[test]
fn operands_and_options_that_are_not_there() {
    let place = Place::new("unbuilt operands");
    for word in words() {
        if word != "help" {
            alike(&place, &[&word]);
        }
        alike(
            &place,
            &[&word, "--", "a", "b", "c", "d"][..2 + 4 * usize::from(!several(&word))],
        );
    }
    for words in [
        &["check", "a", "--frob"][..],
        &["check", "--frob=a"],
        &["check", "a", "-o", "b"],
        &["place", "-oa", "b", "c"],
        &["place", "--output=a", "--at=b", "--hours", "c", "d", "e"],
        &["place", "-o", "-x", "--", "-a", "-b"],
        &["run", "a", "--seats", "b"],
        &["run", "a", "b", "c"],
        &["in-force", "2026-11-16", "a"],
        &["dispatch", "a", "3", "4"],
        &["help", "check", "a"],
    ] {
        alike(&place, words);
    }
}

#[test]
fn options_that_do_not_fit() {
    let place = Place::new("unbuilt options");
    for words in [
        &["run", "-i"][..],
        &["run", "-i", "a", "b", "c"],
        &["run", "--interactive", "a", "--trace"],
        &["run", "a", "-i", "--json"],
        &["run", "-i=1", "a"],
        &["run", "a", "b", "--trace", "--json"],
        &["check", "--at", "Mon", "a"],
        &["check", "a", "--at", "noon", "--hours", "b"],
        &["measure", "a", "--at", "Sun 24:00", "--hours", "b"],
        &["place", "a", "--at=Mon 07:60", "--hours", "b"],
        &["check", "a", "--at=Mon 07:30 x", "--hours", "b"],
        &["check", "a", "b", "--names", "c"],
        &["measure", "a", "--hours=b"],
        &["place", "a", "--hours", "b"],
        &["place", "a", "--json"],
        &["place", "a", "--json", "-o", "-"],
        &["place", "a", "-o", "b", "--output=c"],
        &["place", "a", "-ob", "-oc"],
        &["place", "a", "-o"],
        &["check", "a", "--at"],
        &["check", "a", "--at", "b", "--at", "c"],
        &["round", "a", "b", "--seats"],
        &["pack", "a", "--seats", "-"],
        &[
            "pack",
            "a",
            "-o",
            "b",
            "--hours=-",
            "--names=-",
            "--seats=-",
        ],
        &["dispatch", "a", "--seats", "b", "--seats", "c"],
        &["ready", "a", "-", "--seats", "-"],
        &["show", "a", "--svg", "--json"],
        &["show", "a", "-o", "b"],
        &["show", "a", "--svg=1"],
    ] {
        alike(&place, words);
    }
    // A word within an option's name is none.
    let said = place.call(&["in-force", "2026-01-01", "f", "g", "-force", "v"]);
    assert_eq!((said.status, said.out.as_str()), (2, ""));
    let due = "pilzdamo: in-force has no option '-force'\n";
    assert!(said.err.starts_with(due), "{}", said.err);
}

#[test]
fn one_standard_input() {
    let place = Place::new("unbuilt inputs");
    for words in [
        &["merge", "-", "-"][..],
        &["check", "-", "a", "-"],
        &["run", "-", "-"],
        &["run", "-", "a", "--seats=-"],
        &["run", "-", "-", "c"],
        &["run", "a", "-", "--names", "b", "--seats", "-"],
        &["seats", "a", "-", "-"],
        &["dispatch", "-", "3", "--seats", "-"],
        &["in-force", "x", "-", "-"],
        &["place", "-", "--hours", "-", "--names", "-"],
        &["run", "-i", "-"],
        &["run", "-i", "a", "-"],
        &["run", "-i", "a", "--seats", "-"],
        &["run", "-i", "-", "-"],
        &["pack", "a", "--names", "-"],
        &["pack", "a", "-o", "-", "--names", "-"],
        &["pack", "--names", "-"],
    ] {
        alike(&place, words);
    }
}

#[test]
fn more_files_than_a_sheet_has() {
    let place = Place::new("unbuilt sheet");
    let mut words = vec!["a"; 1_002];
    words[0] = "sheet";
    alike(&place, &words);
}

#[test]
fn days_and_rounds() {
    let place = Place::new("unbuilt days");
    for day in [
        "foo",
        "",
        "65536",
        "99999999999999999999",
        "+1",
        "1 ",
        "1999-12-31",
        "2179-06-07",
        "2026-02-29",
        "2100-02-29",
        "2026-04-31",
        "2026-13-01",
        "2026-00-10",
        "2026-08-00",
        "2026-8-09",
        "a\u{1b}\\",
    ] {
        alike(&place, &["notice", day, "x"]);
        alike(&place, &["in-force", day, "a", "b"]);
    }
    for rounds in ["y", "0", "000", "65536", "+2", "", "it's", "\u{9b}2J"] {
        alike(&place, &["dispatch", "x", rounds]);
    }
}

/// Whether a word takes as many files as there are.
fn several(word: &str) -> bool {
    matches!(word, "check" | "sheet")
}

/// All words are named, those of the script too.
#[test]
fn a_word_that_is_not_there() {
    let place = Place::new("unbuilt word");
    for typed in [
        &["chekc", "a"][..],
        &["help", "chekc"],
        &["chekc", "--help"],
    ] {
        let said = place.call(typed);
        assert_eq!((said.status, said.out.as_str()), (2, ""));
        let due = "pilzdamo: there is no command 'chekc'; the commands are check, ";
        assert!(said.err.starts_with(due), "{}", said.err);
        let (line, _) = said.err.split_once('\n').expect("a line");
        for word in words()
            .iter()
            .map(String::as_str)
            .chain(["build", "install"])
        {
            let named = line.split([' ', ',']).any(|it| it == word);
            assert!(named, "{word}: {line}");
        }
        assert!(!place.at("target").exists());
    }
    for word in ["../help", "check.txt", "/", ".", "--frob", ""] {
        let said = place.call(&[word]);
        let due = format!("pilzdamo: there is no command '{word}'; ");
        assert!(
            said.status == 2 && said.err.starts_with(&due),
            "{}",
            said.err
        );
    }
}

/// What was typed is said without its control characters.
#[test]
fn control_characters() {
    let place = Place::new("unbuilt control");
    let typed = "a\u{1b}[31mb\nc";
    for words in [
        &["explain", typed][..],
        &["place", "a", typed],
        &[
            "place",
            "a",
            "it's \u{e9}\u{9b}\u{7f}\\\t\r \u{65e5}\u{1f6cf}",
        ],
    ] {
        alike(&place, words);
    }
    // Bytes that are no characters, in every language that the caller may have.
    for language in ["C", "C.UTF-8"] {
        let mut call = place.command(&place.at("pilzdamo"));
        let word = OsStr::from_bytes(b"a\xff\x9b \xc2");
        let said = said(call.args(["place", "a"]).arg(word).env("LC_ALL", language));
        let due = "pilzdamo: place: 'a\\xff\\x9b \\xc2' is too many\n";
        assert!(said.err.starts_with(due), "{}", said.err);
    }
    for words in [&[typed][..], &["help", typed]] {
        let said = place.call(words);
        assert_eq!((said.status, said.err.lines().count()), (2, 2));
        assert!(!said.err.contains('\u{1b}'), "{}", said.err);
    }
}

#[test]
fn a_full_disk() {
    let place = Place::new("unbuilt full");
    for words in [
        &["--help"][..],
        &["help", "run"],
        &["explain", "3"],
        &["-V"],
    ] {
        let Ok(full) = fs::File::options().write(true).open("/dev/full") else {
            return;
        };
        let mut call = place.command(&place.at("pilzdamo"));
        let said = said(call.args(words).stdout(full));
        let due = "pilzdamo: standard output can't be written\n";
        assert_eq!((said.status, said.err.as_str()), (2, due), "{words:?}");
    }
}

#[test]
fn no_words() {
    let place = Place::new("unbuilt none");
    let said = place.call(&[]);
    let help = fs::read_to_string(repository("rust/command/src/help.txt")).expect("a page");
    assert_eq!((said.status, said.out, said.err), (2, String::new(), help));
}

/// Arguments that aren't known to be wrong ask for what a build needs.
#[test]
fn words_that_are_right() {
    let place = Place::new("unbuilt right");
    for words in [
        &["check", "a", "b", "c"][..],
        &["check", "--", "--frob"],
        &["place", "a", "-o", "-x"],
        &["place", "a", "-o", "--help.txt"],
        &["place", "-ob", "--bytes", "a"],
        &["run", "-i", "a"],
        &["run", "a", "--interactive"],
        &["run", "a", "b", "--seats=c"],
        &["reason", "--frob"],
        &["dispatch", "a"],
        &["dispatch", "a", "065535"],
        &[
            "dispatch",
            "a",
            "--seats=b",
            "3",
            "--names",
            "c",
            "--sparing",
        ],
        &["merge", "a", "b", "--bytes"],
        &[
            "pack", "a", "-ob", "--names", "c", "--seats", "d", "--hours", "e",
        ],
        &["run", "-i", "a", "b", "--seats", "c"],
        &["check", "a", "--at", "Mon 07:30", "--hours", "b"],
        &["check", "a", "--at", " tue \u{a0}7:30 ", "--hours", "b"],
        &["place", "a", "--json", "-ob"],
        &["place", "a", "--force", "--force"],
        &["show", "a", "--svg", "-o", "b"],
        &["notice", "2024-02-29", "a"],
        &["notice", "2000-01-01", "a"],
        &["in-force", "2179-06-06", "a", "b"],
        &["in-force", "00065535", "a", "b"],
    ] {
        let said = place.call(words);
        assert_eq!((said.status, said.out.as_str()), (3, ""), "{words:?}");
        assert!(said.err.contains("there is no 'rt'"), "{}", said.err);
    }
}
