//! `help WORD` and `WORD --help`.

use crate::common::pilzdamo;
use std::fs;
use std::path::PathBuf;

fn folder() -> PathBuf {
    [env!("CARGO_MANIFEST_DIR"), "src", "help"].iter().collect()
}

/// The words, as the command lists them where it is given none.
fn words() -> Vec<String> {
    let all = pilzdamo::<&str>(&[]).err;
    let (_, words) = all.split_once("one of ").expect("the words");
    let (words, _) = words.split_once('\n').expect("a line");
    let words = words.replace(" and ", ", ");
    words.split(", ").map(str::to_string).collect()
}

#[test]
fn each_word_has_its_own() {
    let words = words();
    assert!(words.len() >= 23, "{words:?}");
    for word in &words {
        let path = folder().join(format!("{word}.txt"));
        let due = fs::read_to_string(&path).expect("a help");
        for asked in [
            vec!["help", word],
            vec![word, "--help"],
            vec![word, "-h"],
            vec![word, "a", "--help", "b"],
        ] {
            let answer = pilzdamo(&asked);
            assert_eq!((answer.status, answer.text()), (0, &*due), "{asked:?}");
            assert_eq!(answer.err, "", "{asked:?}");
        }
    }
}

#[test]
fn of_no_word() {
    let answer = pilzdamo(&["help", "judge"]);
    assert_eq!((answer.status, answer.text()), (2, ""));
    let due = "pilzdamo: there is no command 'judge'\n";
    assert!(answer.err.starts_with(due), "{}", answer.err);
    let answer = pilzdamo(&["help", "chekc"]);
    assert!(
        answer.err.contains("did you mean 'check'?"),
        "{}",
        answer.err
    );
    let answer = pilzdamo(&["help", "check", "place"]);
    assert!(answer.err.contains("help: 'place' is too many"));
}
