//! `reason SENTENCE`.

use crate::common::{pilzdamo, sentence};

/// What is printed for a sentence.
fn read(sentence: &str) -> String {
    let answer = pilzdamo(&["reason", sentence]);
    assert_eq!((answer.status, answer.err.as_str()), (0, ""), "{sentence}");
    answer.text().to_string()
}

#[test]
fn sentences() {
    for (words, due) in [
        (
            "Refused 13: no active role permits the step at node 4, a send.",
            "number: 13\ncounts: nodes\nplace: 4\ntag: 6, a send\n",
        ),
        (
            "Refused 3: a count is out of range; no place.",
            "number: 3\ncounts: nothing\nplace: 0\ntag: none\n",
        ),
        (
            "Refused 13: no active role permits the step at choice 65535.",
            "number: 13\ncounts: choices\nplace: 65535\ntag: none\n",
        ),
        (
            "Refused 24: the role put on is closed at that minute at node 1.",
            "number: 24\ncounts: nodes\nplace: 1\ntag: none\n",
        ),
    ] {
        assert_eq!(read(words), due);
    }
    let others = [
        (6, "word 27", "words"),
        (7, "session 2", "sessions"),
        (23, "row 6", "rows"),
        (26, "session 2", "sessions"),
        (26, "choice 7", "choices"),
        (27, "notice 2", "notices"),
    ];
    for (number, place, counts) in others {
        let text = read(&sentence(number, place));
        assert!(text.contains(&format!("counts: {counts}\n")), "{text}");
    }
}

/// Every tag, by its number and its words.
#[test]
fn tags() {
    let tags = [
        "an end",
        "a fork",
        "a repeat",
        "a new channel",
        "a compare",
        "a receive",
        "a send",
        "an on",
        "an off",
    ];
    for (tag, words) in tags.iter().enumerate() {
        let text = read(&sentence(15, &format!("node 9, {words}")));
        let due = format!("number: 15\ncounts: nodes\nplace: 9\ntag: {tag}, {words}\n");
        assert_eq!(text, due);
    }
}

#[test]
fn other_words() {
    for words in [
        "",
        "-",
        "-o",
        "Refused 13",
        "refused 13 4",
        "Refused 13: no active role permits the step at node 4.",
        "Refused 13: no active role permits the step at node 4, a send. ",
        "Refused 13: no active role permits the step at node 04, a send.",
        "Refused 29: no active role permits the step at node 4, a send.",
    ] {
        let answer = pilzdamo(&["reason", words]);
        assert_eq!((answer.status, answer.text()), (1, ""), "{words}");
        let due = format!("pilzdamo: no refusal has this sentence: '{words}'\n");
        assert!(answer.err.starts_with(&due), "{}", answer.err);
        let form = "from \"Refused\" to the full stop, in quotes\n";
        assert!(answer.err.ends_with(form), "{}", answer.err);
    }
}

#[cfg(unix)]
#[test]
fn words_that_are_no_text() {
    use std::ffi::OsStr;
    use std::os::unix::ffi::OsStrExt;
    let words = OsStr::from_bytes(b"Refused \xff");
    let answer = pilzdamo(&[OsStr::new("reason"), words]);
    assert_eq!((answer.status, answer.text()), (1, ""));
}
