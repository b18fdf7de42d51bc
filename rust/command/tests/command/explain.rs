//! `explain N`.

use crate::common::pilzdamo as call;
use std::fs;
use std::path::PathBuf;

#[test]
fn every_refusal_is_explained() {
    let who = |number| match number {
        1..=5 => "the file's writer",
        6 | 21 | 25 => "the schema's keeper",
        7..=16 | 24 => "the routine's author",
        27 => "the notice's sender",
        _ => "the caller",
    };
    let counts = |number| match number {
        6 | 21 => "words",
        7 | 26 => "sessions",
        8..=15 | 24 => "nodes",
        18..=20 => "choices",
        23 => "rows",
        27 => "notices",
        _ => "nothing",
    };
    for number in 1..=28 {
        let answer = call(&["explain", &number.to_string()]);
        assert_eq!((answer.status, answer.err.as_str()), (0, ""));
        let text = answer.text();
        // The engine's phrase, over two lines where it is long.
        let (phrase, _) = text.split_once("\n\n").expect("a line behind it");
        let words: Vec<&str> = phrase.split_whitespace().collect();
        assert_eq!(Some(words.join(" ")), pilzdamo::meaning(number));
        let place = format!("\nthe place counts: {}", counts(number));
        assert!(text.contains(&place), "{text}");
        let mends = format!("\nwho can mend it: {}\n", who(number));
        assert!(text.contains(&mends), "{text}");
        assert!(text.contains("\nwhat is wrong: "), "{text}");
        assert!(text.contains("\nhow to mend it: "), "{text}");
        assert!(text.lines().all(|line| line.len() <= 80), "{text}");
    }
}

#[test]
fn no_other_number() {
    for word in ["0", "29", "-", "-1", "x", "13 ", "65536", "1.0"] {
        let answer = call(&["explain", word]);
        assert_eq!((answer.status, answer.text()), (2, ""), "{word}");
        assert!(
            answer.err.contains("the refusals have the numbers 1 to 28"),
            "{word}"
        );
    }
}

/// The text that the script at the root prints where the program isn't built.
fn kept(number: u16) -> PathBuf {
    let folder = concat!(env!("CARGO_MANIFEST_DIR"), "/src/explain");
    format!("{folder}/{number}.txt").into()
}

#[test]
fn the_kept_texts_are_what_the_program_prints() {
    for number in 1..=28 {
        let text = fs::read_to_string(kept(number)).expect("a text");
        assert_eq!(call(&["explain", &number.to_string()]).text(), text);
    }
    let folder = fs::read_dir(kept(1).with_file_name("")).expect("a folder");
    assert_eq!(folder.count(), 28);
}

/// `cargo test -p command -- --ignored write_the_kept_texts`
#[test]
#[ignore = "writes the texts anew"]
fn write_the_kept_texts() {
    for number in 1..=28 {
        let text = call(&["explain", &number.to_string()]).out;
        fs::write(kept(number), text).expect("it can be written");
    }
}
