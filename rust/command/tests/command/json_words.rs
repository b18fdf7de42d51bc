//! `--json` of `explain` and `sheet`, of files with any name, and in wrong use.

use crate::common::{example, pilzdamo, pilzdamo_fed, Folder};
use crate::json::{object, Value};
use crate::json_answers::{bytes, examples};
use std::ffi::OsString;
use std::fs;
use std::os::unix::ffi::OsStringExt;

/// Whatever a file is called, its name is a string.
#[test]
fn names_of_files() {
    let folder = Folder::new("json names");
    let booking = fs::read(example("booking.clinic")).unwrap();
    for name in [
        "a \"b\"",
        "back\\slash",
        "two\nlines\tand\u{1b}[1m",
        "späť 🛏 \u{2028}\u{7f}",
    ] {
        let path = folder.file(name, &booking);
        let told = object(&pilzdamo(&["measure", &path, "--json"]));
        assert_eq!(told["file"].text(), path);
    }
    let mut path = folder.at("").into_bytes();
    path.extend(b"no\xffUTF-8");
    let path = OsString::from_vec(path);
    fs::write(&path, &booking).unwrap();
    let words = ["measure".into(), "--json".into(), path];
    let told = object(&pilzdamo::<OsString>(&words));
    assert!(told["file"].text().ends_with("/no\u{fffd}UTF-8"));
    let told = object(&pilzdamo_fed(&["measure", "-", "--json"], &booking));
    assert_eq!(told["file"].text(), "-");
}

#[test]
fn explain() {
    for number in 1..=28 {
        let told = object(&pilzdamo(&["explain", &number.to_string(), "--json"]));
        assert_eq!(told["number"].word(), number);
        assert_eq!(told["meaning"].text(), pilzdamo::meaning(number).unwrap());
        let plain = pilzdamo(&["explain", &number.to_string()]);
        let words = |text: &str| text.split_whitespace().collect::<Vec<_>>().join(" ");
        let due = format!(
            "{} the place counts: {} who can mend it: {} what is wrong: {} how to mend it: {}",
            told["meaning"].text(),
            told["place_counts"].text(),
            told["who_can_mend_it"].text(),
            told["what_is_wrong"].text(),
            told["how_to_mend_it"].text()
        );
        assert_eq!(words(plain.text()), words(&due));
    }
}

#[test]
fn sheet() {
    let paths = examples();
    let mut words = vec!["sheet", "--json"];
    words.extend(paths.iter().map(String::as_str));
    let told = object(&pilzdamo(&words));
    let files = paths.iter().map(|path| bytes(path));
    let sheet = pilzdamo::sheet(&pilzdamo::records(files).unwrap());
    let figures = [
        ("files", sheet.files),
        ("sessions", sheet.sessions),
        ("on_steps", sheet.on_steps),
        ("most", sheet.most),
        ("quotient", sheet.quotient),
        ("remainder", sheet.remainder),
    ];
    for (key, figure) in figures {
        assert_eq!(told[key], Value::Number(figure.into()), "{key}");
    }
    let refused = (1..=28).filter(|&number| sheet.refused_at(number) > 0);
    let refused = refused.map(|number| {
        let count = sheet.refused_at(number);
        (number.to_string(), Value::Number(count.into()))
    });
    assert_eq!(told["refused"], Value::Object(refused.collect()));
}

/// Wrong use has a message, and no object.
#[test]
fn wrong_use() {
    let folder = Folder::new("json wrong");
    let text = folder.file("flawed.txt", "clinic 1\nusr nurse\n");
    let cases: [&[&str]; 6] = [
        &["check", "--json"],
        &["check", "not there", "--json"],
        &["check", &text, "--json"],
        &["show", &text, "--json"],
        &["explain", "29", "--json"],
        &["reason", "x", "--json"],
    ];
    for words in cases {
        let answer = pilzdamo(words);
        assert_eq!((answer.status, answer.text()), (2, ""), "{words:?}");
        assert!(!answer.err.is_empty());
    }
    for word in [
        "merge", "columns", "rows", "notice", "in-force", "waiting", "seats", "round", "dispatch",
        "pack", "unpack", "strip",
    ] {
        let answer = pilzdamo(&[word, "--json"]);
        assert_eq!((answer.status, answer.text()), (2, ""));
        let due = format!("pilzdamo: {word} has no option '--json'\n");
        assert!(answer.err.starts_with(&due), "{}", answer.err);
    }
}
