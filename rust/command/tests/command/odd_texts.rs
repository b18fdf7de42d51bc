//! Texts and names of files that are not as usual.

use crate::common::{pilzdamo, pilzdamo_fed, Folder};
use crate::format;
use std::fs;

/// A mark of the byte order and the line ends stay, so that `diff` shows what was placed.
#[test]
fn what_stands_around_the_lines_stays() {
    let text = "\u{feff}".to_string() + &format::example().replace('\n', "\r\n");
    let placed = pilzdamo_fed(&["place", "-"], text.as_bytes());
    let due = "\u{feff}".to_string() + &format::placed().replace('\n', "\r\n");
    assert_eq!((placed.status, placed.text()), (0, &due[..]));
    let stripped = pilzdamo_fed(&["strip", "-"], &placed.out);
    assert_eq!((stripped.status, stripped.text()), (0, &text[..]));
}

#[test]
fn bytes_are_not_packed() {
    let folder = Folder::new("not packed");
    let text = folder.file("ward.txt", format::example());
    let (file, out) = (folder.at("ward.clinic"), folder.at("again.clinic"));
    assert_eq!(pilzdamo(&["pack", &text, "-o", &file]).status, 0);
    let answer = pilzdamo(&["pack", &file, "-o", &out]);
    let due = format!("pilzdamo: {file}: can't be packed: it is no text but bytes already\n");
    assert_eq!((answer.status, answer.err), (2, due));
    assert!(fs::metadata(&out).is_err());
}

#[test]
fn a_name_without_letters() {
    let answer = pilzdamo(&["check", ""]);
    let due = "pilzdamo: '': can't be read: there is no such file or folder\n";
    assert_eq!((answer.status, &answer.err[..]), (2, due));
}

#[test]
fn an_option_that_stands_alone_and_is_nearly_right() {
    for (typed, meant) in [("--versoin", "--version"), ("--hlep", "--help")] {
        let answer = pilzdamo(&[typed]);
        let due = format!("pilzdamo: there is no command '{typed}'; did you mean '{meant}'?\n");
        assert!(answer.err.starts_with(&due), "{}", answer.err);
        assert_eq!(answer.status, 2);
    }
}

/// Files whose nodes stand each below the one before have the longest texts.
#[test]
fn the_longest_texts() {
    let folder = Folder::new("longest texts");
    let deep = |depth: usize, block: &[&str]| {
        let lines = (0..depth).flat_map(|level| {
            let lines = block.iter().enumerate();
            lines.map(move |(index, line)| {
                let indent = level * block.len().min(2) + index.min(1) + 1;
                " ".repeat(indent) + line + "\n"
            })
        });
        "clinic 1\nuser u\nsession s by u\n".to_string() + &lines.collect::<String>()
    };
    for (text, longer) in [
        (deep(1023, &["repeat"]), 1_050_000),
        (deep(511, &["fork", "branch", "branch"]), 1_570_000),
    ] {
        let bytes = pilzdamo_fed(&["pack", "-"], text.as_bytes());
        assert_eq!(bytes.status, 0, "{}", bytes.err);
        let text = pilzdamo_fed(&["unpack", "-"], &bytes.out);
        assert!((longer..2_000_000).contains(&text.out.len()));
        let file = folder.file("deep.txt", &text.out);
        assert_eq!(pilzdamo(&["pack", &file]).out, bytes.out);
        assert_eq!(pilzdamo(&["check", &file]).status, 0);
        assert_eq!(pilzdamo_fed(&["place", "-"], &text.out).out, text.out);
    }
}
