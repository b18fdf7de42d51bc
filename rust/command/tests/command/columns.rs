//! `columns FILE` and `rows FILE`, and column files in the other words.

use crate::common::{example, example_bytes, pilzdamo, pilzdamo_fed, sentence, Folder};
use crate::draft::{compare, Draft, END};
use crate::files;
use std::fs;

fn rows() -> String {
    example("head-nurse/juniors.clinic")
}

fn columns() -> String {
    example("head-nurse/columns.clinic")
}

#[test]
fn to_standard_output() {
    let (rows, columns) = (rows(), columns());
    let answer = pilzdamo(&["columns", &rows]);
    assert_eq!(
        (answer.status, answer.out),
        (0, files::by_columns().bytes())
    );
    assert_eq!(answer.err, format!("{rows}: nodes by column, 168 bytes\n"));
    let answer = pilzdamo(&["rows", &columns]);
    assert_eq!(
        (answer.status, answer.out),
        (0, files::by_juniors().bytes())
    );
    assert_eq!(answer.err, format!("{columns}: nodes by row, 168 bytes\n"));
}

#[test]
fn from_standard_input() {
    let answer = pilzdamo_fed(&["columns", "-", "-o", "-"], &files::by_juniors().bytes());
    assert_eq!(
        (answer.status, answer.out),
        (0, files::by_columns().bytes())
    );
    let due = "standard input: nodes by column, 168 bytes\n";
    assert_eq!(answer.err, due);
    let answer = pilzdamo_fed(&["rows", "-"], &files::by_columns().bytes());
    assert_eq!(
        (answer.status, answer.out),
        (0, files::by_juniors().bytes())
    );
}

#[test]
fn to_a_file() {
    let folder = Folder::new("columns");
    let rows = rows();
    let out = folder.file("by column.clinic", [7; 5_000]);
    let answer = pilzdamo(&["columns", &rows, "-o", &out]);
    assert_eq!((answer.status, answer.text()), (0, ""));
    let due = format!("{rows}: nodes by column, 168 bytes in {out}\n");
    assert_eq!(answer.err, due);
    assert_eq!(fs::read(&out).unwrap(), files::by_columns().bytes());
    let back = folder.at("by row.clinic");
    let answer = pilzdamo(&["rows", "-o", &back, &out]);
    assert_eq!((answer.status, answer.text()), (0, ""));
    assert_eq!(fs::read(&back).unwrap(), files::by_juniors().bytes());
}

#[test]
fn never_over_the_input() {
    let folder = Folder::new("over the input");
    let bytes = files::by_juniors().bytes();
    let file = folder.file("a.clinic", &bytes);
    let answer = pilzdamo(&["columns", &file, "-o", &file]);
    assert_eq!((answer.status, answer.out.len()), (2, 0));
    let due = format!(
        "pilzdamo: {file} is the same file as {file}, and an input is not written over \
         without --force\n"
    );
    assert_eq!(answer.err, due);
    assert_eq!(fs::read(&file).unwrap(), bytes);
}

/// A file that isn't turned: its sentence, and what is said of its version.
fn assert_refused(word: &str, bytes: &[u8], number: u16, more: &str) {
    let answer = pilzdamo_fed(&[word, "-"], bytes);
    assert_eq!((answer.status, answer.text()), (1, ""), "{word}");
    let sentence = sentence(number, "");
    let start = format!("pilzdamo: standard input: {sentence}\n");
    assert!(answer.err.starts_with(&start), "{}", answer.err);
    assert!(answer.err.ends_with(more), "{}", answer.err);
}

#[test]
fn refusals() {
    let (one, two) = (files::booking().bytes(), files::by_juniors().bytes());
    let three = files::by_columns().bytes();
    let by_row = "\n  this file has its nodes by row already\n";
    let by_column = "\n  this file has its nodes by column already\n";
    let only = "\n  this file has version 1, and only files of version 2 are turned to columns\n";
    assert_refused("rows", &one, 2, by_row);
    assert_refused("rows", &two, 2, by_row);
    assert_refused("rows", &[], 2, by_row);
    assert_refused("columns", &three, 2, by_column);
    assert_refused("columns", &one, 2, only);
    assert_refused("columns", &[], 2, only);
    let more = "more: pilzdamo explain";
    for (word, file) in [("columns", &two), ("rows", &three)] {
        assert_refused(word, &file[..26], 1, &format!("{more} 1\n"));
        assert_refused(word, &file[..167], 1, &format!("{more} 1\n"));
        assert_refused(word, &file[..166], 5, &format!("{more} 5\n"));
        for (at, number) in [(0, 2), (2, 3), (14, 4)] {
            let mut file = file.clone();
            file[at] = 99;
            assert_refused(word, &file, number, &format!("{more} {number}\n"));
        }
    }
}

/// Records aren't judged: a file that the check refuses is turned.
#[test]
fn a_refused_file_is_turned() {
    let draft = Draft {
        juniors: Some(vec![]),
        ..Draft::default()
    };
    let draft = draft.user(&[]).session(1, &[compare(9, 9), [9, 8, 7], END]);
    let (rows, columns) = (draft.bytes(), draft.clone().in_columns().bytes());
    assert_eq!(pilzdamo_fed(&["check", "-"], &rows).status, 1);
    assert_eq!(pilzdamo_fed(&["columns", "-"], &rows).out, columns);
    assert_eq!(pilzdamo_fed(&["rows", "-"], &columns).out, rows);
}

/// All that `show` says of a column file but its version is what it says of its rows.
#[test]
fn shown() {
    let [by_row, by_column] = [rows(), columns()].map(|file| pilzdamo(&["show", &file]));
    let (by_row, by_column) = (by_row.text(), by_column.text());
    assert!(by_column.contains("\nversion: 3, nodes by column\n"));
    let due = by_row.replace("version: 2\n", "version: 3, nodes by column\n");
    assert_eq!(by_column, due);
}

/// The end of the file is the end of the last column: a node whose f2 isn't there is
/// missing.
#[test]
fn shown_cut_off() {
    let bytes = example_bytes("head-nurse/columns.clinic");
    let shown = |less: usize| command::show::text(&bytes[..bytes.len() - less]);
    assert!(shown(2).contains("(the file ends here; 1 node missing)"));
    assert!(shown(22).contains("(the file ends here; 11 nodes missing)"));
    assert!(shown(40).contains("(the file ends here; 11 nodes missing)"));
}

/// Every word that takes a file takes it by column, and answers as by row; what is
/// placed is by column too.
#[test]
fn every_word() {
    let folder = Folder::new("every word");
    let list = folder.file("list", "1 0  3 0  1 3");
    let hours = folder.file("hours", "role 1 Mon-Fri 07:00-15:00");
    let (rows, columns) = (rows(), columns());
    let [placed_rows, placed_columns] = [(&rows, "r"), (&columns, "c")].map(|(file, name)| {
        let out = folder.at(name);
        let answer = pilzdamo(&["place", file, "-o", &out]);
        assert_eq!(answer.status, 0);
        out
    });
    let turned = pilzdamo(&["columns", &placed_rows]);
    assert_eq!(turned.out, fs::read(&placed_columns).unwrap());
    let at = ["--at", "Mon 07:30", "--hours", &hours];
    for (by_row, by_column) in [(&rows, &columns), (&placed_rows, &placed_columns)] {
        for words in [
            &["check", "FILE"][..],
            &["check", "FILE", at[0], at[1], at[2], at[3]],
            &["measure", "FILE"],
            &["measure", "FILE", at[0], at[1], at[2], at[3]],
            &["run", "FILE", &list],
            &["waiting", "FILE", &list],
            &["round", "FILE", &list],
            &["dispatch", "FILE"],
        ] {
            let [one, other] = [by_row, by_column].map(|file| {
                let words: Vec<_> = words
                    .iter()
                    .map(|word| word.replace("FILE", file))
                    .collect();
                let answer = pilzdamo(&words);
                let named = |text: &str| text.replace(&file[..], "FILE");
                (answer.status, named(answer.text()), named(&answer.err))
            });
            assert_eq!(one, other, "{words:?}");
        }
    }
}

/// Two files are merged in version 1 alone.
#[test]
fn merged() {
    let answer = pilzdamo(&["merge", &columns(), &example("house/north.clinic")]);
    assert_eq!(answer.status, 1);
    let due = "  this file has version 3, and two are merged in version 1 alone\n";
    assert!(answer.err.ends_with(due), "{}", answer.err);
}
