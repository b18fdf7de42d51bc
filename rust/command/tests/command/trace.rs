//! `run FILE CHOICES --trace`.

use crate::common::{example, pilzdamo, pilzdamo_fed, placed, sentence, Answer, Folder};
use crate::draft::{off, on, Draft, END};
use crate::format;
use std::time::{Duration, Instant};

fn traced(file: &str, list: &str, more: &[&str]) -> Answer {
    let words = [&["run", file, "-", "--trace"][..], more].concat();
    pilzdamo_fed(&words, list.as_bytes())
}

/// The lines before those that `run` prints without `--trace`, and those after.
fn around(file: &str, list: &str, more: &[&str]) -> [String; 2] {
    let answer = traced(file, list, more);
    let words = [&["run", file, "-"][..], more].concat();
    let plain = pilzdamo_fed(&words, list.as_bytes());
    assert_eq!((answer.status, &answer.err), (plain.status, &plain.err));
    let parts = answer.text().split_once(plain.text());
    let (before, behind) = parts.unwrap_or_else(|| panic!("{}", answer.text()));
    [before.to_string(), behind.to_string()]
}

const DAY: &str = "ask ask ask serve serve.2 ask -> serve.2 serve.2 -> ask.2 ask";

#[test]
fn a_text_in_names() {
    let folder = Folder::new("trace in names");
    let file = folder.file("placed.txt", format::placed());
    let [lines, why] = around(&file, DAY, &[]);
    assert_eq!(
        lines,
        "\
1  ask: makes a channel of kind answer: reply = made channel 1
2  ask: puts caller on; holds caller
3  ask: forks; ask.2 begins at line 20
4  serve: repeats; serve.2 begins at line 25
5  serve.2: puts keeper on; holds keeper
6  ask -> serve.2: sends reply (made channel 1) on inbox; serve.2 has back = made channel 1
7  serve.2 -> ask.2: sends bed on back (made channel 1); ask.2 has found = bed
8  ask: puts caller off; holds no role
"
    );
    assert_eq!(why, "stopped: all choices are done\n");
    // Numbers are understood, and names are said.
    let numbers = "1 0 1 0 1 0 2 0 4 0 1 4 4 3 1 0";
    assert_eq!(around(&file, numbers, &[]), [lines, why]);
}

#[test]
fn a_thread_that_ends() {
    let folder = Folder::new("trace of ends");
    let file = folder.file("placed.txt", format::placed());
    let list = format!("{DAY} ask  ask.2 ask.2 serve.2");
    let [lines, _] = around(&file, &list, &[]);
    let last: Vec<&str> = lines.lines().skip(8).collect();
    let due = [
        " 9  ask: ends",
        "10  ask.2: puts caller off; holds no role",
        "11  ask.2: ends",
        "12  serve.2: puts keeper off; holds no role",
    ];
    assert_eq!(last, due);
}

/// Of bytes it is said whether there are threads that move down, also if that is one.
#[test]
fn the_last_thread_that_ends() {
    let folder = Folder::new("trace of last ends");
    let file = Draft::default().user(&[]).session(1, &[END]);
    let file = folder.file("ends.clinic", file.session(1, &[END]).bytes());
    let [lines, _] = around(&file, "1 0 1 0", &[]);
    let due = "1  1 0: ends; the threads after it move down by one\n2  1 0: ends\n";
    assert_eq!(lines, due);
}

#[test]
fn bytes_in_numbers() {
    let folder = Folder::new("trace in numbers");
    let file = folder.file("transfer.clinic", placed("transfer.clinic"));
    let list = std::fs::read_to_string(example("transfer.choices")).expect("a list");
    let [lines, why] = around(&file, &list, &[]);
    assert_eq!(
        lines,
        " 1  1 0: makes a channel of kind 2: variable 1 = made channel 1
 2  1 0: puts role 1 on; holds role 1
 3  1 0: forks; thread 4 begins at node 7
 4  2 0: makes a channel of kind 2: variable 1 = made channel 2
 5  2 0: puts role 1 on; holds role 1
 6  2 0: forks; thread 5 begins at node 17
 7  3 0: repeats; thread 6 begins at node 22
 8  6 0: puts role 2 on; holds role 2
 9  1 6: sends variable 1 (made channel 1) on channel 1; thread 6 has variable 1 = made channel 1
10  6 4: sends user 4 on variable 1 (made channel 1); thread 4 has variable 2 = user 4
11  6 0: puts role 2 off; holds no role
12  6 0: ends
13  3 0: repeats; thread 6 begins at node 22
14  6 0: puts role 2 on; holds role 2
15  2 6: sends variable 1 (made channel 2) on channel 1; thread 6 has variable 1 = made channel 2
16  4 0: puts role 1 off; holds no role
17  4 0: compares variable 2 (user 4) with user 4: equal
"
    );
    assert_eq!(why, "stopped: all choices are done\n");
    let [lines, _] = around(&file, &format!("{list} 4 0"), &[]);
    let due = "\n18  4 0: ends; the threads after it move down by one\n";
    assert!(lines.ends_with(due), "{lines}");
    // Of bytes, names that are invented are understood, and numbers are said.
    let [lines, _] = around(&file, "s1 s3", &[]);
    assert!(lines.ends_with("\n2  3 0: repeats; thread 4 begins at node 22\n"));
}

/// Bytes with names beside them have names, and no lines.
#[test]
fn bytes_in_names() {
    let folder = Folder::new("trace of bytes in names");
    let text = folder.file("placed.txt", format::placed());
    let file = folder.at("placed.clinic");
    assert_eq!(pilzdamo(&["pack", &text, "-o", &file]).status, 0);
    let [lines, _] = around(&file, "ask ask ask serve", &["--names", &text]);
    assert_eq!(
        lines,
        "\
1  ask: makes a channel of kind answer: reply = made channel 1
2  ask: puts caller on; holds caller
3  ask: forks; ask.2 begins at node 7
4  serve: repeats; serve.2 begins at node 11
"
    );
    let words = ["choices", &file, "-", "--names", &text];
    let answer = pilzdamo_fed(&words, b"ask");
    let due = "\
ask    # puts caller on; holds caller
serve  # repeats; serve.2 begins at node 11
";
    assert_eq!((answer.status, answer.text()), (0, due));
}

#[test]
fn a_list_that_halts() {
    let folder = Folder::new("trace that halts");
    let file = folder.file("placed.txt", format::placed());
    for (list, halt) in [("ask ask ask ask", 4), ("ask ask ask ask.3 serve", 4)] {
        let [lines, why] = around(&file, list, &[]);
        assert_eq!(lines.lines().count(), halt - 1);
        let due = sentence(18, &format!("choice {halt}"));
        assert_eq!(why, format!("stopped: {due}\n"));
    }
    let file = example("refused/choices.clinic");
    let [lines, why] = around(&file, "2 0 1 0", &[]);
    assert_eq!(lines, "1  2 0: repeats; thread 3 begins at node 4\n");
    assert_eq!(why, format!("stopped: {}\n", sentence(19, "choice 2")));
}

/// Where a run without `--trace` prints nothing, there is nothing to trace.
#[test]
fn files_and_lists_that_are_refused() {
    for (file, list) in [
        (example("refused/08-tree.clinic"), "1 0"),
        (example("refused/choices.clinic"), "1 0 1"),
    ] {
        let answer = traced(&file, list, &[]);
        assert_eq!((answer.status, answer.text()), (1, ""));
        let plain = pilzdamo_fed(&["run", &file, "-"], list.as_bytes());
        assert_eq!(answer.err, plain.err);
    }
    let answer = traced(&example("nothing.clinic"), "", &[]);
    let due = "choices done: 0\nthreads: 0\nmade channels: 0\nstopped: all choices are done\n";
    assert_eq!((answer.status, answer.text()), (0, due));
}

#[test]
fn a_choice_that_waits() {
    let folder = Folder::new("trace with seats");
    let text = folder.file("asked.txt", placed("seats/asked.txt"));
    let seats = example("seats/one-holder.seats");
    let list = example("seats/one-by-one-named.choices");
    let list = std::fs::read_to_string(list).expect("a list");
    let [lines, why] = around(&text, &list, &[]);
    assert!(lines.contains("\n 7  book1: puts holder on; holds holder\n"));
    assert!(lines.contains("\n 8  book2: waits for a seat as holder\n"));
    assert!(lines.contains("\n18  book2: puts holder on; holds holder\n"));
    assert_eq!(why, "stopped: all choices are done\n");
    let bytes = folder.file("asked.clinic", placed("seats/asked.clinic"));
    let [lines, _] = around(&bytes, "1 0 2 0 1 0 2 0", &["--seats", &seats]);
    assert!(lines.ends_with("\n4  2 0: waits for a seat as role 2\n"));
}

/// As many choices as a list can have, each said.
#[test]
fn a_long_list() {
    let folder = Folder::new("long trace");
    let mut tree = vec![[2, 0, 0]];
    tree.extend([on(1), off(1), END]);
    let file = Draft::default().user(&[1]).role(&[], &[]).session(1, &tree);
    let file = folder.file("busy.clinic", file.bytes());
    let list = "1 0 2 0 2 0 2 0 ".repeat(16_383);
    let text = folder.at("busy.txt");
    assert_eq!(pilzdamo(&["unpack", &file, "-o", &text]).status, 0);
    for file in [file, text] {
        let start = Instant::now();
        let answer = traced(&file, &list, &[]);
        let last = answer.text().lines().rev().nth(5).unwrap_or_default();
        assert!(last.starts_with("65532  "), "{last}");
        assert!(last.ends_with(": ends"), "{last}");
        assert!(start.elapsed() < Duration::from_secs(20));
    }
}
