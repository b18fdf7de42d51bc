//! `choices FILE CHOICES`.

use crate::common::{example, pilzdamo_fed, placed, sentence, Answer, Folder};
use crate::format;

fn choices(file: &str, list: &str) -> Answer {
    pilzdamo_fed(&["choices", file, "-"], list.as_bytes())
}

/// Its lines, where all is well.
fn lines(file: &str, list: &str) -> String {
    let answer = choices(file, list);
    assert_eq!((answer.status, answer.err.as_str()), (0, ""), "{list}");
    answer.text().to_string()
}

#[test]
fn a_text_in_names() {
    let folder = Folder::new("choices of a text");
    let file = folder.file("placed.txt", format::placed());
    assert_eq!(
        lines(&file, "ask ask ask"),
        "serve  # repeats; serve.2 begins at line 25\n"
    );
    assert_eq!(
        lines(&file, "ask ask ask serve serve.2"),
        "\
ask -> serve.2  # sends reply (made channel 1) on inbox; serve.2 has back = made channel 1
serve           # repeats; serve.3 begins at line 25
"
    );
}

#[test]
fn bytes_in_numbers() {
    let folder = Folder::new("choices of bytes");
    let file = folder.file("transfer.clinic", placed("transfer.clinic"));
    assert_eq!(
        lines(&file, "1 0 1 0 1 0 3 0 5 0"),
        "\
1 5  # sends variable 1 (made channel 1) on channel 1; thread 5 has variable 1 = made channel 1
2 0  # makes a channel of kind 2: variable 1 = made channel 2
3 0  # repeats; thread 6 begins at node 22
"
    );
}

/// Every line is a list by itself, and goes on where the list leads; all of them
/// together are all that can be done.
#[test]
fn each_line_can_be_done() {
    let folder = Folder::new("choices done");
    let text = folder.file("placed.txt", format::placed());
    let bytes = folder.file("transfer.clinic", placed("transfer.clinic"));
    for (file, mut list) in [(text, String::new()), (bytes, String::new())] {
        for step in 0..7 {
            let found = lines(&file, &list);
            let done = |line: &str| {
                let list = format!("{list}\n{line}");
                pilzdamo_fed(&["run", &file, "-"], list.as_bytes()).status == 0
            };
            for line in found.lines() {
                assert!(done(line), "{list}: {line}");
            }
            let numbers = (1..=9).flat_map(|one| (0..=9).map(move |other| (one, other)));
            let all = numbers.filter(|(one, other)| done(&format!("{one} {other}")));
            assert_eq!(all.count(), found.lines().count(), "{list}");
            let Some(line) = found.lines().nth(step % found.lines().count().max(1)) else {
                break;
            };
            list = format!("{list}\n{line}");
        }
    }
}

#[test]
fn no_choice() {
    let file = example("booking.txt");
    let answer = choices(&file, "");
    assert_eq!((answer.status, answer.text()), (0, ""));
    let due = format!(
        "{file}: no choice can be done, 1 thread left\n  \
         the routine has no on or off yet: pilzdamo place adds them\n"
    );
    assert_eq!(answer.err, due);
    let answer = choices(&example("nothing.clinic"), "");
    assert_eq!((answer.status, answer.text()), (0, ""));
    assert!(answer
        .err
        .ends_with("no choice can be done, 0 threads left\n"));
}

/// Where a list halts, the choices that could be done in its place.
#[test]
fn a_list_that_halts() {
    let folder = Folder::new("choices where it halts");
    let file = folder.file("placed.txt", format::placed());
    let answer = choices(&file, "ask ask ask ask serve");
    assert_eq!(answer.status, 1);
    assert_eq!(answer.text(), lines(&file, "ask ask ask"));
    let run = pilzdamo_fed(&["run", &file, "-"], b"ask ask ask ask serve");
    assert_eq!(answer.err, run.err);
    assert!(answer.err.contains(&sentence(18, "choice 4")));
    let answer = choices(&example("refused/08-tree.clinic"), "");
    assert_eq!((answer.status, answer.text()), (1, ""));
    let answer = choices(&file, "ask 1");
    assert_eq!((answer.status, answer.text()), (2, ""));
}

#[test]
fn with_seats() {
    let folder = Folder::new("choices with seats");
    let text = folder.file("asked.txt", placed("seats/asked.txt"));
    let seated = |list: &str| {
        let words = ["choices", &text, "-"];
        let answer = pilzdamo_fed(&words, list.as_bytes());
        assert_eq!((answer.status, answer.err.as_str()), (0, ""), "{list}");
        answer.text().to_string()
    };
    let before = seated("book1 book2");
    assert!(before.starts_with("book1   # puts holder on; holds holder\nbook2   # puts holder on"));
    let behind = seated("book1 book2 book1");
    let due = "book2   # waits for a seat as holder\n";
    assert!(behind.starts_with(due), "{behind}");
    // Who waits may ask again.
    assert_eq!(seated("book1 book2 book1 book2"), behind);
    // Without seats it has the role.
    let free = String::from_utf8(placed("seats/asked.txt")).expect("text");
    let free = folder.file("free.txt", free.replace("; 1 seat", ""));
    let free = lines(&free, "book1 book2 book1");
    assert!(free.starts_with("book2   # puts holder on; holds holder\n"));
}
