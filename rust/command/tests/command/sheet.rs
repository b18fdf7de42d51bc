//! `sheet FILE...`.

use crate::common::{example, example_bytes, pilzdamo, pilzdamo_fed, Folder};

const FILES: [&str; 5] = [
    "transfer.clinic",
    "refused/09-name.clinic",
    "nothing.clinic",
    "theatre.clinic",
    "refused/15-no-role.clinic",
];

const TOLD: &str = "\
files: 5
refused with 9: 1 file (an operand names nothing, or a role or kind is out of count)
refused with 15: 1 file (no role that the user may put on permits the step)
placed: 3
sessions placed: 4
on steps: 5
most on steps in one session: 2
on steps per 1,000 sessions: 1250, remainder 0
";

const JSON: &str = "{\"files\": 5, \"refused\": {\"9\": 1, \"15\": 1}, \"sessions\": 4, \
    \"on_steps\": 5, \"most\": 2, \"quotient\": 1250, \"remainder\": 0}\n";

/// The word, and these examples after it.
fn words(files: &[&str]) -> Vec<String> {
    let files = files.iter().map(|name| example(name));
    std::iter::once("sheet".to_string()).chain(files).collect()
}

#[test]
fn to_be_read() {
    let answer = pilzdamo(&words(&FILES));
    assert_eq!((answer.status, answer.err.as_str()), (0, ""));
    assert_eq!(answer.text(), TOLD);
}

#[test]
fn for_programs() {
    let mut words = words(&FILES);
    for at in [1, words.len()] {
        words.insert(at, "--json".to_string());
        let answer = pilzdamo(&words);
        assert_eq!((answer.status, answer.err.as_str()), (0, ""));
        assert_eq!(answer.text(), JSON);
        words.remove(at);
    }
}

/// The order is no matter.
#[test]
fn in_another_order() {
    let mut files = FILES;
    files.reverse();
    assert_eq!(pilzdamo(&words(&files)).text(), TOLD);
    files.swap(1, 3);
    assert_eq!(pilzdamo(&words(&files)).text(), TOLD);
}

#[test]
fn from_standard_input() {
    let words = ["sheet", &example("transfer.clinic"), "-"];
    let answer = pilzdamo_fed(&words, &example_bytes("booking.clinic"));
    assert_eq!(answer.status, 0);
    let due = "files: 2\nplaced: 2\nsessions placed: 4\non steps: 4\n\
               most on steps in one session: 1\n\
               on steps per 1,000 sessions: 1000, remainder 0\n";
    assert_eq!(answer.text(), due);
}

#[test]
fn no_sessions() {
    let files = [
        "nothing.clinic",
        "refused/01-odd.clinic",
        "refused/01-odd.clinic",
    ];
    let answer = pilzdamo(&words(&files));
    let text = answer.text();
    assert!(
        text.starts_with("files: 3\nrefused with 1: 2 files ("),
        "{text}"
    );
    let due = "placed: 1\nsessions placed: 0\non steps: 0\nmost on steps in one session: 0\n\
               on steps per 1,000 sessions: 0, remainder 0\n";
    assert!(text.ends_with(due), "{text}");
    let mut words = words(&["nothing.clinic"]);
    words.push("--json".to_string());
    let due = "{\"files\": 1, \"refused\": {}, \"sessions\": 0, \"on_steps\": 0, \"most\": 0, \
               \"quotient\": 0, \"remainder\": 0}\n";
    assert_eq!(pilzdamo(&words).text(), due);
}

#[test]
fn a_thousand_files_and_no_more() {
    let mut words = words(&vec!["booking.clinic"; 1_000]);
    let answer = pilzdamo(&words);
    assert_eq!(answer.status, 0);
    assert!(answer.text().starts_with("files: 1000\nplaced: 1000\n"));
    words.push(example("booking.clinic"));
    let answer = pilzdamo(&words);
    assert_eq!((answer.status, answer.text()), (2, ""));
    let due = "pilzdamo: sheet: a sheet has at most 1000 files, not 1001\n";
    assert!(answer.err.starts_with(due), "{}", answer.err);
}

#[test]
fn a_file_that_no_word_can_measure() {
    let folder = Folder::new("sheet");
    let longest = folder.file("longest", vec![1; 65_535]);
    let answer = pilzdamo(&["sheet", &longest]);
    assert_eq!(answer.status, 0);
    assert!(answer
        .text()
        .starts_with("files: 1\nrefused with 1: 1 file ("));
    let longer = folder.file("longer", vec![1; 65_536]);
    let answer = pilzdamo(&["sheet", &longest, &longer]);
    assert_eq!((answer.status, answer.text()), (2, ""));
    let due = "it has 65536 bytes, and a file of a sheet has at most 65535";
    assert_eq!(answer.err, format!("pilzdamo: {longer}: {due}\n"));
}
