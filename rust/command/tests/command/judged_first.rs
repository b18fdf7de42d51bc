//! A refused file is reported before the names in a list are looked up.

use crate::common::{example, pilzdamo, pilzdamo_fed, sentence, Folder};
use crate::format;

const DAY: &str = "ask ask ask\nserve serve.2\nask -> serve.2\n";

/// The words that take a list, and what each has after it.
const WORDS: [&[&str]; 6] = [
    &["run"],
    &["run", "-i"],
    &["choices"],
    &["ready"],
    &["waiting"],
    &["round"],
];

#[test]
fn without_its_first_line() {
    let folder = Folder::new("no clinic line");
    let text = format::example().replace("clinic 1\n", "");
    let file = folder.file("ward.txt", &text);
    let list = folder.file("day.choices", DAY);
    let checked = pilzdamo(&["check", &file]);
    assert_eq!(checked.status, 1);
    let hint = "\n  if it is meant as a text: its first line is 'clinic 1'\n";
    assert!(checked.err.ends_with(hint), "{}", checked.err);
    for word in WORDS {
        let answer = pilzdamo(&[word, &[&file, &list]].concat());
        let found = (answer.status, answer.text(), &answer.err);
        assert_eq!(found, (1, "", &checked.err), "{word:?}");
    }
    let answer = pilzdamo(&["run", &file, &list, "--json"]);
    assert_eq!((answer.status, &answer.err[..]), (1, ""));
    let refusal = r#""of": "file""#;
    assert!(answer.text().contains(refusal), "{}", answer.text());
}

/// A text and bytes that are refused after the head.
#[test]
fn any_refused_file() {
    let folder = Folder::new("judged first");
    let list = folder.file("day.choices", "nobody\nask -> nobody.2\n");
    let text = format::example().replace("send reply on inbox", "send bed on inbox");
    let text = folder.file("ward.txt", text);
    let bytes = ["06-record", "08-tree", "10-kinds", "21-junior"];
    let bytes = bytes.map(|name| example(&format!("refused/{name}.clinic")));
    for file in bytes.iter().chain([&text]) {
        let checked = pilzdamo(&["check", file]);
        assert_eq!(checked.status, 1);
        let answer = pilzdamo(&["run", file, &list]);
        assert_eq!((answer.status, answer.text()), (1, ""));
        assert_eq!(answer.err, checked.err);
    }
}

/// The engine says that a list is too long before it looks at the file; what is no list is
/// wrong use, whatever the file is.
#[test]
fn lists_that_come_before_it() {
    let file = example("refused/10-kinds.clinic");
    let answer = pilzdamo_fed(&["run", &file, "-"], "ask\n".repeat(65_536).as_bytes());
    let due = format!("pilzdamo: standard input: {}\n", sentence(17, ""));
    assert_eq!(answer.status, 1);
    assert!(answer.err.starts_with(&due), "{}", answer.err);
    let answer = pilzdamo_fed(&["run", &file, "-"], b"ask\nask ->");
    let due = "standard input:2:7: expected a thread to meet, but the list ends\n";
    assert_eq!(answer.status, 2);
    assert!(answer.err.starts_with(due), "{}", answer.err);
}

/// Of sound bytes it is said how they get names.
#[test]
fn names_for_bytes() {
    let folder = Folder::new("names for bytes");
    let list = folder.file("day.choices", "ask");
    let bytes = pilzdamo_fed(&["pack", "-"], format::example().as_bytes()).out;
    let file = folder.file("ward.clinic", bytes);
    let answer = pilzdamo(&["run", &file, &list]);
    let due = format!(
        "\
{list}:1:1: there is no session 'ask' (sessions: s1, s2)
     1 | ask
       | ^^^
pilzdamo: {list}: 1 error
  bytes have no names, and their sessions are s1, s2 and so on; --names NAMES gives them names
"
    );
    assert_eq!((answer.status, answer.err), (2, due));
    let text = folder.file("ward.txt", format::example());
    let answer = pilzdamo(&["run", &file, &list, "--names", &text]);
    assert_eq!((answer.status, answer.err.as_str()), (0, ""));
    let answer = pilzdamo(&["run", &example("nothing.clinic"), &list]);
    let due = "1:1: there is no session 'ask' (there are no sessions)\n";
    assert_eq!(answer.status, 2);
    assert!(answer.err.contains(due), "{}", answer.err);
    assert!(!answer.err.contains("--names"), "{}", answer.err);
}
