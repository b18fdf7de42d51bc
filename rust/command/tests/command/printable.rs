//! Names and words that don't show are written out in messages.

use crate::common::{example, example_bytes, pilzdamo, pilzdamo_fed, Folder};
use std::ffi::{OsStr, OsString};
use std::os::unix::ffi::{OsStrExt, OsStringExt};
use std::process::Command;

/// A name that clears a terminal, turns its line round and is no text, and how it is told.
const NAME: &[u8] = b"a\x1b[2J\n\xe2\x80\xaeb\xff";
const TOLD: &str = "a\\x1b[2J\\n\\u{202e}b\\xff";

fn call(words: &[&OsStr]) -> (i32, String, String) {
    let answer = pilzdamo(words);
    let told = [answer.text(), &answer.err].concat();
    let hidden = |c: char| (c.is_control() && c != '\n') || c == '\u{202e}';
    assert!(!told.contains(hidden), "{told:?}");
    (answer.status, answer.text().to_string(), answer.err)
}

#[test]
fn in_the_names_of_files() {
    let folder = Folder::new("hidden");
    let path = folder.path().join(OsStr::from_bytes(NAME));
    let name = format!("{}/{TOLD}", folder.path().display());
    let path = path.as_os_str();
    let (status, _, err) = call(&[OsStr::new("check"), path]);
    let due = format!("pilzdamo: {name}: can't be read: there is no such file or folder\n");
    assert_eq!((status, err), (2, due));
    let booking = example("booking.clinic");
    let (status, _, err) = call(
        &["place", &booking, "-o"]
            .map(OsStr::new)
            .into_iter()
            .chain([path])
            .collect::<Vec<_>>(),
    );
    assert_eq!(status, 0);
    assert!(err.ends_with(&format!(" in {name}\n")), "{err}");
    let (status, out, _) = call(&[OsStr::new("check"), path]);
    assert_eq!((status, out), (0, format!("{name}: passes\n")));
    std::fs::write(path, "clinic 1\nuser \x1b").expect("it can be written");
    let (status, _, err) = call(&[OsStr::new("check"), path]);
    assert_eq!(status, 2);
    assert!(err.starts_with(&format!("{name}:2:6: ")), "{err}");
}

#[test]
fn in_the_words_of_the_command_line() {
    let word = OsString::from_vec(NAME.to_vec());
    let option = OsString::from_vec([b"--", NAME].concat());
    let calls: [(&[&str], &OsStr, String); 8] = [
        (&[], &word, format!("there is no command '{TOLD}'")),
        (&["help"], &word, format!("there is no command '{TOLD}'")),
        (
            &["place"],
            &option,
            format!("place has no option '--{TOLD}'"),
        ),
        (
            &["place", "a"],
            &word,
            format!("place: '{TOLD}' is too many"),
        ),
        (
            &["explain"],
            &word,
            format!("explain: the refusals have the numbers 1 to 28, not '{TOLD}'"),
        ),
        (
            &["dispatch", "a"],
            &word,
            format!("dispatch: ROUNDS is a number from 1 to 65535, not '{TOLD}'"),
        ),
        (
            &["check", "a", "--hours=b", "--at"],
            &word,
            format!("check: --at needs a day and a time such as \"Mon 07:30\", not '{TOLD}'"),
        ),
        (
            &["reason"],
            &word,
            format!("no refusal has this sentence: '{TOLD}'"),
        ),
    ];
    for (words, last, due) in calls {
        let words: Vec<&OsStr> = words.iter().map(OsStr::new).chain([last]).collect();
        let (status, _, err) = call(&words);
        assert!(status > 0);
        let told = err.lines().next().unwrap_or_default();
        assert!(told.starts_with(&format!("pilzdamo: {due}")), "{err}");
    }
}

/// The mark stands below what it marks, however wide that is written.
#[test]
fn in_a_line_with_its_mark() {
    let answer = pilzdamo_fed(
        &["check", "-"],
        b"clinic 1\nuser\x1b \x07 \xe2\x80\xae desk: clerk\r\n",
    );
    assert_eq!(answer.status, 2);
    let due = "     2 | user\\x1b \\x07 \\u{202e} desk: clerk\n";
    assert!(answer.err.contains(due), "{}", answer.err);
    let lines: Vec<&str> = answer.err.lines().collect();
    for (above, below) in lines.iter().zip(&lines[1..]) {
        if let Some(mark) = below.find('^') {
            let width = below.len() - mark;
            let marked = &above[mark..mark + width];
            assert!(
                ["\\x1b", "\\x07", "\\u{202e}", "clerk", "desk"].contains(&marked),
                "{}",
                answer.err
            );
        }
    }
}

#[test]
fn bytes_that_are_no_characters() {
    let answer = pilzdamo_fed(&["check", "-"], b"clinic 1\nuser d\xffsk \xc3\x28\n");
    assert_eq!(answer.status, 2);
    let due = "standard input:2:7: a byte that is no character: a text is written in UTF-8\n     \
               2 | user d\\xffsk \\xc3(\n       |       ^^^^\n";
    assert!(answer.err.starts_with(due), "{}", answer.err);
    let answer = pilzdamo_fed(&["check", "-"], b"clinic 1 # \xe9\nusr a\n");
    let due = "standard input:1:12: a byte that is no character: a text is written in UTF-8\n     \
               1 | clinic 1 # \\xe9\n       |            ^^^^\nstandard input:2:1: expected \
               'kind', 'role', 'user', 'channel' or 'session', not 'usr'\n     2 | usr a\n       \
               | ^^^\npilzdamo: standard input: 2 errors\n";
    assert_eq!((answer.status, &*answer.err), (2, due));
    let folder = Folder::new("no characters");
    let file = example("desks.clinic");
    let list = folder.file("list", b"1 0\n\xff\x1b 0");
    let answer = pilzdamo(&["run", &file, &list]);
    let told = "a byte that is no character: a text is written in UTF-8";
    let due = format!("{list}:2:1: {told}\n     2 | \\xff\\x1b 0\n       | ^^^^\n");
    assert!(answer.err.starts_with(&due), "{}", answer.err);
    let hours = folder.file("hours", b"# \xff is no matter\nrole 1 M\xffn 07:00-15:00");
    let answer = pilzdamo(&["check", &file, "--at=Mon 07:30", "--hours", &hours]);
    let due = format!(
        "{hours}:2:8: 'M\\xffn' is not written in UTF-8\n     \
         2 | role 1 M\\xffn 07:00-15:00\n       |        ^^^^^^\n"
    );
    assert!(answer.err.starts_with(&due), "{}", answer.err);
    let seats = folder.file("seats", b"1 \x9b");
    let answer = pilzdamo(&["seats", &file, &example("desks.choices"), &seats]);
    let due = format!("{seats}:1:3: '\\x9b' isn't a number from 0 to 65535\n     1 | 1 \\x9b\n");
    assert!(answer.err.starts_with(&due), "{}", answer.err);
}

/// Tabs and letters of any kind stay.
#[test]
fn in_the_lines_of_a_text_that_is_shown() {
    let text = "clinic 1 # \u{1b}[2J\u{9b}\ta\rb\u{7f} \u{e9}\\\r\nuser u\n";
    let answer = pilzdamo_fed(&["show", "-"], text.as_bytes());
    let due = "check: passes\nlength: 28 bytes as a file\non steps: 0\n\n  node  line  held\n\
               \x20          1        clinic 1 # \\x1b[2J\\u{9b}\ta\\rb\\x7f \u{e9}\\\n\
               \x20          2        user u\n";
    assert_eq!((answer.status, answer.text()), (0, due));
}

/// What turns a line round, or ends it where no line ends, and how it is told.
const COMMENT: &str = "a\u{202e}b\u{2066}c\u{2028}d\u{2029}e\u{200f}f\u{feff}\u{e9}\\\t";
const COMMENT_TOLD: &str = "a\\u{202e}b\\u{2066}c\\u{2028}d\\u{2029}e\\u{200f}f\\u{feff}\u{e9}\\";

#[test]
fn in_the_comments_of_a_text_that_is_shown() {
    let text = format!("clinic 1 # {COMMENT}\nuser u\n");
    let answer = pilzdamo_fed(&["show", "-"], text.as_bytes());
    let due = format!("           1        clinic 1 # {COMMENT_TOLD}\n");
    assert!(answer.text().contains(&due), "{}", answer.text());
    // A file or a pipe gets the text as it is.
    let answer = pilzdamo_fed(&["place", "-"], text.as_bytes());
    assert_eq!((answer.status, answer.text()), (0, &*text));
}

/// White space of any sort between the words of a step is a space in an answer.
#[test]
fn in_a_step() {
    let text = "clinic 1\nkind k\nuser u\nchannel c: k, owner u\nsession s by u\n \
                send\u{2028}u\u{85} on\tc\n";
    for words in [&["run", "-", "/dev/null"][..], &["show", "-", "--json"]] {
        let answer = pilzdamo_fed(words, text.as_bytes());
        assert!(answer.text().contains("send u on c"), "{}", answer.text());
    }
}

/// What a command prints on a terminal, which `script` makes.
fn on_a_terminal(words: &[&str]) -> Option<String> {
    let words = [&[env!("CARGO_BIN_EXE_pilzdamo")], words].concat();
    let quoted = words.iter().map(|word| format!("'{word}'"));
    let command = quoted.collect::<Vec<_>>().join(" ") + " 2>/dev/null";
    let mut script = Command::new("script");
    let output = script.args(["-qec", &command, "/dev/null"]).output().ok()?;
    Some(
        String::from_utf8(output.stdout)
            .expect("text")
            .replace('\r', ""),
    )
}

#[test]
fn in_a_text_on_a_terminal() {
    let folder = Folder::new("terminal");
    let file = folder.file(
        "in.txt",
        format!("clinic 1 # {COMMENT}\r\nuser u # \x1b[2J\n"),
    );
    let due = format!("clinic 1 # {COMMENT_TOLD}\t\nuser u # \\x1b[2J\n");
    for word in ["place", "strip"] {
        if let Some(printed) = on_a_terminal(&[word, &file]) {
            // A terminal may write a tab as spaces.
            let printed = printed.replace("        \n", "\t\n");
            assert_eq!(printed, due, "{word}");
        }
    }
}

#[test]
fn example_names_are_told_as_they_are() {
    let folder = Folder::new("plain");
    let name = folder.file(
        "Ana's \"n\u{fc}rse\" e\u{301} \u{65e5}.clinic",
        example_bytes("spring/cut.clinic"),
    );
    let answer = pilzdamo(&["check", &name]);
    assert_eq!(answer.text(), format!("{name}: passes\n"));
}
