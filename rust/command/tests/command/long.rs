//! Inputs longer than any file or text, and inputs without an end.

use crate::common::{example, example_bytes, pilzdamo, pilzdamo_fed, Folder};
use std::fs::File;
use std::process::{Command, Stdio};
use std::time::{Duration, Instant};

/// Long enough for a busy machine, and too short for all of an endless input.
const AT_ONCE: Duration = Duration::from_secs(20);

/// A sound file with zeros after it, up to this length.
fn padded(length: usize) -> Vec<u8> {
    let mut bytes = example_bytes("spring/cut.clinic");
    bytes.resize(length, 0);
    bytes
}

#[test]
fn a_file_is_answered_by_its_start_and_its_length() {
    let folder = Folder::new("long");
    for length in [
        999_999, 1_000_000, 1_000_001, 1_000_002, 3_456_788, 3_456_789,
    ] {
        let bytes = padded(length);
        let verdict = pilzdamo::check(&bytes);
        let file = folder.file("long.clinic", &bytes);
        let named = pilzdamo(&["check", &file]);
        let fed = pilzdamo_fed(&["check", "-"], &bytes);
        for (name, answer) in [(file.as_str(), named), ("standard input", fed)] {
            assert_eq!(answer.status, 1);
            let sentence = format!("pilzdamo: {name}: Refused {}: ", verdict.number);
            assert!(
                answer.err.starts_with(&sentence),
                "{length}: {}",
                answer.err
            );
            let told = format!("\n  it has {length} bytes");
            assert!(answer.err.contains(&told), "{length}: {}", answer.err);
        }
    }
}

/// Gigabytes are there by name only.
#[test]
fn a_file_of_any_length_is_answered_at_once() {
    let folder = Folder::new("sparse");
    let path = folder.file("long.clinic", padded(2_000_000));
    let length = 50_000_000_000;
    let file = File::options().write(true).open(&path).expect("a file");
    if file.set_len(length).is_err() {
        return;
    }
    let begun = Instant::now();
    let list = folder.file("list", "1 0");
    let calls: [&[&str]; 6] = [
        &["check", &path],
        &["place", &path],
        &["merge", &path, &path],
        &["run", &path, &list],
        &["notice", "0", &path],
        &["columns", &path],
    ];
    for words in calls {
        let answer = pilzdamo(words);
        assert_eq!(answer.status, 1, "{words:?}: {}", answer.err);
    }
    let answer = pilzdamo(&["check", &path]);
    assert!(answer
        .err
        .contains("it has 50000000000 bytes, and its counts give"));
    let shown = pilzdamo(&["show", &path]);
    assert!(
        shown.text().contains("\nlength: 50000000000 bytes ("),
        "{}",
        shown.text()
    );
    let sheet = pilzdamo(&["sheet", &path]);
    assert!(sheet
        .err
        .contains("it has 50000000000 bytes, and a file of a sheet"));
    let force = pilzdamo(&["in-force", "0", &path, &path]);
    assert!(
        force
            .err
            .contains("the number of bytes after it is 49999999996"),
        "{}",
        force.err
    );
    for words in [
        ["pack", &path].as_slice(),
        &["run", &example("desks.clinic"), &path],
    ] {
        let answer = pilzdamo(words);
        assert_eq!((answer.status, answer.text()), (2, ""), "{words:?}");
        assert!(answer.err.contains("it has more than "), "{}", answer.err);
    }
    assert!(begun.elapsed() < AT_ONCE);
}

/// The answer of the command whose standard input another fills without end.
fn endless(filled: &str, words: &[&str]) -> (Option<i32>, String) {
    let begun = Instant::now();
    let mut source = Command::new("yes")
        .arg(filled)
        .stdout(Stdio::piped())
        .stderr(Stdio::null())
        .spawn()
        .expect("yes starts");
    let output = Command::new(env!("CARGO_BIN_EXE_pilzdamo"))
        .args(words)
        .stdin(source.stdout.take().expect("a pipe"))
        .output()
        .expect("the command ends");
    // It ends by itself: nobody reads it.
    source.wait().expect("yes ends");
    assert!(begun.elapsed() < AT_ONCE);
    assert_eq!(output.stdout, b"");
    let err = String::from_utf8(output.stderr).expect("text");
    (output.status.code(), err)
}

#[test]
fn a_stream_without_an_end() {
    let (status, err) = endless("y", &["check", "-"]);
    assert_eq!(status, Some(1));
    assert!(
        err.starts_with("pilzdamo: standard input: Refused 2: "),
        "{err}"
    );
    let (status, err) = endless("clinic 1", &["place", "-"]);
    assert_eq!(status, Some(2));
    let due = "pilzdamo: standard input: it has more than 4000000 bytes, \
               and no text of its sort is read beyond them\n";
    assert_eq!(err, due);
    let file = example("desks.clinic");
    let hours = ["check", &file, "--at", "Mon 07:30", "--hours", "-"];
    let seats = ["seats", &file, &example("desks.choices"), "-"];
    for words in [&hours[..], &seats, &["unpack", &file, "--names", "-"]] {
        let (status, err) = endless("y", words);
        assert_eq!((status, err.as_str()), (Some(2), due), "{words:?}");
    }
    let (status, err) = endless("1 0", &["run", &file, "-"]);
    assert_eq!(status, Some(2));
    assert_eq!(err, due.replace("4000000", "16000000"));
}

#[test]
fn a_device_without_an_end() {
    if File::open("/dev/zero").is_err() {
        return;
    }
    let begun = Instant::now();
    let answer = pilzdamo(&["check", "/dev/zero"]);
    assert_eq!(answer.status, 1);
    assert!(
        answer.err.contains("/dev/zero: Refused 2: "),
        "{}",
        answer.err
    );
    let answer = pilzdamo(&["show", "/dev/zero"]);
    assert!(
        answer
            .text()
            .contains("\nlength: more than 16000000 bytes\n"),
        "{}",
        answer.text()
    );
    let answer = pilzdamo(&["in-force", "0", "/dev/zero", "/dev/zero"]);
    assert!(answer
        .err
        .contains("its length word is 0, and the number of bytes after it is more than"));
    assert!(begun.elapsed() < AT_ONCE);
}

/// As many choices as there can be, each with a comment.
#[test]
fn a_list_may_be_longer() {
    let folder = Folder::new("long list");
    let text = "1 0 # the thread that begins goes on by itself\n".repeat(65_535);
    assert!(text.len() > 3_000_000);
    let list = folder.file("list", text);
    let answer = pilzdamo(&["run", &example("desks.clinic"), &list]);
    assert_eq!(answer.status, 1, "{}", answer.err);
    assert!(answer.err.contains("Refused "), "{}", answer.err);
}
