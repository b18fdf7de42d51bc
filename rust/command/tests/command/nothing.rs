//! A clinic with nothing planned: files of 0, 1, 25 and 26 bytes, in every word that
//! takes one, by name and on standard input.

use crate::common::{example, pilzdamo, pilzdamo_fed, sentence, Answer, Folder};
use crate::draft::Draft;

/// The 26 bytes of a version 1 file with all counts 0.
fn nothing() -> Vec<u8> {
    let words = [1, 0, 0, 0, 0, 0, 0, 13, 13, 13, 13, 13, 13];
    let bytes = words.map(u16::to_le_bytes).concat();
    assert_eq!(bytes, Draft::default().bytes());
    bytes
}

const HOURS: &str = "--hours";
const AT: [&str; 2] = ["--at", "Mon 07:30"];

/// What every word comes to on a file and a list, in this order: check, place,
/// measure, the three at a minute, run, waiting, round, dispatch, merge with the 26 bytes.
fn asked(file: &str, input: &[u8], folder: &Folder, list: &str) -> Vec<Answer> {
    let (list, hours) = (folder.file("list", list), folder.file("hours", ""));
    let other = folder.file("other", nothing());
    let plain = ["check", "place", "measure"].map(|word| vec![word, file]);
    let at = plain
        .clone()
        .map(|words| [&words[..], &AT, &[HOURS, &hours]].concat());
    let listed = ["run", "waiting", "round"].map(|word| vec![word, file, &list]);
    let last = [vec!["dispatch", file], vec!["merge", file, &other]];
    let all = plain.into_iter().chain(at).chain(listed).chain(last);
    all.map(|words| pilzdamo_fed(&words, input)).collect()
}

/// The same by name and on standard input; gives what stands after the name.
fn both_ways(bytes: &[u8], folder: &Folder, list: &str) -> Vec<(i32, Vec<u8>, String)> {
    let file = folder.file("clinic", bytes);
    let without = |answers: Vec<Answer>, name: &str| -> Vec<_> {
        let answers = answers.into_iter();
        let cut = |text: &str| {
            text.replace(name, "FILE")
                .replace(&folder.at("list"), "LIST")
                .replace(&folder.at("other"), "OTHER")
        };
        let text = |out: Vec<u8>| match String::from_utf8(out) {
            Ok(text) => cut(&text).into_bytes(),
            Err(binary) => binary.into_bytes(),
        };
        answers
            .map(|Answer { status, out, err }| (status, text(out), cut(&err)))
            .collect()
    };
    let by_name = without(asked(&file, b"", folder, list), &file);
    let fed = without(asked("-", bytes, folder, list), "standard input");
    assert_eq!(by_name, fed);
    by_name
}

const STATE: &str = "choices done: 0\nthreads: 0\nmade channels: 0\n";

#[test]
fn zero_bytes() {
    let folder = Folder::new("nothing");
    let answers = both_ways(&[], &folder, "");
    let said = "(zero bytes: nothing is planned)";
    let (bytes, size) = (nothing(), "0 on steps, 26 bytes");
    let due: [(&[u8], String); 11] = [
        (b"", format!("FILE: passes {said}\n")),
        (&bytes, format!("FILE: placed, {size} {said}\n")),
        (b"", format!("FILE: can be placed, {size} {said}\n")),
        (b"", format!("FILE: passes at Mon 07:30 {said}\n")),
        (
            &bytes,
            format!("FILE: placed for Mon 07:30, {size} {said}\n"),
        ),
        (
            b"",
            format!("FILE: can be placed for Mon 07:30, {size} {said}\n"),
        ),
        (b"", STATE.to_string()),
        (b"", String::new()),
        (b"", format!("round: no choice can be done\n{STATE}")),
        (
            b"",
            "FILE: 0 rounds, 0 choices; then no choice can be done, 0 threads left\n".to_string(),
        ),
        (
            &bytes,
            format!(
                "FILE {said}, OTHER: merged, 0 users, 0 channels, 0 sessions, 0 nodes, 26 bytes\n"
            ),
        ),
    ];
    for (at, ((status, out, err), (written, text))) in answers.into_iter().zip(due).enumerate() {
        // Placing, dispatching and merging say it on standard error.
        let (out_due, err_due) = match at {
            1 | 4 | 9 | 10 => (written.to_vec(), text),
            _ => (text.into_bytes(), String::new()),
        };
        assert_eq!((status, out, err), (0, out_due, err_due), "answer {at}");
    }
}

/// What is placed of zero bytes is answered alike, but for what is said of them.
#[test]
fn the_26_bytes() {
    let folder = Folder::new("nothing-26");
    let said = " (zero bytes: nothing is planned)";
    let empty = both_ways(&[], &folder, "").into_iter();
    let without = |out: Vec<u8>| match String::from_utf8(out) {
        Ok(text) => text.replace(said, "").into_bytes(),
        Err(binary) => binary.into_bytes(),
    };
    let due: Vec<_> = empty
        .map(|(status, out, err)| (status, without(out), err.replace(said, "")))
        .collect();
    assert_eq!(both_ways(&nothing(), &folder, ""), due);
}

/// No thread can be chosen, and half a choice is none.
#[test]
fn lists() {
    let folder = Folder::new("nothing-lists");
    for bytes in [vec![], nothing()] {
        for (list, due) in [
            ("1 0", "at choice 1.\n  choice 1: thread 1, partner 0\n"),
            ("0 0", "at choice 1.\n  choice 1: thread 0, partner 0\n"),
            (
                "1",
                "; no place.\n  the list has 1 number: two for each choice",
            ),
        ] {
            for (status, _, err) in &both_ways(&bytes, &folder, list)[6..9] {
                assert_eq!(*status, 1);
                assert!(err.contains(due), "{err}");
            }
        }
    }
}

#[test]
fn one_byte_and_25() {
    let folder = Folder::new("nothing-25");
    for length in [1, 25] {
        for (status, out, err) in both_ways(&nothing()[..length], &folder, "") {
            assert_eq!((status, out), (1, vec![]));
            let due = format!("pilzdamo: FILE: {}\n", sentence(1, ""));
            assert!(err.starts_with(&due), "{err}");
        }
    }
}

#[test]
fn shown() {
    let head = "version: 1\n\
        counts: 0 users, 0 roles, 0 kinds, 0 channels, 0 sessions, 0 nodes\n\
        offsets: users 13, roles 13, kinds 13, channels 13, sessions 13, nodes 13\n\
        on steps: 0\n";
    let empty = "check: passes\nlength: 0 bytes: nothing is planned; read as these 26\n";
    let shown = |bytes: &[u8]| {
        let answer = pilzdamo_fed(&["show", "-"], bytes);
        assert_eq!((answer.status, answer.err.as_str()), (0, ""));
        answer.text().to_string()
    };
    assert_eq!(shown(&[]), format!("{empty}{head}"));
    let by_name = pilzdamo(&["show", &example("nothing.clinic")]);
    assert_eq!(by_name.text(), shown(&[]));
    let whole = "check: passes\nlength: 26 bytes\n";
    assert_eq!(shown(&nothing()), format!("{whole}{head}"));
    for (length, told) in [(1, "1 byte"), (25, "25 bytes")] {
        let text = shown(&nothing()[..length]);
        let due = format!("check: refused 1, marked !!\nlength: {told}\n!! Refused 1: ");
        assert!(text.starts_with(&due), "{text}");
    }
}

/// Placed into a file, it has the 26 bytes.
#[test]
fn placed_in_a_file() {
    let folder = Folder::new("nothing-placed");
    let out = folder.at("out");
    let answer = pilzdamo(&["place", &example("nothing.clinic"), "-o", &out]);
    assert_eq!(answer.status, 0, "{}", answer.err);
    assert_eq!(std::fs::read(&out).expect("it is written"), nothing());
}

#[test]
fn said_by_help_and_explain() {
    let help = pilzdamo(&["--help"]);
    let due = "A FILE of zero bytes, that of a clinic with nothing planned, passes.\n";
    assert!(help.text().contains(due));
    let explained = pilzdamo(&["explain", "1"]);
    let words: Vec<&str> = explained.text().split_whitespace().collect();
    let due = "(Zero bytes are no fault: a clinic that has nothing planned yet sends none.)";
    assert!(words.join(" ").contains(due), "{}", explained.text());
    assert!(explained.text().contains("1 to 25 bytes"));
}
