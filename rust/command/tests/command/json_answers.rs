//! `--json` of `check`, `place` and `measure`: what is read of it is what the crate answers.

use crate::common::{example, pilzdamo, Answer, Folder};
use crate::json::{object, one_line, Value};
use pilzdamo::{Placed, Verdict};
use std::fs;
use std::path::Path;
use std::sync::LazyLock;

/// The paths of all files and texts of the examples.
pub fn examples() -> Vec<String> {
    let mut found = Vec::new();
    below(Path::new(&example("")), &mut found);
    assert!(found.len() > 60, "{}", found.len());
    found
}

fn below(folder: &Path, found: &mut Vec<String>) {
    for entry in fs::read_dir(folder).expect("a folder") {
        let path = entry.expect("an entry").path();
        let end = path.extension().and_then(|end| end.to_str());
        match end {
            _ if path.is_dir() => below(&path, found),
            Some("clinic" | "txt" | "notice") => found.push(path.display().to_string()),
            _ => (),
        }
    }
}

/// The file that an example is, packed if it is a text.
pub fn bytes(path: &str) -> Vec<u8> {
    let bytes = fs::read(path).expect("a file");
    match text::is_text(&bytes) {
        true => text::pack(&String::from_utf8(bytes).unwrap())
            .unwrap()
            .bytes(),
        false => bytes,
    }
}

pub const REFUSAL: [&str; 9] = [
    "number", "place", "counts", "sentence", "who", "of", "line", "column", "what",
];

/// A refusal's object says what the engine answered, and its sentence is read back so.
pub fn assert_refusal(refusal: &Value, verdict: Verdict) {
    if verdict.is_clean() {
        assert!(refusal.is_null());
        return;
    }
    assert_eq!(refusal.keys(), REFUSAL);
    let (number, place) = (refusal["number"].word(), refusal["place"].word());
    assert_eq!(Verdict { number, place }, verdict);
    let told = pilzdamo::read_reason(refusal["sentence"].text().as_bytes());
    assert_eq!((told.number, told.place), (number, place));
    let counts = told.counted().expect("what the place counts");
    let word = format!("{counts:?}").to_lowercase();
    assert_eq!(refusal["counts"].text(), word);
    assert_eq!(refusal["who"].text(), who(number));
}

/// Who can mend a refusal, as `explain` says it.
fn who(number: u16) -> &'static str {
    static ALL: LazyLock<Vec<String>> = LazyLock::new(|| {
        let said = |number: u16| {
            let answer = pilzdamo(&["explain", &number.to_string()]);
            let (_, behind) = answer.text().split_once("who can mend it: ")?;
            behind.lines().next().map(str::to_string)
        };
        (1..=28).map(|number| said(number).expect("who")).collect()
    });
    &ALL[usize::from(number) - 1]
}

/// The message to be read has the same refusal: in a text at its line, of bytes with what
/// there is to say below the sentence.
fn assert_told(refusal: &Value, path: &str, answer: &Answer) {
    if refusal.is_null() {
        assert_eq!(answer.status, 0);
        return;
    }
    assert_eq!(answer.status, 1);
    let mut lines = answer.err.lines();
    let first = lines.next().unwrap();
    let what = refusal["what"].some().map(Value::text);
    match refusal["line"].some() {
        Some(line) => {
            let (line, column) = (line.number(), refusal["column"].number());
            let number = refusal["number"].number();
            let what = what.expect("what is wrong");
            assert_eq!(
                first,
                format!("{path}:{line}:{column}: refused {number}: {what}")
            );
        }
        None => {
            let sentence = refusal["sentence"].text();
            assert_eq!(first, format!("pilzdamo: {path}: {sentence}"));
            let below: Vec<&str> = lines.map(str::trim_start).collect();
            assert!(what.is_none_or(|what| below.join("; ").starts_with(what)));
        }
    }
}

fn status(verdict: Verdict) -> i32 {
    i32::from(!verdict.is_clean())
}

#[test]
fn check() {
    for path in examples() {
        let answer = pilzdamo(&["check", "--json", &path]);
        let (told, verdict) = (object(&answer), pilzdamo::check(&bytes(&path)));
        let keys = ["file", "answer", "at", "nothing_planned", "refusal"];
        assert_eq!(told.keys(), keys);
        assert_eq!(answer.status, status(verdict), "{path}");
        assert_eq!(told["file"].text(), path);
        let due = if verdict.is_clean() {
            "passes"
        } else {
            "refused"
        };
        assert_eq!(told["answer"].text(), due);
        let empty = bytes(&path).is_empty();
        assert_eq!(told["nothing_planned"], Value::Truth(empty));
        assert!(told["at"].is_null());
        assert_refusal(&told["refusal"], verdict);
        assert_told(&told["refusal"], &path, &pilzdamo(&["check", &path]));
    }
}

/// An object a line, in the order of the files; what can't be read has none.
#[test]
fn check_of_several() {
    let paths = examples();
    let mut words = vec!["check", "--json"];
    words.extend(paths.iter().map(String::as_str));
    let answer = pilzdamo(&words);
    assert_eq!((answer.status, answer.err.as_str()), (1, ""));
    let lines: Vec<Value> = answer.text().split_inclusive('\n').map(one_line).collect();
    assert_eq!(lines.len(), paths.len());
    for (told, path) in lines.iter().zip(&paths) {
        assert_eq!(told["file"].text(), path);
        assert_refusal(&told["refusal"], pilzdamo::check(&bytes(path)));
    }
    let answer = pilzdamo(&["check", &paths[0], "not there", &paths[1], "--json"]);
    assert_eq!((answer.status, answer.text().lines().count()), (2, 2));
    assert!(answer.err.starts_with("pilzdamo: not there: "));
}

/// Texts of which a line is missing: refused at a line, not understood, or sound still.
#[test]
fn check_of_texts_with_a_line_less() {
    let folder = Folder::new("json line less");
    let mut met = [0; 3];
    for path in examples().iter().filter(|path| path.ends_with(".txt")) {
        let text = fs::read_to_string(path).expect("a text");
        let lines: Vec<&str> = text.lines().collect();
        for left_out in (1..lines.len()).step_by(2) {
            let rest = [&lines[..left_out], &lines[left_out + 1..]].concat();
            let path = folder.file("text.txt", rest.join("\n"));
            let (answer, plain) = (
                pilzdamo(&["check", &path, "--json"]),
                pilzdamo(&["check", &path]),
            );
            assert_eq!(answer.status, plain.status);
            met[answer.status as usize] += 1;
            if answer.status == 2 {
                assert_eq!((answer.text(), &answer.err), ("", &plain.err));
                continue;
            }
            let told = object(&answer);
            assert_refusal(&told["refusal"], pilzdamo::check(&bytes(&path)));
            assert_told(&told["refusal"], &path, &plain);
        }
    }
    assert!(met.iter().all(|&count| count > 5), "{met:?}");
}

/// The figures of a placed file, or its refusal.
fn assert_figures(told: &Value, placed: Placed, answer: &str) {
    assert_refusal(&told["refusal"], placed.verdict());
    if placed.is_placed() {
        assert_eq!(told["answer"].text(), answer);
        assert_eq!(told["on_steps"].word(), placed.on_steps);
        assert_eq!(told["length"].word(), placed.length);
    } else {
        assert_eq!(told["answer"].text(), "refused");
        assert!(told["on_steps"].is_null() && told["length"].is_null());
    }
}

#[test]
fn place_and_measure() {
    let folder = Folder::new("json place");
    for (i, path) in examples().into_iter().enumerate() {
        let (file, out) = (bytes(&path), folder.at(&format!("placed {i}")));
        let measured = pilzdamo::measure(&file);
        let answer = pilzdamo(&["measure", &path, "--json"]);
        let told = object(&answer);
        assert_eq!(answer.status, status(measured.verdict()));
        assert_figures(&told, measured, "can be placed");
        let answer = pilzdamo(&["place", &path, "--json", "-o", &out]);
        let told = object(&answer);
        assert_eq!(answer.status, status(measured.verdict()));
        assert_eq!(told["file"].text(), path);
        assert_figures(&told, measured, "placed");
        match pilzdamo::placed(&file) {
            Ok((placed, _)) => {
                assert_eq!(told["out"].text(), out);
                let form = if path.ends_with(".txt") {
                    "text"
                } else {
                    "bytes"
                };
                assert_eq!(told["form"].text(), form);
                // A text that says that nothing is planned stays as it is.
                assert!(bytes(&out) == placed || file.is_empty());
                let plain = pilzdamo(&["place", &path]);
                assert_eq!(fs::read(&out).unwrap(), plain.out);
            }
            Err(_) => {
                assert!(told["out"].is_null() && told["form"].is_null());
                assert!(!Path::new(&out).exists());
                assert_told(&told["refusal"], &path, &pilzdamo(&["place", &path]));
            }
        }
    }
}

#[test]
fn texts_placed_as_bytes() {
    let folder = Folder::new("json bytes");
    let (path, out) = (example("booking.txt"), folder.at("out"));
    let told = object(&pilzdamo(&[
        "place", &path, "--bytes", "--json", "-o", &out,
    ]));
    assert_eq!(told["form"].text(), "bytes");
    let (placed, _) = pilzdamo::placed(&bytes(&path)).unwrap();
    assert_eq!(fs::read(&out).unwrap(), placed);
}

/// Where the placed file would go to standard output there is no room for an object.
#[test]
fn place_without_a_file_for_it() {
    let path = example("booking.clinic");
    for words in [
        &["place", &path, "--json"][..],
        &["place", "--json", &path, "-o", "-"],
    ] {
        let answer = pilzdamo(words);
        assert_eq!((answer.status, answer.text()), (2, ""));
        let due = "pilzdamo: place: --json needs -o OUT: the placed file goes there, and the \
                   object to standard output\n";
        assert!(answer.err.starts_with(due), "{}", answer.err);
    }
}

#[test]
fn roles_with_hours() {
    let (file, rows, role) = (
        example("hours/by-day.clinic"),
        example("refused/22-rows.hours"),
        example("refused/23-role.hours"),
    );
    let week = example("hours/week.hours");
    let asked = |file: &str, at: &str, hours: &str| {
        let words = ["check", file, "--json", "--at", at, "--hours", hours];
        object(&pilzdamo(&words))
    };
    let told = asked(&file, "Mon 12:00", &week);
    assert_eq!(told["answer"].text(), "passes");
    assert_eq!(told["at"].text(), "Mon 12:00");
    let told = asked(&file, "Sun 12:00", &week);
    assert_refusal(
        &told["refusal"],
        Verdict {
            number: 24,
            place: 1,
        },
    );
    assert_eq!(told["refusal"]["of"].text(), "file");
    let text = file.replace(".clinic", ".txt");
    let told = object(&pilzdamo(&["check", &text, "--json", "--at", "Sun 12:00"]));
    assert!(told["refusal"]["line"].number() > 1);
    let what = told["refusal"]["what"].text();
    assert_eq!(what, "admissions is closed at that minute");
    for (hours, number) in [(rows, 22), (role, 23)] {
        let told = asked(&file, "Mon 12:00", &hours);
        let refusal = &told["refusal"];
        assert_eq!(refusal["number"].number(), number);
        assert_eq!(refusal["of"].text(), "hours");
        assert_eq!(refusal["line"].is_null(), number == 22);
    }
}
