//! Texts with something changed in them, through every command: no panic, no hang, and the
//! exit status that the engine's answers give. `DAMAGED=20000 cargo test -p command damaged`
//! tries more of them.

use crate::common::{example, Folder};
use std::ffi::OsString;
use std::fmt::Write;
use std::fs;
use std::panic;
use std::process::{Command, Stdio};
use std::time::{Duration, Instant};
use text::{decoded, is_text, pack};

/// How many are tried if nothing else is said.
const COUNT: usize = 300;

/// The longest time for an answer.
const SOON: Duration = Duration::from_secs(2);

/// What is put into texts.
const BITS: [&[u8]; 36] = [
    b"clinic",
    b"kind",
    b"role",
    b"user",
    b"channel",
    b"session",
    b"send",
    b"receive",
    b"on",
    b"off",
    b"fork",
    b"branch",
    b"repeat",
    b"new",
    b"carries",
    b"owner",
    b":",
    b",",
    b";",
    b"#",
    b"->",
    b"\t",
    b"    ",
    b"\n",
    b"\r",
    b"\0",
    b"\xff",
    b"\xc3\xa4",
    b"\xe2\x80\xae",
    b"\xe2\x80\xa8",
    b"999999",
    b"\xef\xbb\xbf",
    b"; 1 seat",
    b"seats",
    b"open",
    b"Sun-Thu 22:00-06:00",
];

/// A small generator of numbers.
struct Dice(u64);

impl Dice {
    fn below(&mut self, most: usize) -> usize {
        self.0 = self
            .0
            .wrapping_mul(6_364_136_223_846_793_005)
            .wrapping_add(1_442_695_040_888_963_407);
        (self.0 >> 33) as usize % most.max(1)
    }
}

/// The texts of the examples.
fn examples() -> Vec<Vec<u8>> {
    let folders = [
        "",
        "spring/",
        "seats/",
        "head-nurse/",
        "hours/",
        "house/",
        "wards/",
        "published/",
    ];
    let mut texts = Vec::new();
    for folder in folders {
        let entries = fs::read_dir(example(folder)).expect("a folder");
        let mut paths: Vec<_> = entries
            .map(|entry| entry.expect("an entry").path())
            .collect();
        paths.retain(|path| path.extension().is_some_and(|end| end == "txt"));
        paths.sort();
        texts.extend(paths.iter().map(|path| fs::read(path).expect("a text")));
    }
    texts
}

/// A text with something changed: bytes, words or lines taken away, put in or moved.
fn damaged(dice: &mut Dice, texts: &[Vec<u8>]) -> Vec<u8> {
    let mut text = texts[dice.below(texts.len())].clone();
    for _ in 0..[1, 1, 1, 2, 5][dice.below(5)] {
        let at = dice.below(text.len());
        let until = (at + dice.below(20)).min(text.len());
        match dice.below(14) {
            0 => drop(text.drain(at..until)),
            1 => drop(text.splice(at..at, BITS[dice.below(BITS.len())].iter().copied())),
            2 => {
                let some = text[at..until].to_vec();
                let to = dice.below(text.len());
                drop(text.splice(to..to, some));
            }
            3 if !text.is_empty() => text[at] = dice.below(256) as u8,
            4 => text.truncate(at),
            5..=8 => {
                let mut lines: Vec<Vec<u8>> =
                    text.split(|&b| b == b'\n').map(<[u8]>::to_vec).collect();
                let (one, other) = (dice.below(lines.len()), dice.below(lines.len()));
                match dice.below(3) {
                    0 => lines.swap(one, other),
                    1 => drop(lines.remove(one)),
                    _ => lines.insert(other, lines[one].clone()),
                }
                text = lines.join(&b'\n');
            }
            9 => {
                let many = BITS[dice.below(BITS.len())].repeat(dice.below(3_000));
                drop(text.splice(at..at, many));
            }
            _ => {
                // A name for another.
                let words: Vec<&[u8]> = text
                    .split(|b| !b.is_ascii_alphanumeric())
                    .filter(|word| !word.is_empty())
                    .collect();
                let [old, new] = [0, 1].map(|_| {
                    words
                        .get(dice.below(words.len()))
                        .copied()
                        .unwrap_or(b"x")
                        .to_vec()
                });
                if let Some(at) = text.windows(old.len()).position(|window| window == old) {
                    text.splice(at..at + old.len(), new);
                }
            }
        }
    }
    text
}

/// The file that bytes are or say, if they can be understood, and the seats of its roles.
fn file(bytes: &[u8]) -> Option<(Vec<u8>, Vec<u16>)> {
    if !is_text(bytes) {
        return Some((bytes.to_vec(), Vec::new()));
    }
    let packed = pack(decoded(bytes).ok()?).ok()?;
    Some((packed.bytes(), packed.names.seats()))
}

/// Whether a file's run starts, with seats if a role has any.
fn begins(file: &[u8], seats: &[u16]) -> bool {
    let mut room = [0; pilzdamo::RUN_ROOM];
    let verdict = match seats.iter().any(|&seats| seats != 0) {
        true => pilzdamo::run_seated(file, &[], seats, &mut room).verdict(),
        false => pilzdamo::run(file, &[], &mut room),
    };
    verdict.is_clean()
}

/// Every command with a text, and its exit status by the engine's answer for its file; none
/// where the answer is not the engine's alone.
fn calls<'a>(
    text: &'a str,
    kept: &'a str,
    out: &'a str,
    bytes: &[u8],
) -> Vec<(Vec<&'a str>, Option<u8>)> {
    let file = file(bytes);
    let due = |clean: fn(&[u8]) -> bool| match &file {
        None => 2,
        Some((file, _)) => u8::from(!clean(file)),
    };
    let list = "/dev/null";
    let read = due(|file| pilzdamo::read(file).is_clean());
    let checked = due(|file| pilzdamo::check(file).is_clean());
    let placed = due(|file| pilzdamo::measure(file).is_placed());
    let begun = file.as_ref().map(|(file, seats)| begins(file, seats));
    let begun = begun.map_or(2, |begins| u8::from(!begins));
    let shown = due(|_| true);
    let packed = if is_text(bytes) { shown } else { 2 };
    // A sheet has a file's length in a word.
    let is_long = |file: &[u8]| file.len() > usize::from(u16::MAX);
    let summed = match &file {
        Some((file, _)) if is_long(file) => 2,
        _ => shown,
    };
    vec![
        (vec!["check", text], Some(checked)),
        (vec!["check", "--json", text], Some(checked)),
        (vec!["check", text, "--at=Mon 12:00", "--hours", list], None),
        (vec!["check", text, "--at=Mon 12:00"], None),
        (vec!["place", text, "-o", out], Some(placed)),
        (vec!["measure", text], Some(placed)),
        (vec!["measure", "--json", text], Some(placed)),
        (vec!["show", text], Some(shown)),
        (vec!["show", "--json", text], Some(shown)),
        (vec!["show", "--svg", text], Some(shown)),
        (vec!["strip", text, "-o", out], Some(read)),
        (vec!["pack", text, "-o", out], Some(packed)),
        (vec!["pack", text, "-o", out, "--hours", list], Some(packed)),
        (vec!["unpack", text], Some(read)),
        (vec!["unpack", kept, "--names", text], None),
        (vec!["check", kept, "--names", text], None),
        (vec!["merge", text, text, "-o", out], None),
        (vec!["merge", kept, text, "-o", out], None),
        (vec!["columns", text, "-o", out], None),
        (vec!["rows", text, "-o", out], None),
        (vec!["notice", "0", text, "-o", out], Some(read)),
        (vec!["in-force", "0", text, text], Some(1)),
        (vec!["sheet", text], Some(summed)),
        (vec!["run", text, list], Some(begun)),
        (vec!["run", "--trace", text, list], Some(begun)),
        (vec!["run", "--json", text, list], Some(begun)),
        (vec!["run", kept, text], None),
        (vec!["choices", text, list], Some(begun)),
        (vec!["ready", text, list], Some(begun)),
        (vec!["waiting", text, list], Some(begun)),
        (vec!["round", text, list], Some(begun)),
        (vec!["seats", text, list, text], None),
        (vec!["dispatch", text, "3"], Some(begun)),
        (vec!["dispatch", text, "9", "--sparing"], Some(begun)),
        (vec!["reason", text], Some(1)),
    ]
}

/// What is wrong with a call; empty if nothing is.
fn tried(words: &[&str], due: Option<u8>) -> String {
    let begun = Instant::now();
    let words: Vec<OsString> = words.iter().map(OsString::from).collect();
    let status = panic::catch_unwind(|| command::go(words.into_iter()));
    let taken = begun.elapsed();
    match status {
        Err(_) => "it panicked".to_string(),
        Ok(_) if taken > SOON => format!("it took {taken:?}"),
        Ok(status @ 0..=2) if due.is_none_or(|due| due == status) => String::new(),
        Ok(status) => format!("exit status {status}, and {due:?} is due"),
    }
}

/// Run by the test below, which sends what it prints nowhere.
#[test]
#[ignore = "a part of the next"]
fn every_call() {
    let Some(report) = std::env::var_os("DAMAGED_REPORT") else {
        return;
    };
    let folder = Folder::new("damaged call");
    let (out, kept) = (folder.at("out"), example("desks.clinic"));
    let count = std::env::var("DAMAGED")
        .ok()
        .and_then(|count| count.parse().ok());
    let (texts, mut dice) = (examples(), Dice(42));
    let (mut wrong, mut calls_made, mut sound) = (String::new(), 0, 0);
    let count = count.unwrap_or(COUNT);
    for number in 0..count {
        let bytes = damaged(&mut dice, &texts);
        let text = folder.file("text", &bytes);
        sound += usize::from(is_text(&bytes) && file(&bytes).is_some());
        for (words, due) in calls(&text, &kept, &out, &bytes) {
            calls_made += 1;
            let what = tried(&words, due);
            if !what.is_empty() {
                let shown = String::from_utf8_lossy(&bytes);
                writeln!(wrong, "text {number}, {words:?}: {what}\n{shown}\n").expect("room");
            }
        }
    }
    let all = format!("{count} texts, {sound} of them understood, {calls_made} calls\n{wrong}");
    fs::write(report, all).expect("it can be written");
}

#[test]
fn damaged_texts() {
    let folder = Folder::new("damaged");
    let report = folder.at("report");
    let this = std::env::current_exe().expect("a program");
    let status = Command::new(this)
        .args(["damaged::every_call", "--exact", "--ignored", "--nocapture"])
        .env("DAMAGED_REPORT", &report)
        .stdin(Stdio::null())
        .stdout(Stdio::null())
        .stderr(Stdio::null())
        .status();
    assert!(status.expect("it ends").success());
    let report = fs::read_to_string(report).expect("a report");
    let (told, wrong) = report.split_once('\n').expect("a line");
    println!("{told}");
    assert_eq!(wrong, "");
}
