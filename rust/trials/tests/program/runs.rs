//! The program `run`: the state as lines, and the line of the refusal.
//!
//! `run FILE CHOICES` takes the names of two files: the clinic file, and the
//! choices as words, low byte first, two for each choice. It writes, if the run
//! goes to the end of the list or is halted at a choice, these lines:
//!
//! ```text
//! done N
//! threads T
//! channels M
//! channel I owner U kind K
//! thread I user U node N roles R.. variables V1 V2 V3 V4 V5 V6 V7 V8
//! ```
//!
//! with a `channel` line for each made channel and then a `thread` line for each
//! thread, both numbered from 1. All numbers are decimal without leading zeros,
//! fields are separated by one space, and each line ends with a newline. R.. are
//! the numbers of the roles in the mask, the lowest first, or `-` if there are
//! none; all eight variables are there, 0 where nothing is bound. A run that is
//! halted has the line `refused N P` after its state, the one before the choice;
//! a run that is refused before its first choice has that line and nothing else.
//!
//! A list whose length in bytes is no multiple of 4 is an odd list, 17, a lone
//! byte at its end included. Both files may have any length.
//!
//! Nothing is written on standard output if there are not exactly two arguments
//! (`usage: run FILE CHOICES` on standard error), or if a file can't be read
//! (`run: the clinic file cannot be read`, which comes first, or `run: the choices
//! cannot be read`).

use crate::run::{of_any_length, refused, Program};
use second::cases::{run_cases, NOTHING};
use second::draft::{to_bytes, word_at, Draft};
use second::{Version, RUN_ROOM};
use std::collections::BTreeSet;
use std::ffi::OsStr;
use std::fs;
use std::path::{Path, PathBuf};
use std::process::Output;
use trials::{busy, crowded, deal_run, largest, seed};

const RUN: Program = Program("run");

/// Two files for the program, which are gone when this is dropped.
struct Files {
    folder: PathBuf,
}

impl Files {
    /// Each test has its own folder.
    fn of(test: &str) -> Files {
        let folder = Path::new(env!("CARGO_TARGET_TMPDIR")).join(format!("run-{test}"));
        fs::create_dir_all(&folder).expect("a folder is made");
        Files { folder }
    }

    fn run(&self, file: &[u8], choices: &[u8]) -> Output {
        let [clinic, list] = ["clinic", "choices"].map(|name| self.folder.join(name));
        fs::write(&clinic, file).expect("the clinic file is written");
        fs::write(&list, choices).expect("the choices are written");
        RUN.run_with(&[clinic.as_os_str(), list.as_os_str()])
    }

    /// Asserts what is written on standard output.
    fn assert_writes(&self, file: &[u8], choices: &[u8], due: &[u8], what: &str) {
        let output = self.run(file, choices);
        let [written, due] = [&output.stdout[..], due].map(String::from_utf8_lossy);
        assert_eq!(written, due, "{what}");
        assert!(output.stderr.is_empty(), "{what}: standard error");
        assert!(output.status.success(), "{what}: {}", output.status);
    }

    /// Asserts the lines that the second implementation would have it write.
    /// Gives the refusal's number.
    fn assert_lines(&self, file: &[u8], choices: &[u16], what: &str) -> u16 {
        let mut out = [0; RUN_ROOM];
        let verdict = second::run(file, choices, &mut out);
        let halted = word_at(&out, 1) != 0;
        let mut due = Vec::new();
        if verdict.number == 0 || halted {
            due.extend(lines(&out).into_bytes());
        }
        if verdict.number != 0 {
            due.extend(refused(verdict.number, verdict.place));
        }
        self.assert_writes(file, &to_bytes(choices), &due, what);
        verdict.number
    }
}

impl Drop for Files {
    fn drop(&mut self) {
        // What can't be taken away stays in cargo's own folder.
        let _ = fs::remove_dir_all(&self.folder);
    }
}

/// The lines for a state.
fn lines(out: &[u8]) -> String {
    let mut at = 0..;
    let mut word = || word_at(out, at.next().expect("a word after each"));
    let [done, _, threads, channels] = [word(), word(), word(), word()];
    let mut lines = format!("done {done}\nthreads {threads}\nchannels {channels}\n");
    for number in 1..=channels {
        let [owner, kind] = [word(), word()];
        lines += &format!("channel {number} owner {owner} kind {kind}\n");
    }
    for number in 1..=threads {
        let [user, node, mask, _] = [word(), word(), word(), word()];
        let roles: Vec<u16> = (1..=16).filter(|r| mask >> (r - 1) & 1 != 0).collect();
        let roles = match roles[..] {
            [] => "-".to_string(),
            _ => spaced(&roles),
        };
        let variables: Vec<u16> = (0..8).map(|_| word()).collect();
        let variables = spaced(&variables);
        lines += &format!(
            "thread {number} user {user} node {node} roles {roles} variables {variables}\n"
        );
    }
    lines
}

fn spaced(numbers: &[u16]) -> String {
    let numbers: Vec<String> = numbers.iter().map(u16::to_string).collect();
    numbers.join(" ")
}

/// The lines of one state, word by word.
#[test]
fn a_state_as_lines() {
    let files = Files::of("lines");
    let case = run_cases().into_iter();
    let mut case = case.filter(|case| case.name == "received on it by its maker");
    let case = case.next().expect("a case of that name");
    let due = "done 5\n\
               threads 4\n\
               channels 2\n\
               channel 1 owner 1 kind 1\n\
               channel 2 owner 2 kind 1\n\
               thread 1 user 1 node 2 roles 2 variables 385 0 0 0 0 0 0 0\n\
               thread 2 user 2 node 6 roles 1 2 variables 386 3 0 0 0 0 0 0\n\
               thread 3 user 1 node 7 roles 1 variables 0 0 0 0 0 0 0 0\n\
               thread 4 user 2 node 12 roles 1 2 variables 386 0 0 0 0 0 0 0\n";
    let choices = to_bytes(&case.choices);
    files.assert_writes(&case.file, &choices, due.as_bytes(), case.name);
    let halted = to_bytes(&[&case.choices[..], &[9, 0, 1, 0]].concat());
    let due = due.to_string() + "refused 18 6\n";
    files.assert_writes(&case.file, &halted, due.as_bytes(), "halted at a choice");
    let due = b"refused 17 0\n";
    files.assert_writes(&case.file, &halted[2..], due, "an odd list");
    let none = Draft::default().bytes();
    let due = b"done 0\nthreads 0\nchannels 0\n";
    files.assert_writes(&none, &[], due, "no sessions");
}

/// A clinic with nothing planned runs with no threads.
#[test]
fn zero_bytes_1_25_and_26() {
    let files = Files::of("nothing");
    let nothing = to_bytes(&NOTHING);
    let state = "done 0\nthreads 0\nchannels 0\n";
    for length in [0, 1, 25, 26] {
        let sound = matches!(length, 0 | 26);
        for (choices, halted) in [(&[][..], ""), (&[1, 0], "refused 18 1\n")] {
            let due = match sound {
                true => format!("{state}{halted}").into_bytes(),
                false => refused(1, 0),
            };
            let what = format!("{length} bytes of nothing planned, {choices:?}");
            files.assert_writes(&nothing[..length], &to_bytes(choices), &due, &what);
        }
    }
}

/// The named cases, but for those whose output is too short: the program has
/// its own.
#[test]
fn named_cases() {
    let files = Files::of("cases");
    let mut numbers = BTreeSet::new();
    for case in run_cases() {
        if case.room >= RUN_ROOM {
            numbers.insert(files.assert_lines(&case.file, &case.choices, case.name));
        }
    }
    let due = [0, 1, 8, 9, 10, 11, 12, 13, 17, 18, 19, 20, 21];
    assert_eq!(numbers, BTreeSet::from(due));
}

#[test]
fn random_runs() {
    let files = Files::of("random");
    for index in 0..600 {
        let version = Version::BY_ROW[(index % 2) as usize];
        let dealt = deal_run(version, seed(), index);
        let what = format!("trials::deal_run({version:?}, {}, {index})", seed());
        files.assert_lines(&dealt.file, &dealt.choices, &what);
    }
}

#[test]
fn lists_of_any_length() {
    let files = Files::of("lists");
    let (file, choices) = busy(seed());
    let long = [&choices[..], &[1, 0, 1, 0]].concat();
    for words in [
        0, 1, 2, 3, 4, 100, 131_068, 131_070, 131_071, 131_072, 131_074,
    ] {
        files.assert_lines(&file, &long[..words], &format!("{words} words"));
    }
    let (file, choices) = crowded();
    assert_eq!(files.assert_lines(&file, &choices, "64 threads"), 0);
}

#[test]
fn lists_with_a_lone_byte_at_the_end() {
    let files = Files::of("bytes");
    let (file, choices) = busy(seed());
    let bytes = to_bytes(&choices);
    for length in [1, 2, 3, 5, 6, 7, 401, 262_139, 262_141] {
        let mut list = bytes.clone();
        list.resize(length, 0);
        let what = format!("a list of {length} bytes");
        files.assert_writes(&file, &list, &refused(17, 0), &what);
        files.assert_writes(&[], &list, &refused(17, 0), &what);
    }
}

#[test]
fn clinic_files_of_any_length() {
    let files = Files::of("clinics");
    for version in Version::BY_ROW {
        for (what, file) in of_any_length(largest(version, seed())) {
            files.assert_lines(&file, &[1, 0], &what);
        }
    }
}

/// Asserts that only this line is written, on standard error.
fn assert_message(output: Output, message: &str) {
    assert!(output.stdout.is_empty());
    assert_eq!(String::from_utf8_lossy(&output.stderr), message);
}

#[test]
fn another_number_of_arguments() {
    let names = [OsStr::new("clinic"); 4];
    for count in [0, 1, 3, 4] {
        let output = RUN.run_with(&names[..count]);
        assert_message(output, "usage: run FILE CHOICES\n");
    }
}

#[test]
fn files_that_cannot_be_read() {
    let files = Files::of("unreadable");
    let readable = files.folder.join("readable");
    fs::write(&readable, Draft::default().bytes()).expect("a file is written");
    let missing = files.folder.join("missing");
    let [folder, readable, missing] = [&files.folder, &readable, &missing].map(|p| p.as_os_str());
    let no_clinic = "run: the clinic file cannot be read\n";
    let no_choices = "run: the choices cannot be read\n";
    for (clinic, choices, message) in [
        (missing, readable, no_clinic),
        (folder, readable, no_clinic),
        (missing, missing, no_clinic),
        (readable, missing, no_choices),
        (readable, folder, no_choices),
    ] {
        assert_message(RUN.run_with(&[clinic, choices]), message);
    }
}
