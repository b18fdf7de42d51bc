//! `--json` of `run --seats`.

use crate::common::{example, pilzdamo, Folder};
use crate::json::{object, Value};
use crate::json_answers::{assert_refusal, bytes};
use crate::json_runs::{files, numbers, printed, record, LISTS};
use pilzdamo::{Seats, Verdict};

#[test]
fn runs_with_seats() {
    let folder = Folder::new("json seats");
    let numbered = example("seats/one-holder.seats");
    let named = folder.file("named.seats", "holder 1 # and nobody else\n");
    let mut waited = 0;
    let files = files(&folder);
    let seated = ["spring", "seats", "booking"];
    let files = files
        .iter()
        .filter(|file| seated.iter().any(|part| name(file).contains(part)));
    for file in files {
        let (table, seats) = match file.ends_with(".txt") {
            true => (&named, of_holder(file)),
            false => (&numbered, numbers(&numbered).expect("numbers")),
        };
        for list in LISTS.map(example) {
            let words = ["run", file, &list, "--seats", table, "--json"];
            let answer = pilzdamo(&words);
            let plain = pilzdamo(&words[..5]);
            assert_eq!(answer.status, plain.status);
            if answer.status == 2 {
                assert!(!answer.err.contains(".seats"), "{}", answer.err);
                continue;
            }
            let told = object(&answer);
            if let Some(seats) = told["seats"].some() {
                let text = printed(&told) + &seats_printed(seats);
                assert_eq!(text, plain.text());
                waited += seats["got_none"].number();
            }
            if let Some(choices) = numbers(&list) {
                let due = pilzdamo::seats(&bytes(file), &choices, &seats);
                assert_refusal(&told["refusal"], due.verdict());
                assert_seats(&told, &due);
            }
        }
    }
    assert!(waited > 5, "{waited}");
}

fn name(path: &str) -> &str {
    path.rsplit('/').next().unwrap_or(path)
}

/// One seat for the role `holder` of a text.
fn of_holder(text: &str) -> Vec<u16> {
    let text = std::fs::read_to_string(text).expect("a text");
    let roles = text::pack(&text).expect("a sound text").names.roles;
    roles
        .iter()
        .map(|role| u16::from(role == "holder"))
        .collect()
}

fn assert_seats(told: &Value, due: &Seats) {
    let Some(seats) = told["seats"].some() else {
        assert_eq!(told["answer"].text(), "refused");
        return;
    };
    assert_eq!(seats["got_none"].word(), due.waited);
    assert_eq!(seats["last_got_none"], Value::Truth(due.last == 26));
    for told in seats["roles"].list() {
        let role = told["role"]["number"].word();
        assert_eq!(told["taken"].word(), due.in_role(role));
        let line = told["in_line"].list().iter();
        let line: Vec<u16> = line.map(|one| one["number"].word()).collect();
        assert_eq!(line, due.line_of(role));
    }
}

/// The seats as `run` prints them.
fn seats_printed(seats: &Value) -> String {
    let several = |count: usize, one: &str| match count {
        1 => format!("1 {one}"),
        count => format!("{count} {one}s"),
    };
    let role = |told: &Value| {
        let seats = told["seats"].some();
        let seats = seats.map_or("no limit".to_string(), |seats| {
            several(seats.number(), "seat")
        });
        let taken = several(told["taken"].number(), "session");
        let line = told["in_line"].list().iter().map(|one| record("", one));
        let line: Vec<String> = line.map(|one| one.trim().to_string()).collect();
        let line = match line.len() {
            0 => String::new(),
            1 => format!(", in line: session {}", line[0]),
            _ => format!(", in line: sessions {}", line.join(", ")),
        };
        let name = record("", &told["role"]);
        format!("role {}: {seats}, taken by {taken}{line}\n", name.trim())
    };
    let mut text: String = seats["roles"].list().iter().map(role).collect();
    text += &format!("choices that got no seat: {}\n", seats["got_none"].number());
    if seats["last_got_none"] == Value::Truth(true) {
        let meaning = pilzdamo::meaning(26).expect("a refusal");
        text += &format!("the last choice done: {meaning}\n");
    }
    text
}

/// A table that can't be one, and a start that finds no seat.
#[test]
fn seats_that_are_refused() {
    let few = example("refused/17-short.seats");
    let words = [
        "run",
        &example("spring/bare.clinic"),
        "-",
        "--json",
        "--seats",
        &few,
    ];
    let told = object(&pilzdamo(&words));
    let refusal = &told["refusal"];
    assert_refusal(
        refusal,
        Verdict {
            number: 17,
            place: 0,
        },
    );
    assert_eq!(refusal["of"].text(), "seats");
    assert!(refusal["what"]
        .text()
        .starts_with("the table has 2 numbers"));
    let (file, one) = (
        example("refused/26-start.clinic"),
        example("refused/26-start.seats"),
    );
    let told = object(&pilzdamo(&["run", &file, "-", "--json", "--seats", &one]));
    assert_refusal(
        &told["refusal"],
        Verdict {
            number: 26,
            place: 2,
        },
    );
    assert_eq!(told["refusal"]["of"].text(), "file");
    assert!(told["threads"].is_null() && told["seats"].is_null());
}
