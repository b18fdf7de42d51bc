//! `--json` of `run`: what is read of it is what the crate answers, and has the
//! names that are printed.

use crate::common::{example, example_bytes, pilzdamo, without_seats, Answer, Folder};
use crate::json::{object, Value};
use crate::json_answers::{assert_refusal, bytes};
use pilzdamo::{State, RUN_ROOM};
use std::fs;

const FILES: [&str; 7] = [
    "transfer",
    "desks",
    "spring/bare",
    "spring/cut",
    "seats/asked",
    "booking",
    "nothing",
];

pub const LISTS: [&str; 19] = [
    "transfer.choices",
    "transfer-named.choices",
    "desks.choices",
    "seats/both-ask.choices",
    "seats/both-read.choices",
    "seats/one-by-one.choices",
    "seats/one-by-one-named.choices",
    "spring/cut-both-read.choices",
    "spring/cut-both-write.choices",
    "spring/cut-one-by-one.choices",
    "spring/one-seat-blocked.choices",
    "spring/one-seat-twice.choices",
    "spring/placed-both-read.choices",
    "spring/placed-one-by-one.choices",
    "refused/17-odd.choices",
    "refused/18-thread.choices",
    "refused/19-unequal.choices",
    "refused/20-thread.choices",
    "nothing.clinic",
];

/// Each file, as bytes and as text without seats, and placed where it can be.
pub fn files(folder: &Folder) -> Vec<String> {
    let mut found = vec![
        example("refused/choices.clinic"),
        example("refused/09-name.clinic"),
    ];
    for name in FILES {
        for end in ["clinic", "txt"] {
            let bytes = without_seats(example_bytes(&format!("{name}.{end}")));
            let name = format!("{}.{end}", name.replace('/', " "));
            let path = folder.file(&format!("bare {name}"), bytes);
            let placed = pilzdamo(&["place", &path]);
            found.push(path);
            if placed.status == 0 {
                found.push(folder.file(&name, placed.out));
            }
        }
    }
    found
}

/// `user 1`, or its name.
pub fn record(noun: &str, reference: &Value) -> String {
    match reference["name"].some() {
        Some(name) => name.text().to_string(),
        None => format!("{noun} {}", reference["number"].number()),
    }
}

/// The state as `run` prints it.
pub fn printed(told: &Value) -> String {
    let mut lines = vec![format!("choices done: {}", told["choices_done"].number())];
    if let Some(refusal) = told["refusal"].some() {
        lines[0] += &format!(", the next refused with {}", refusal["number"].number());
    }
    let threads = told["threads"].list();
    lines.push(format!("threads: {}", threads.len()));
    lines.extend(threads.iter().map(thread));
    let made = told["made_channels"].list();
    lines.push(format!("made channels: {}", made.len()));
    for channel in made {
        let (kind, owner) = (
            record("kind", &channel["kind"]),
            record("user", &channel["owner"]),
        );
        let number = channel["number"].number();
        lines.push(match channel["kind"]["name"].is_null() {
            true => format!("  made channel {number}: owner {owner}, {kind}"),
            false => format!("  made channel {number}: {kind}, owner {owner}"),
        });
    }
    lines.join("\n") + "\n"
}

fn thread(thread: &Value) -> String {
    let (number, user) = (thread["number"].number(), record("user", &thread["user"]));
    let step = thread["step"].text();
    let roles: Vec<String> = thread["roles"]
        .list()
        .iter()
        .map(|role| record("", role))
        .collect();
    let roles: Vec<&str> = roles.iter().map(|role| role.trim()).collect();
    let variables: Vec<String> = thread["variables"].list().iter().map(variable).collect();
    let variables = match &variables[..] {
        [] => String::new(),
        some => format!("; {}", some.join(", ")),
    };
    let Some(name) = thread["name"].some() else {
        let node = thread["node"].number();
        let roles = match &roles[..] {
            [] => "no role".to_string(),
            [role] => format!("role {role}"),
            roles => format!("roles {}", roles.join(", ")),
        };
        return format!("  thread {number}: {user}, node {node} ({step}), {roles}{variables}");
    };
    let stands = match (step, thread["line"].number()) {
        ("end", line) => format!("the end after line {line}"),
        (step, line) => format!("line {line} ({step})"),
    };
    let roles = match &roles[..] {
        [] => "no role".to_string(),
        roles => format!("as {}", roles.join(", ")),
    };
    format!(
        "  {number} {}: {user}, {stands}, {roles}{variables}",
        name.text()
    )
}

fn variable(variable: &Value) -> String {
    let value = &variable["value"];
    let value = record(value["is"].text(), value);
    format!("{} = {value}", record("variable", variable))
}

/// The state's numbers are those of the crate's.
fn assert_state(told: &Value, state: &State) {
    assert_eq!(told["choices_done"].word(), state.done);
    let threads = told["threads"].list();
    assert_eq!(threads.len(), state.threads.len());
    for (at, (told, thread)) in threads.iter().zip(&state.threads).enumerate() {
        assert_eq!(told["number"].number(), at + 1);
        assert_eq!(told["user"]["number"].word(), thread.user);
        assert_eq!(told["node"].word(), thread.node);
        assert_eq!(mask(&told["roles"]), thread.mask);
        let mut vars = [0; 8];
        for variable in told["variables"].list() {
            vars[variable["number"].number() - 1] = variable["value"]["word"].word();
        }
        assert_eq!(vars, thread.vars);
    }
    let made = told["made_channels"].list();
    assert_eq!(made.len(), state.made.len());
    for (told, channel) in made.iter().zip(&state.made) {
        assert_eq!(told["owner"]["number"].word(), channel.owner);
        assert_eq!(told["kind"]["number"].word(), channel.kind);
    }
}

/// The mask of records.
fn mask(references: &Value) -> u16 {
    let references = references.list().iter();
    references.fold(0, |mask, one| mask | 1 << (one["number"].number() - 1))
}

/// The numbers of a list that has no names.
pub fn numbers(list: &str) -> Option<Vec<u16>> {
    let text = fs::read_to_string(list).ok()?;
    let lines = text
        .lines()
        .map(|line| line.split('#').next().unwrap_or(""));
    let words = lines.flat_map(str::split_whitespace);
    words.map(|word| word.parse().ok()).collect()
}

#[test]
fn runs() {
    let folder = Folder::new("json runs");
    let mut halted = 0;
    for file in files(&folder) {
        for list in LISTS.map(example) {
            let plain = pilzdamo(&["run", &file, &list]);
            let answer = pilzdamo(&["run", &file, &list, "--json"]);
            assert_eq!(answer.status, plain.status);
            if answer.status == 2 {
                assert_eq!((answer.text(), &answer.err), ("", &plain.err));
                continue;
            }
            let told = object(&answer);
            assert_eq!(told["file"].text(), file);
            assert_eq!(told["choices"].text(), list);
            assert!(told["seats"].is_null());
            assert_ran(&told, &file, &list, &plain);
            halted += usize::from(told["answer"].text() == "halted");
        }
    }
    assert!(halted > 50, "{halted}");
}

fn assert_ran(told: &Value, file: &str, list: &str, plain: &Answer) {
    if told["answer"].text() == "refused" {
        for key in ["choices_done", "threads", "made_channels", "seats"] {
            assert!(told[key].is_null());
        }
        assert_eq!((plain.status, plain.text()), (1, ""));
    } else {
        assert_eq!(printed(told), plain.text());
    }
    let Some(choices) = numbers(list) else {
        return;
    };
    let mut room = [0; RUN_ROOM];
    let verdict = pilzdamo::run(&bytes(file), &choices, &mut room);
    assert_refusal(&told["refusal"], verdict);
    match told["answer"].text() {
        "done" => assert!(verdict.is_clean()),
        "halted" => {
            let refusal = &told["refusal"];
            assert_eq!(refusal["of"].text(), "choices");
            assert_place(refusal, list);
        }
        answer => assert_eq!(answer, "refused"),
    }
    if told["answer"].text() != "refused" {
        assert_state(told, &State::of(&room).expect("a state"));
    }
}

/// At the line and column of a refused choice stands its thread's number.
fn assert_place(refusal: &Value, list: &str) {
    let choices = numbers(list).expect("numbers");
    let thread = choices[2 * refusal["place"].number() - 2];
    let text = fs::read_to_string(list).expect("a list");
    let line = text
        .lines()
        .nth(refusal["line"].number() - 1)
        .expect("a line");
    let from = &line[refusal["column"].number() - 1..];
    assert_eq!(from.split_whitespace().next(), Some(&*thread.to_string()));
}
