//! `--json` of `show`: the whole file can be had back from it, and any bytes whatever give
//! an object.

use crate::any_bytes::some_files;
use crate::common::{pilzdamo, pilzdamo_fed, Folder};
use crate::draft::Draft;
use crate::json::{object, one_line, Value};
use crate::json_answers::{assert_refusal, bytes, examples};
use std::fs;

/// The words of a mask of records: as many as there are sixteens.
fn masks<const W: usize>(references: &Value) -> [u16; W] {
    let mut words = [0; W];
    for reference in references.list() {
        let bit = reference["number"].number() - 1;
        words[bit / 16] |= 1 << (bit % 16);
    }
    words
}

/// The records that an object says.
fn draft(told: &Value) -> Draft {
    let number = |value: &Value| value["number"].word();
    let users = told["users"].list().iter();
    let roles = told["roles"].list().iter();
    let role = |role: &Value| {
        let ([a, b], [c, d]) = (masks(&role["sends"]), masks(&role["receives"]));
        [a, b, c, d]
    };
    let kinds = told["kinds"].list().iter();
    let channels = told["channels"].list().iter();
    let sessions = told["sessions"].list().iter();
    let juniors = roles.clone().map(|role| masks(&role["juniors"]));
    Draft {
        users: users.map(|user| masks(&user["roles"])).collect(),
        juniors: (told["version"].number() > 1).then(|| juniors.collect()),
        roles: roles.clone().map(role).collect(),
        kinds: kinds
            .map(|kind| [kind["carries"].some().map_or(0, number)])
            .collect(),
        channels: channels
            .map(|channel| [number(&channel["owner"]), number(&channel["kind"])])
            .collect(),
        sessions: sessions
            .map(|session| {
                let [mask] = masks(&session["roles"]);
                [number(&session["user"]), mask, session["root"].word()]
            })
            .collect(),
        nodes: nodes(told).iter().map(|node| node_words(node)).collect(),
        by_column: told["nodes_by"].text() == "column",
    }
}

/// All nodes, those of the sessions first.
fn nodes(told: &Value) -> Vec<&Value> {
    let sessions = told["sessions"].list().iter();
    let nodes = sessions.flat_map(|session| session["nodes"].list());
    nodes.chain(told["loose_nodes"].list()).collect()
}

fn node_words(node: &Value) -> [u16; 3] {
    ["tag", "f1", "f2"].map(|key| node[key].word())
}

/// A table of an object.
fn count(told: &Value, table: &str) -> usize {
    match table {
        "nodes" => nodes(told).len(),
        table => told[table].list().len(),
    }
}

/// What holds of the object of any file.
fn assert_shown(told: &Value, file: &[u8]) {
    let verdict = pilzdamo::check(file);
    assert_refusal(&told["refusal"], verdict);
    let answer = if verdict.is_clean() {
        "passes"
    } else {
        "refused"
    };
    assert_eq!(told["answer"].text(), answer);
    assert_eq!(told["length"].number(), file.len());
    assert_head(told, file);
    let Some(counts) = told["counts"].some() else {
        assert!(matches!(verdict.number, 1 | 2), "{verdict}");
        return;
    };
    let whole = counts
        .pairs()
        .iter()
        .all(|(table, due)| count(told, table) == due.number());
    // With all records there, the object says every byte.
    if whole && !matches!(verdict.number, 1 | 4 | 5) && !file.is_empty() {
        assert_eq!(draft(told).bytes(), file);
    }
    assert!(whole || matches!(verdict.number, 1 | 3..=5), "{verdict}");
    for (at, node) in nodes(told).iter().enumerate() {
        assert_eq!(node["number"].number(), at + 1);
        assert_operands(node);
    }
    for session in told["sessions"].list() {
        assert_held(session);
    }
}

/// The head has the file's first words; of zero bytes those that they are read as.
fn assert_head(told: &Value, file: &[u8]) {
    let head = told["head"].list().iter().map(Value::word);
    let head: Vec<u8> = head.flat_map(u16::to_le_bytes).collect();
    match file {
        [] => assert_eq!(Ok((head, 0)), pilzdamo::placed(file)),
        file => assert!(file.starts_with(&head)),
    }
}

/// The words of the operands are the fields that the tag uses.
fn assert_operands(node: &Value) {
    let words = [
        "end", "fork", "repeat", "new", "compare", "receive", "send", "on", "off",
    ];
    let [tag, f1, f2] = node_words(node);
    let word = words.get(usize::from(tag)).copied();
    assert_eq!(node["word"].some().map(Value::text), word);
    let due = match tag {
        3 | 5 | 7 | 8 => vec![f1],
        4 | 6 => vec![f1, f2],
        _ => vec![],
    };
    let operands = node["operands"].list();
    let found: Vec<u16> = operands.iter().map(|one| one["word"].word()).collect();
    assert_eq!(found, due);
    for operand in operands {
        let base = match operand["is"].text() {
            "user" | "kind" | "role" => 0,
            "channel" => 256,
            "variable" => 511,
            is => {
                assert_eq!(is, "nothing");
                assert!(operand["number"].is_null());
                continue;
            }
        };
        assert_eq!(operand["number"].word() + base, operand["word"].word());
    }
    let second = node["second_child"].some().map(Value::word);
    assert_eq!(second, (tag == 1).then_some(f1));
}

/// The roles held at each node, followed from the start by the tags alone.
fn assert_held(session: &Value) {
    let [start] = masks(&session["roles"]);
    let (mut held, mut waiting): (u16, Vec<u16>) = (start, Vec::new());
    for node in session["nodes"].list() {
        let [found] = masks(&node["held"]);
        assert_eq!(found, held);
        let role = match node["f1"].number() {
            role @ 1..=16 => 1 << (role - 1),
            _ => 0,
        };
        match node["tag"].number() {
            0 => held = waiting.pop().unwrap_or(0),
            1 => waiting.push(held),
            7 => held |= role,
            8 => held &= !role,
            _ => (),
        }
    }
    assert!(waiting.is_empty() || session["tree"].text() != "whole");
}

#[test]
fn every_example() {
    let folder = Folder::new("json show");
    for path in examples() {
        let answer = pilzdamo(&["show", &path, "--json"]);
        assert_eq!(answer.status, 0);
        let told = object(&answer);
        assert_eq!(told["file"].text(), path);
        assert_shown(&told, &bytes(&path));
        if path.ends_with(".txt") {
            assert_named(&told, &path);
        }
        let out = folder.at("out");
        let silent = pilzdamo(&["show", "--json", &path, "-o", &out]);
        assert_eq!((silent.status, silent.text()), (0, ""));
        assert_eq!(fs::read(&out).unwrap(), answer.out);
    }
}

/// Variables are numbered on their path, from 1 at the first node that binds one.
#[test]
fn what_a_node_binds() {
    let text = crate::text::bare_ward();
    let told = object(&pilzdamo_fed(&["show", "-", "--json"], text.as_bytes()));
    let sessions = told["sessions"].list().iter();
    let nodes = sessions.flat_map(|session| session["nodes"].list());
    let binds = nodes.filter_map(|node| node["binds"].some());
    let bound: Vec<(usize, &str)> = binds
        .map(|variable| (variable["number"].number(), variable["name"].text()))
        .collect();
    assert_eq!(bound, [(1, "reply"), (2, "found"), (1, "back")]);
}

/// The names are those of the text, and the lines too.
fn assert_named(told: &Value, path: &str) {
    let names = |table: &str| {
        let records = told[table].list().iter();
        records.map(|one| one["name"].text().to_string()).collect()
    };
    let text = fs::read_to_string(path).expect("a text");
    let due = text::pack(&text).expect("a sound text").names;
    let sessions = told["sessions"].list().iter();
    let sessions = sessions.map(|session| text::SessionNames {
        name: session["name"].text().to_string(),
        variables: bound(session),
    });
    let names = text::Names {
        kinds: names("kinds"),
        roles: names("roles"),
        limits: due.limits.clone(),
        users: names("users"),
        channels: names("channels"),
        sessions: sessions.collect(),
    };
    assert_eq!(names, due);
    for (role, limits) in told["roles"].list().iter().zip(&due.limits) {
        let open = role["open"].list().iter().map(Value::text);
        let seats = (!role["seats"].is_null()).then(|| role["seats"].number());
        assert_eq!(seats.unwrap_or(0), usize::from(limits.seats));
        let due = limits.open.iter().map(|open| open.to_string());
        assert!(open.eq(due), "{path}");
    }
    let line = |value: &Value| {
        text.lines()
            .nth(value["line"].number() - 1)
            .expect("a line")
    };
    for (table, word) in [
        ("users", "user"),
        ("roles", "role"),
        ("kinds", "kind"),
        ("channels", "channel"),
        ("sessions", "session"),
    ] {
        for one in told[table].list() {
            let start = format!("{word} {}", one["name"].text());
            assert!(line(one).starts_with(&start), "{start}");
        }
    }
    for node in nodes(told)
        .into_iter()
        .filter(|node| node["tag"].number() > 0)
    {
        let (line, step) = (line(node).trim(), node["step"].text());
        assert!(line.starts_with(step), "{line}: {step}");
        assert_words(node);
    }
}

/// The names of the variables that a session's nodes bind.
fn bound(session: &Value) -> Vec<String> {
    let nodes = session["nodes"].list().iter();
    let bound = nodes.filter_map(|node| node["binds"].some());
    bound.map(|one| one["name"].text().to_string()).collect()
}

/// A step is its word and the names of its operands.
fn assert_words(node: &Value) {
    let operands = node["operands"].list().iter();
    let operands: Vec<&str> = operands.map(|one| one["name"].text()).collect();
    let binds = node["binds"].some().map(|one| one["name"].text());
    let due = match (node["word"].text(), &operands[..], binds) {
        ("new", [kind], Some(name)) => format!("new {name}: {kind}"),
        ("receive", [channel], Some(name)) => format!("receive {name} on {channel}"),
        ("send", [channel, value], None) => format!("send {value} on {channel}"),
        ("compare", [one, other], None) => format!("compare {one} with {other}"),
        (word @ ("on" | "off"), [role], None) => format!("{word} {role}"),
        (word @ ("fork" | "repeat"), [], None) => word.to_string(),
        other => panic!("{other:?}"),
    };
    assert_eq!(node["step"].text(), due);
}

/// Any bytes whatever, by the crate and some of them by the built program.
#[test]
fn any_bytes() {
    for (i, file) in some_files(10_000).enumerate() {
        assert_shown(&one_line(&command::show::json(&file)), &file);
        if i % 50 == 0 {
            for words in [["show", "-", "--json"], ["check", "-", "--json"]] {
                let told = object(&pilzdamo_fed(&words, &file));
                assert_refusal(&told["refusal"], pilzdamo::check(&file));
            }
        }
    }
}

#[test]
fn long_files() {
    for length in [65_536, 65_537, 1_000_000] {
        let file = vec![1; length];
        assert_shown(&one_line(&command::show::json(&file)), &file);
    }
}

/// Of an input without an end the length isn't known.
#[test]
fn an_endless_input() {
    let told = object(&pilzdamo(&["show", "/dev/zero", "--json"]));
    assert!(told["length"].is_null());
    assert_eq!(told["refusal"]["number"].number(), 2);
}

/// As deep as trees get, and as long as a text.
#[test]
fn the_largest() {
    for tag in [1, 2, 3, 4, 9] {
        let mut draft = crate::files::booking();
        draft.nodes = vec![[tag, 1, 0]; 1_024];
        let file = draft.bytes();
        assert_shown(&one_line(&command::show::json(&file)), &file);
    }
    let mut text = "clinic 1\nuser u\nsession s by u\n".to_string();
    text += &"  compare u with u\n".repeat(1_023);
    let told = object(&pilzdamo_fed(&["show", "-", "--json"], text.as_bytes()));
    assert_eq!(nodes(&told).len(), 1_024);
    assert_eq!(nodes(&told)[1_022]["line"].number(), 1_026);
    assert_eq!(told["file"].text(), "-");
}
