//! The tables of `docs/JSON.md` have the keys of the objects that stand there. That these are what the
//! command prints is seen by `pages`.

use crate::common::{pilzdamo, Folder};
use crate::format::example;
use crate::json::{parsed, Value};
use crate::markdown::page;

/// The part of the page below a heading.
fn part(heading: &str) -> String {
    let page = page("docs/JSON.md");
    let mut parts = page.split("\n## ");
    let found = parts.find(|part| part.lines().next() == Some(heading));
    found
        .unwrap_or_else(|| panic!("no heading {heading}"))
        .to_string()
}

/// The keys in the first column of each table of a part.
fn tables(heading: &str) -> Vec<Vec<String>> {
    let mut tables = Vec::new();
    for line in part(heading).lines() {
        match line.strip_prefix("| ") {
            Some(row) if row.starts_with("key |") => tables.push(Vec::new()),
            Some(row) => {
                let key = row.strip_prefix('`').and_then(|row| row.split('`').next());
                let table: &mut Vec<String> = tables.last_mut().expect("a table");
                table.push(key.expect("a key").to_string());
            }
            None => (),
        }
    }
    tables
}

/// The objects that stand in a part, each joined again where the page wraps it.
fn printed(heading: &str) -> Vec<Value> {
    let mut objects: Vec<String> = Vec::new();
    let part = part(heading);
    let blocks = crate::markdown::blocks(&part).into_iter();
    for block in blocks.filter(|block| block.info == "console wrapped") {
        for line in block.body.lines().filter(|line| !line.starts_with("$ ")) {
            match (line.strip_prefix(' '), objects.last_mut()) {
                (Some(more), Some(before)) => *before += more,
                _ => objects.push(line.to_string()),
            }
        }
    }
    assert!(!objects.is_empty(), "{heading}");
    let objects = objects.iter();
    objects
        .map(|object| parsed(object).expect("JSON"))
        .collect()
}

/// Each table of a part has the keys of its object.
fn assert_keys(heading: &str, objects: &[&Value]) {
    let tables = tables(heading);
    assert_eq!(tables.len(), objects.len(), "{heading}");
    for (table, object) in tables.iter().zip(objects) {
        assert_eq!(table, &object.keys(), "{heading}");
    }
}

#[test]
fn answers() {
    let told = printed("check");
    assert_eq!(told.len(), 2);
    for object in &told {
        assert_keys("check", &[object]);
    }
    assert_keys("A refusal", &[&told[1]["refusal"]]);
    assert!(told[0]["refusal"].is_null());
    for heading in ["place", "measure", "explain", "sheet"] {
        let told = printed(heading);
        assert_keys(heading, &[&told[0]]);
    }
}

#[test]
fn runs() {
    let told = printed("run");
    let (thread, made) = (&told[0]["threads"][2], &told[0]["made_channels"][0]);
    let variable = &thread["variables"][0];
    let seats = &told[0]["seats"];
    let role = &seats["roles"][0];
    assert_keys("run", &[&told[0], thread, variable, made, seats, role]);
    assert_keys("References", &[&thread["user"]]);
    assert_keys("Operands and values", &[&variable["value"]]);
    let told = printed("ready");
    assert_keys("ready", &[&told[0], &told[0]["ready"]]);
}

#[test]
fn a_file() {
    let told = &printed("show")[0];
    let folder = Folder::new("json page ward");
    let ward = folder.file("ward.txt", example());
    let ward = pilzdamo(&["show", &ward, "--json"]);
    let ward = parsed(ward.text()).expect("JSON");
    for told in [told, &ward] {
        let session = &told["sessions"][0];
        let (user, role, node) = (&told["users"][0], &told["roles"][0], &session["nodes"][0]);
        let (kind, channel) = (&ward["kinds"][0], &ward["channels"][0]);
        assert_keys("show", &[told, user, role, kind, channel, session, node]);
    }
}
