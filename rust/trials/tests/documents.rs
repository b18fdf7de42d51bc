//! The documents against the tree: every promise, clause, definition, decision and
//! exported function that a document names is there, and none is left out.

use std::collections::{BTreeMap, BTreeSet};
use std::path::{Path, PathBuf};

fn root() -> PathBuf {
    Path::new(env!("CARGO_MANIFEST_DIR")).join("../..")
}

fn text(path: &str) -> String {
    std::fs::read_to_string(root().join(path)).unwrap_or_else(|error| panic!("{path}: {error}"))
}

/// The part of a page below a heading, up to the next heading of its level.
fn below<'a>(page: &'a str, heading: &str) -> &'a str {
    let (_, rest) = page
        .split_once(&format!("\n{heading}\n"))
        .unwrap_or_else(|| panic!("no heading {heading}"));
    let level = heading.split(' ').next().unwrap_or_default();
    let end = rest.find(&format!("\n{level} ")).unwrap_or(rest.len());
    &rest[..end]
}

/// The cells of all rows of tables, without heads and rules.
fn rows(part: &str) -> Vec<Vec<&str>> {
    let lines: Vec<&str> = part.lines().collect();
    let is_head = |at: usize| {
        lines
            .get(at + 1)
            .is_some_and(|next| next.starts_with("|---"))
    };
    let is_row = |at: &usize| lines[*at].starts_with("| ") && !is_head(*at);
    (0..lines.len())
        .filter(is_row)
        .map(|at| {
            lines[at]
                .trim_matches('|')
                .split('|')
                .map(str::trim)
                .collect()
        })
        .collect()
}

/// What stands between backticks.
fn quoted(cell: &str) -> Vec<&str> {
    cell.split('`').skip(1).step_by(2).collect()
}

/// The names of the promises.
fn promises() -> Vec<String> {
    let name = |line: &str| Some(line.strip_prefix("pub ")?.split_once(" :")?.0.to_string());
    let page = text("crates/engine/proofs/Promises.antt");
    page.lines().filter_map(name).collect()
}

/// Whether a text is a clause's name, such as F12 or K10.4.
fn is_clause(name: &str) -> bool {
    let Some(number) = name.strip_prefix(|first: char| first.is_ascii_uppercase()) else {
        return false;
    };
    let digits = |part: &str| !part.is_empty() && part.bytes().all(|byte| byte.is_ascii_digit());
    number.split('.').count() <= 2 && number.split('.').all(digits)
}

/// The clauses that a cell names: `F1, F3 to F5, K1.2 to K1.4`.
fn clauses(cell: &str) -> Vec<String> {
    let mut named = Vec::new();
    for part in cell.split(", ") {
        let (from, to) = part.split_once(" to ").unwrap_or((part, part));
        assert!(is_clause(from) && is_clause(to), "{cell}");
        let last = |name: &str| name.rfind(|c: char| !c.is_ascii_digit()).unwrap_or(0) + 1;
        let (series, low) = from.split_at(last(from));
        let (same, high) = to.split_at(last(to));
        assert_eq!(series, same, "{cell}");
        let number = |digits: &str| digits.parse::<u16>().expect("a number");
        named.extend((number(low)..=number(high)).map(|number| format!("{series}{number}")));
    }
    named
}

/// The clauses of the specification, which stand in bold.
fn specified() -> BTreeSet<String> {
    let page = text("docs/SPECIFICATION.md");
    let (body, _) = page.split_once("\n## Map of clauses\n").expect("a map");
    let mut all = BTreeSet::new();
    for bold in body.split("**").skip(1).step_by(2) {
        let name = bold.trim_end_matches('.');
        if is_clause(name) {
            assert!(all.insert(name.to_string()), "clause {name} stands twice");
        }
    }
    all
}

#[test]
fn every_promise_is_listed_once() {
    let page = text("docs/PROMISES.md");
    let mut listed = BTreeMap::new();
    for row in rows(below(&page, "## The promises")) {
        let [_, _, theorem, _] = row[..] else {
            panic!("{row:?}");
        };
        for name in quoted(theorem) {
            *listed.entry(name.to_string()).or_insert(0) += 1;
        }
    }
    let there: BTreeSet<String> = promises().into_iter().collect();
    let missing: Vec<&String> = there
        .iter()
        .filter(|name| !listed.contains_key(*name))
        .collect();
    assert!(missing.is_empty(), "docs/PROMISES.md lacks {missing:?}");
    let gone: Vec<&String> = listed
        .keys()
        .filter(|name| !there.contains(*name))
        .collect();
    assert!(gone.is_empty(), "no promise has the names {gone:?}");
    let twice: Vec<&String> = listed
        .iter()
        .filter(|(_, n)| **n > 1)
        .map(|(name, _)| name)
        .collect();
    assert!(twice.is_empty(), "listed more than once: {twice:?}");
}

/// Whether what stands between backticks is a name of several words: of a promise, a definition or an exported function.
fn is_name(quoted: &str) -> bool {
    let plain = |byte: u8| byte.is_ascii_lowercase() || byte.is_ascii_digit();
    let is_word = |part: &str| !part.is_empty() && part.bytes().all(plain);
    quoted.contains(['_', '-']) && quoted.split(['_', '-']).all(is_word)
}

/// The names that the crates' `specs` define.
fn definitions() -> BTreeSet<String> {
    let mut there = BTreeSet::new();
    for (name, _) in crates() {
        let folder = root().join("crates").join(name).join("specs");
        let Ok(entries) = std::fs::read_dir(folder) else {
            continue;
        };
        for entry in entries {
            let file = std::fs::read_to_string(entry.expect("an entry").path()).expect("a file");
            there.extend(file.lines().filter_map(defined).map(str::to_string));
        }
    }
    there
}

/// The names of the exported functions, each with its contract.
fn exported() -> BTreeMap<String, String> {
    let source = text("crates/engine/src/lib.rt");
    let mut exported = BTreeMap::new();
    for part in source.split("pub extern \"C\" fn ").skip(1) {
        let (name, _) = part.split_once('(').expect("a parameter list");
        let (_, contract) = part.split_once("ensures").expect("a contract");
        let (contract, _) = contract.split_once("\n{").expect("a body");
        exported.insert(name.to_string(), contract.to_string());
    }
    exported
}

/// Where the pages name no definition, each name of several words is a promise or an exported function.
#[test]
fn every_theorem_named_exists() {
    let there: BTreeSet<String> = promises().into_iter().collect();
    let exported = exported();
    let promised = text("docs/PROMISES.md");
    let answers = below(&promised, "## What each function answers");
    let (_, pinned) = promised
        .split_once("\n| definitions | pinned by |\n")
        .expect("the table of definitions");
    let (pinned, _) = pinned.split_once("\n\n").expect("its end");
    let without = promised.replacen(answers, "", 1).replacen(pinned, "", 1);
    let mut named: Vec<(&str, &str)> = Vec::new();
    for name in quoted(&without) {
        named.push(("docs/PROMISES.md", name));
    }
    let definitions = definitions();
    for row in pinned.lines().skip(1) {
        let (first, second) = row
            .trim_matches('|')
            .split_once('|')
            .expect("a row of two cells");
        for name in quoted(first) {
            assert!(definitions.contains(name), "{row}: no definition {name}");
        }
        for name in quoted(second) {
            assert!(there.contains(name), "{row}: no promise {name}");
        }
    }
    let specification = text("docs/SPECIFICATION.md");
    let (body, _) = specification
        .split_once("\n## Map of clauses\n")
        .expect("a map");
    for name in quoted(body) {
        named.push(("docs/SPECIFICATION.md", name));
    }
    let mut tried = 0;
    for (page, name) in named.into_iter().filter(|(_, name)| is_name(name)) {
        assert!(
            there.contains(name) || exported.contains_key(name),
            "{page}: no promise {name}"
        );
        tried += 1;
    }
    assert!(tried > there.len(), "{tried}");
}

#[test]
fn proofs_stand_where_the_page_says() {
    for row in rows(below(&text("docs/PROMISES.md"), "## The promises")) {
        let files = quoted(row[3]);
        assert!(!files.is_empty(), "{row:?}");
        for file in files {
            let path = root().join("crates").join(format!("{file}.antt"));
            assert!(path.is_file(), "{row:?}: {file} isn't there");
        }
    }
}

#[test]
fn promises_cite_clauses_that_are_there() {
    let there = specified();
    for row in rows(below(&text("docs/PROMISES.md"), "## The promises")) {
        for clause in clauses(row[0]) {
            assert!(
                there.contains(&clause),
                "{row:?}: there is no clause {clause}"
            );
        }
    }
}

#[test]
fn every_exported_function_is_listed() {
    let exported = exported();
    let page = text("docs/PROMISES.md");
    let mut listed = BTreeSet::new();
    for row in rows(below(&page, "## What each function answers")) {
        let name = quoted(row[0])[0];
        let contract = exported
            .get(name)
            .unwrap_or_else(|| panic!("{name} isn't exported"));
        for cell in &row[1..] {
            for words in quoted(cell) {
                assert!(
                    contract.contains(words),
                    "{name}: its contract lacks {words}"
                );
            }
        }
        assert!(listed.insert(name.to_string()), "{name} stands twice");
    }
    let missing: Vec<&String> = exported
        .keys()
        .filter(|name| !listed.contains(*name))
        .collect();
    assert!(missing.is_empty(), "docs/PROMISES.md lacks {missing:?}");
}

#[test]
fn every_clause_is_mapped() {
    let page = text("docs/SPECIFICATION.md");
    let there = specified();
    let mut mapped = BTreeSet::new();
    for row in rows(below(&page, "## Map of clauses")) {
        for clause in clauses(row[0]) {
            assert!(
                there.contains(&clause),
                "the map names {clause}, which is no clause"
            );
            assert!(mapped.insert(clause.clone()), "the map has {clause} twice");
        }
    }
    let missing: Vec<&String> = there
        .iter()
        .filter(|clause| !mapped.contains(*clause))
        .collect();
    assert!(missing.is_empty(), "the map lacks {missing:?}");
}

/// The name that a line of a file of definitions defines.
fn defined(line: &str) -> Option<&str> {
    let mut words = line.split_whitespace().peekable();
    while words
        .next_if(|word| ["abbrev", "unfoldable", "pub", "data", "record"].contains(word))
        .is_some()
    {}
    words.next().filter(|_| line.contains("pub "))
}

/// Whether a file of definitions defines a name.
fn defines(definitions: &str, name: &str) -> bool {
    definitions.lines().any(|line| defined(line) == Some(name))
}

#[test]
fn definitions_of_the_map_are_there() {
    let page = text("docs/SPECIFICATION.md");
    for row in rows(below(&page, "## Map of clauses")) {
        let mut file: Option<(&str, String)> = None;
        for name in quoted(row[2]) {
            if name.contains('/') {
                let path = match name.ends_with(".rt") {
                    true => format!("crates/{name}"),
                    false => format!("crates/{name}.antt"),
                };
                file = Some((name, text(&path)));
                continue;
            }
            // Types of the code stand before their file.
            if let Some((file, definitions)) =
                file.as_ref().filter(|(file, _)| file.contains("/specs/"))
            {
                assert!(
                    defines(definitions, name),
                    "{:?}: {file} has no {name}",
                    row[0]
                );
            }
        }
    }
}

#[test]
fn decisions_cited_are_there() {
    let decisions = text("docs/DECISIONS.md");
    let headings = decisions
        .lines()
        .filter_map(|line| line.strip_prefix("### "));
    let mut there = BTreeSet::new();
    for number in headings.filter_map(|heading| heading.split_once(". ").map(|(n, _)| n)) {
        assert!(there.insert(number), "decision {number} stands twice");
    }
    for page in [
        "docs/SPECIFICATION.md",
        "docs/ARCHITECTURE.md",
        "CONTRIBUTING.md",
    ] {
        for cited in text(page).split("(decision ").skip(1) {
            let number: String = cited.chars().take_while(char::is_ascii_digit).collect();
            assert!(
                there.contains(&number[..]),
                "{page}: there is no decision {number}"
            );
        }
    }
}

/// The crates of the list, each with those that it uses.
fn crates() -> Vec<(String, BTreeSet<String>)> {
    let list = text("crates.txt");
    let line = |line: &str| {
        let (head, used) = line.split_once(':').expect("a crate and what it uses");
        let (name, kind) = head.split_once(' ').unwrap_or((head, ""));
        assert!(["", "staticlib"].contains(&kind), "{line}");
        (
            name.to_string(),
            used.split_whitespace().map(str::to_string).collect(),
        )
    };
    list.lines().map(line).collect()
}

#[test]
fn every_crate_has_its_room() {
    let page = text("docs/ARCHITECTURE.md");
    let mut floors = BTreeMap::new();
    let parts = below(&page, "## Floors and rooms").split("\n### Floor ");
    for (floor, part) in parts.skip(1).enumerate() {
        assert!(part.starts_with(&format!("{floor}: ")), "floor {floor}");
        for row in rows(part) {
            for name in quoted(row[0]) {
                let before = floors.insert(name.to_string(), floor);
                assert_eq!(before, None, "{name} stands twice");
            }
        }
    }
    let crates = crates();
    for (name, used) in &crates {
        let floor = floors
            .get(name)
            .unwrap_or_else(|| panic!("no room for {name}"));
        // What isn't on the list is the toolchain's.
        for below in used.iter().filter_map(|used| floors.get(used)) {
            assert!(below <= floor, "{name} stands below what it uses");
        }
    }
    assert_eq!(floors.len(), crates.len(), "a room without a crate");
}

/// The list of what each crate uses, but for what another of these uses for it.
#[test]
fn the_picture_of_crates_is_that_of_the_list() {
    let crates = crates();
    let used = |name: &str| {
        crates
            .iter()
            .find(|(there, _)| there == name)
            .map(|(_, used)| used)
    };
    let width = crates.iter().map(|(name, _)| name.len()).max().unwrap_or(0);
    let mut due = String::new();
    for (name, all) in &crates {
        let through = |other: &&String| {
            let others = all.iter().filter_map(|user| used(user));
            !others.into_iter().any(|used| used.contains(*other))
        };
        let direct: Vec<&str> = all.iter().filter(through).map(|name| &name[..]).collect();
        due += format!("{name:width$}  {}", direct.join(" ")).trim_end();
        due += "\n";
    }
    let page = text("docs/ARCHITECTURE.md");
    let part = below(&page, "## Which crate stands on which");
    let (_, block) = part.split_once("```text\n").expect("a block");
    let (block, _) = block.split_once("```").expect("its end");
    if block != due && std::env::var_os("UPDATE").is_some() {
        let anew = page.replacen(
            &format!("```text\n{block}```"),
            &format!("```text\n{due}```"),
            1,
        );
        std::fs::write(root().join("docs/ARCHITECTURE.md"), anew).expect("written");
        return;
    }
    assert_eq!(block, due, "UPDATE=1 writes it anew");
}

/// What a heading is called in a link.
fn anchor(heading: &str) -> String {
    let kept = |c: &char| c.is_alphanumeric() || *c == ' ' || *c == '-' || *c == '_';
    let plain: String = heading.trim().chars().filter(kept).collect();
    plain.to_lowercase().replace(' ', "-")
}

#[test]
fn links_lead_somewhere() {
    for page in [
        "CONTRIBUTING.md",
        "docs/API.md",
        "docs/DECISIONS.md",
        "docs/PROMISES.md",
        "docs/SPECIFICATION.md",
    ] {
        let whole = text(page);
        let folder = Path::new(page).parent().expect("a folder");
        for link in whole
            .split("](")
            .skip(1)
            .filter_map(|rest| rest.split(')').next())
        {
            let (file, part) = link.split_once('#').unwrap_or((link, ""));
            let target = match file {
                "" => root().join(page),
                _ => root().join(folder).join(file),
            };
            assert!(target.exists(), "{page}: {link} leads nowhere");
            if !part.is_empty() {
                let there = std::fs::read_to_string(&target).expect("a page");
                let headings = there.lines().filter(|line| line.starts_with('#'));
                let mut anchors = headings.map(|line| anchor(line.trim_start_matches('#')));
                assert!(anchors.any(|it| it == part), "{page}: no heading {link}");
            }
        }
    }
}
