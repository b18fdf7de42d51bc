//! Every link in a Markdown file leads to a file that is there and to a heading that it has, and so does every page that
//! a source, a help page or the man page names.

use crate::markdown::{anchors, links};
use crate::script::repository;
use std::fs;
use std::path::{Path, PathBuf};

/// The files below a folder, without what is built and what git keeps.
fn files(folder: &Path) -> Vec<PathBuf> {
    let mut found = Vec::new();
    for entry in fs::read_dir(folder).expect("a folder") {
        let path = entry.expect("an entry").path();
        let name = path.file_name().unwrap_or_default();
        let is_of_crates = folder.parent().is_some_and(|it| it.ends_with("crates"));
        let is_built = name == "target" || (name == "out" && is_of_crates);
        if path.is_dir() && !is_built && name != ".git" {
            found.extend(files(&path));
        } else if path.is_file() {
            found.push(path);
        }
    }
    found.sort();
    found
}

/// What is wrong with a link from a file.
fn wrong(from: &Path, link: &str) -> Option<String> {
    let (file, anchor) = link.split_once('#').unwrap_or((link, ""));
    let path = match file {
        "" => from.to_path_buf(),
        _ => from.parent().expect("a folder").join(file),
    };
    if !path.exists() {
        return Some(format!("{}: there is no {file}", from.display()));
    }
    if anchor.is_empty() {
        return None;
    }
    let page = fs::read_to_string(&path).expect("a page");
    let known = anchors(&page).iter().any(|known| known == anchor);
    (!known).then(|| format!("{}: {file} has no heading #{anchor}", from.display()))
}

#[test]
fn in_pages() {
    let mut flaws = Vec::new();
    let mut tried = 0;
    let root = repository(".").canonicalize().expect("a folder");
    for path in files(&root) {
        if path.extension().is_none_or(|ending| ending != "md") {
            continue;
        }
        let page = fs::read_to_string(&path).expect("a page");
        for link in links(&page) {
            if !link.starts_with("https://") {
                flaws.extend(wrong(&path, &link));
                tried += 1;
            }
        }
    }
    assert!(tried > 50, "{tried}");
    assert!(flaws.is_empty(), "{}", flaws.join("\n"));
}

/// The pages that a text names by their path from the root, such as `docs/CLI.md`.
fn named(text: &str) -> impl Iterator<Item = &str> {
    let parts =
        text.split(|letter: char| !letter.is_ascii_alphanumeric() && !"/.#-_".contains(letter));
    let parts = parts.map(|part| part.trim_end_matches('.'));
    parts.filter(|part| part.starts_with("docs/") && part.contains(".md"))
}

#[test]
fn in_sources_help_and_the_man_page() {
    let root = repository(".").canonicalize().expect("a folder");
    let mut sources = files(&root.join("rust"));
    sources.extend(
        ["pilzdamo", "staticlib", "test", "bench", "docs/pilzdamo.1"].map(|name| root.join(name)),
    );
    let mut tried = 0;
    for path in sources {
        let Ok(text) = fs::read_to_string(&path) else {
            continue;
        };
        for link in named(&text) {
            let flaw = wrong(&root.join("README.md"), link);
            assert!(flaw.is_none(), "{}: {flaw:?}", path.display());
            tried += 1;
        }
    }
    assert!(tried > 5, "{tried}");
}
