//! The parts of a Markdown page: fenced blocks, headings, links, code in sentences.

use crate::script::repository;
use std::fs;

/// A page of the repository.
pub fn page(name: &str) -> String {
    let page = fs::read_to_string(repository(name));
    page.unwrap_or_else(|error| panic!("{name}: {error}"))
}

/// A fenced block: what stands after the fence, and its lines.
pub struct Block {
    pub info: String,
    pub body: String,
}

/// The fenced blocks of a page.
pub fn blocks(page: &str) -> Vec<Block> {
    let mut blocks = Vec::new();
    let mut lines = page.lines();
    while let Some(line) = lines.next() {
        if let Some(info) = line.strip_prefix("```") {
            let body = lines.by_ref().take_while(|line| *line != "```");
            let body = body.map(|line| format!("{line}\n")).collect();
            let info = info.to_string();
            blocks.push(Block { info, body });
        }
    }
    blocks
}

/// The lines of a page that stand in no block, fenced or indented.
pub fn prose(page: &str) -> impl Iterator<Item = &str> {
    let mut fenced = false;
    page.lines().filter(move |line| {
        if line.starts_with("```") {
            fenced = !fenced;
            return false;
        }
        !fenced && !line.starts_with("    ")
    })
}

/// The code in a line of prose.
pub fn code(line: &str) -> impl Iterator<Item = &str> {
    line.split('`').skip(1).step_by(2)
}

/// What a page's links lead to.
pub fn links(page: &str) -> Vec<String> {
    let mut links = Vec::new();
    for line in prose(page) {
        let plain: String = line.split('`').step_by(2).collect();
        let targets = plain.split("](").skip(1);
        links.extend(targets.filter_map(|rest| Some(rest.split_once(')')?.0.to_string())));
    }
    links
}

/// The anchors of a page's headings, as GitHub makes them.
pub fn anchors(page: &str) -> Vec<String> {
    let mut anchors: Vec<String> = Vec::new();
    for line in prose(page).filter(|line| line.starts_with('#')) {
        let heading = line.trim_start_matches('#').trim().to_lowercase();
        let letters = heading.chars().filter_map(|letter| match letter {
            ' ' => Some('-'),
            '-' | '_' => Some(letter),
            _ => letter.is_alphanumeric().then_some(letter),
        });
        let anchor: String = letters.collect();
        let twins = anchors.iter().filter(|twin| **twin == anchor).count();
        anchors.push(match twins {
            0 => anchor,
            _ => format!("{anchor}-{twins}"),
        });
    }
    anchors
}
