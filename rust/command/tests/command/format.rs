//! What `docs/FORMAT.md` says in words is what the engine reads and writes. Its commands are those of `pages`.

use crate::common::{pilzdamo, pilzdamo_fed, Folder};
use crate::markdown::{blocks, page};

/// The block of `docs/FORMAT.md` that begins so.
pub fn block(start: &str) -> String {
    let page = page("docs/FORMAT.md");
    let mut found = blocks(&page).into_iter().map(|block| block.body);
    let found = found.find(|body| body.starts_with(start));
    found.unwrap_or_else(|| panic!("no block {start}"))
}

pub fn example() -> String {
    block("# A nurse asks")
}

/// The words at the start of each line.
fn numbers(block: &str) -> Vec<u16> {
    let line = |line: &str| -> Vec<u16> {
        let told = line.split("   ").next().unwrap_or("");
        told.split_whitespace()
            .map_while(|word| word.parse().ok())
            .collect()
    };
    block.lines().flat_map(line).collect()
}

fn words(bytes: &[u8]) -> Vec<u16> {
    let pairs = bytes.as_chunks().0;
    pairs.iter().copied().map(u16::from_le_bytes).collect()
}

/// The example as it is placed.
pub fn placed() -> String {
    let answer = pilzdamo_fed(&["place", "-"], example().as_bytes());
    answer.text().to_string()
}

#[test]
fn the_example_is_canonical_and_has_its_words() {
    let answer = pilzdamo_fed(&["unpack", "-"], example().as_bytes());
    let (_, without) = example()
        .split_once('\n')
        .map(|(a, b)| (a.to_string(), b.to_string()))
        .expect("lines");
    assert_eq!(answer.text(), without);
    let bytes = pilzdamo_fed(&["pack", "-"], example().as_bytes()).out;
    assert_eq!(bytes.len(), 128);
    assert_eq!(words(&bytes), numbers(&block("1  3 2 2 1 2 10")));
}

#[test]
fn a_run_and_its_words() {
    let folder = Folder::new("format run");
    let file = folder.file("placed.txt", placed());
    let bytes = pilzdamo(&["pack", &file]).out;
    let mut room = [0; pilzdamo::RUN_ROOM];
    let choices = [1, 0, 1, 0, 1, 0, 2, 0, 4, 0, 1, 4];
    assert!(pilzdamo::run(&bytes, &choices, &mut room).is_clean());
    let due = numbers(&block("6 0 4 1"));
    assert_eq!(due.len(), 4 + 2 + 4 * 12);
    assert_eq!(words(&room)[..due.len()], due);
}

/// Version 3 has the nodes by column, and version 2 by row.
#[test]
fn juniors_and_columns() {
    let text = block("clinic 3\n");
    let answer = pilzdamo_fed(&["unpack", "-"], text.as_bytes());
    assert_eq!(answer.text(), text);
    let bytes = pilzdamo_fed(&["pack", "-"], text.as_bytes()).out;
    assert_eq!(bytes.len(), 74);
    assert_eq!(words(&bytes), numbers(&block("3  1 2 0 0 1 3")));
    let rows = words(&pilzdamo_fed(&["rows", "-"], text.as_bytes()).out);
    assert_eq!(
        (rows[0], &rows[28..]),
        (2, &[7, 2, 0, 8, 2, 0, 0, 0, 0][..])
    );
}

/// The page has every number that can be explained.
#[test]
fn nothing_is_left_out() {
    let page = page("docs/FORMAT.md");
    for number in 1..=28 {
        assert!(page.contains(&format!("\n| {number} | ")), "{number}");
    }
}

/// Where a page shows the example it is the same.
#[test]
fn one_ward() {
    for name in ["README.md", "docs/GUIDE.md", "docs/JSON.md"] {
        let page = page(name);
        let wards = blocks(&page).into_iter();
        for ward in wards.filter(|block| block.info == "text ward.txt") {
            assert_eq!(ward.body, example(), "{name}");
        }
    }
}
