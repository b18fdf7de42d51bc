//! The C example of docs/API.md, compiled and run, and its table of calls. The Rust
//! examples of that page are doc tests of the crate.

use std::process::Command;

const PAGE: &str = include_str!("../../../docs/API.md");
const FOLDER: &str = env!("CARGO_MANIFEST_DIR");

/// The code blocks of the page in one language.
fn blocks(language: &str) -> Vec<&'static str> {
    let fence = format!("\n```{language}\n");
    let cut = |part: &'static str| part.split_once("\n```").map(|(block, _)| block);
    PAGE.split(&fence[..]).skip(1).filter_map(cut).collect()
}

#[test]
fn the_c_example_prints_what_the_page_says() {
    let ([source], [printed]) = (&blocks("c")[..], &blocks("text")[..]) else {
        panic!("one C program and what it prints");
    };
    let tmp = env!("CARGO_TARGET_TMPDIR");
    let (path, program) = (format!("{tmp}/api.c"), format!("{tmp}/api"));
    std::fs::write(&path, format!("{source}\n")).expect("written");
    let compiled = Command::new("cc")
        .current_dir(FOLDER)
        .args([
            "-std=c99",
            "-Wall",
            "-Wextra",
            "-Werror",
            "-pedantic",
            "-I.",
        ])
        .args([&path, env!("PILZDAMO_ARCHIVE"), "-o", &program])
        .output()
        .expect("cc starts");
    let said = String::from_utf8_lossy(&compiled.stderr);
    assert!(compiled.status.success(), "{said}");
    let file = format!("{FOLDER}/../../examples/desks.clinic");
    let output = Command::new(&program)
        .arg(file)
        .output()
        .expect("it starts");
    assert_eq!(
        String::from_utf8_lossy(&output.stdout),
        format!("{printed}\n")
    );
}

#[test]
fn every_function_of_the_header_is_listed() {
    let header = include_str!("../pilzdamo.h");
    let calls = PAGE
        .split("\n## ")
        .find(|part| part.starts_with("All calls"));
    let calls = calls.expect("a table of calls");
    let listed: Vec<&str> = calls.split('`').skip(1).step_by(2).collect();
    let code = header
        .split("*/")
        .map(|part| part.split("/*").next().unwrap_or_default());
    let mut functions = 0;
    for part in code.flat_map(|code| code.split("pilzdamo_")).skip(1) {
        let Some((name, _)) = part.split_once('(') else {
            continue;
        };
        if name
            .bytes()
            .all(|byte| byte.is_ascii_lowercase() || byte == b'_')
        {
            functions += 1;
            assert!(listed.contains(&&format!("pilzdamo_{name}")[..]), "{name}");
        }
    }
    assert_eq!(functions, 28);
}
