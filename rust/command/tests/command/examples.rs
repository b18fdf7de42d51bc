//! The files in `examples` are those that `files` builds.

use crate::common::{example, example_bytes};
use crate::files;
use crate::markdown::page;
use std::fs;

#[test]
fn every_file_has_its_bytes() {
    for (name, bytes) in files::all() {
        assert_eq!(example_bytes(name), bytes, "{name}");
    }
}

/// `cargo test -p command -- --ignored write_the_files`
#[test]
#[ignore = "writes the files anew"]
fn write_the_files() {
    for (name, bytes) in files::all() {
        fs::write(example(name), bytes).expect("it can be written");
    }
}

/// The booking has the words that the paper gives.
#[test]
fn the_booking_is_the_papers() {
    let words = [
        1, 2, 2, 2, 2, 1, 3, 13, 15, 23, 25, 29, 32, 3, 0, 1, 0, 0, 0, 3, 0, 0, 0, 0, 0, 2, 1, 2,
        2, 1, 0, 1, 6, 257, 2, 6, 258, 2, 0, 0, 0,
    ];
    assert_eq!(files::booking().words(), words);
    assert_eq!(example_bytes("booking.clinic").len(), 82);
}

/// Each file and list has a command in a page; `pages` runs them.
#[test]
fn the_readme_names_every_example() {
    let pages = ["examples/README.md", "examples/published/README.md"].map(page);
    let commands: String = pages.concat();
    let folders = [
        "head-nurse/",
        "hours/",
        "house/",
        "notices/",
        "published/",
        "spring/",
        "seats/",
        "wards/",
    ];
    for folder in folders.into_iter().chain(["", "refused/"]) {
        for entry in fs::read_dir(example(folder)).expect("a folder") {
            let entry = entry.expect("an entry");
            let name = entry.file_name().display().to_string();
            if entry.path().is_file() && name != "README.md" {
                let path = format!("examples/{folder}{name}");
                assert!(commands.contains(&path), "{path}");
            }
        }
    }
}
