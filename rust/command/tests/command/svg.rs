//! Pictures of the examples, of any bytes and of large files.

use crate::any_bytes;
use crate::common::{example, pilzdamo, pilzdamo_fed, Folder};
use crate::draft::*;
use crate::files;
use crate::picture::{has_all, is_marked, nodes, picture, roles};
use std::collections::{BTreeMap, BTreeSet};
use std::fs;
use std::path::{Path, PathBuf};
use std::process::Command;

/// The files below `examples` whose names end so.
fn examples(end: &str) -> Vec<PathBuf> {
    let (mut found, mut folders) = (Vec::new(), vec![PathBuf::from(example(""))]);
    while let Some(folder) = folders.pop() {
        for entry in fs::read_dir(folder).expect("a folder") {
            let path = entry.expect("an entry").path();
            match path.is_dir() {
                true => folders.push(path),
                false if path.to_string_lossy().ends_with(end) => found.push(path),
                false => (),
            }
        }
    }
    assert!(found.len() > 1, "{end}");
    found
}

fn named(path: &Path) -> &str {
    path.to_str().expect("a name")
}

#[test]
fn every_example() {
    for path in [examples(".clinic"), examples(".notice")].concat() {
        let file = fs::read(&path).expect("a file");
        let svg = picture(&[named(&path)], b"");
        is_marked(&svg, &file);
        if text::unpack(&file).is_some() {
            has_all(&svg, &file);
        }
    }
}

#[test]
fn every_text() {
    for path in examples(".txt") {
        let file = pilzdamo(&["pack", named(&path)]).out;
        let svg = picture(&[named(&path)], b"");
        has_all(&svg, &file);
        let refused = svg.of_class("refused").len();
        assert_eq!(refused, usize::from(!pilzdamo::check(&file).is_clean()));
    }
}

#[test]
fn what_is_placed() {
    for name in files::BARE {
        let placed = pilzdamo(&["place", &example(name)]).out;
        let svg = picture(&["-"], &placed);
        has_all(&svg, &placed);
        is_marked(&svg, &placed);
        assert!(!svg.of_class("band").is_empty());
    }
}

#[test]
fn any_bytes() {
    for file in any_bytes::some_files(300) {
        let svg = picture(&["-"], &file);
        is_marked(&svg, &file);
        let there = nodes(&svg);
        assert!(there.keys().copied().eq(1..=there.len()));
    }
}

/// The words of a text are in its picture: those of the session and of each node, and
/// the roles in bands, marks and the legend.
#[test]
fn a_text_is_drawn_in_its_names() {
    let placed = pilzdamo(&["place", &example("booking.txt")]).out;
    let svg = picture(&["-"], &placed);
    let heading = &svg.of_class("heading")[0].text;
    assert_eq!(heading, "session book by scheduler");
    let nodes = nodes(&svg);
    let words: Vec<&str> = nodes.values().map(|node| node.child("title")).collect();
    let due = [
        "node 1: on holder",
        "node 2: send desk on notes; held: holder",
        "node 3: send desk on bookings; held: holder",
        "node 4: off holder; held: holder",
        "node 5: end",
    ];
    assert_eq!(words, due);
    assert_eq!(nodes[&2].of_class("band")[0].child("text"), "holder");
    assert_eq!(nodes[&1].of_class("on")[0].child("text"), "+ holder");
    assert_eq!(nodes[&4].of_class("off")[0].child("text"), "- holder");
    let legend = svg.of_class("legend");
    let legend: Vec<&str> = legend.iter().map(|role| role.child("text")).collect();
    assert_eq!(legend, ["clerk", "holder"]);
}

/// What is refused of a text is said at the foot with its line.
#[test]
fn a_refused_text() {
    let svg = picture(&[&example("booking.txt")], b"");
    let foot: Vec<&str> = svg
        .of_class("foot")
        .iter()
        .map(|line| &line.text[..])
        .collect();
    let foot = foot.join(" ");
    let meaning = pilzdamo::meaning(13).expect("a phrase");
    assert!(
        foot.starts_with(&format!("!! {meaning} at node 1, a send.")),
        "{foot}"
    );
    assert!(foot.contains(" line 13: "), "{foot}");
}

/// A role has one colour, which no other has, wherever it stands.
#[test]
fn each_role_has_its_colour() {
    let mut draft = Draft::default().user(&[]);
    (1..=16).for_each(|_| draft = draft.clone().role(&[], &[]));
    let steps: Vec<_> = (1..=16).map(on).chain([END]).collect();
    let svg = picture(&["-"], &draft.session(1, &steps).bytes());
    let rules = svg
        .child("style")
        .lines()
        .filter_map(|line| line.strip_prefix(".role-"));
    let rules: BTreeMap<&str, &str> = rules.filter_map(|rule| rule.split_once(' ')).collect();
    let colours: BTreeSet<&str> = rules.values().copied().collect();
    assert_eq!((rules.len(), colours.len()), (16, 16));
    let legend = svg.of_class("legend");
    let names: Vec<&str> = legend.iter().map(|role| role.child("title")).collect();
    assert_eq!(names[..2], ["role 1", "role 2"]);
    assert_eq!(names.len(), 16);
    assert_eq!(roles(&svg, "legend"), u16::MAX);
}

/// As many nodes as a file can have: as sessions, below each other, and as forks whose
/// first branch ends at once.
#[test]
fn large_files() {
    let session = [vec![on(1)], vec![compare(1, 1); 29], vec![off(1), END]].concat();
    let tables = Draft::default().user(&[1]).role(&[], &[]);
    let mut sessions = tables.clone();
    (0..32).for_each(|_| sessions = sessions.clone().session(1, &session));
    let chain = [vec![compare(1, 1); 1_023], vec![END]].concat();
    let forks = (0..511).flat_map(|i| [fork(2 * i + 3), END]);
    let forks: Vec<_> = forks.chain([END]).collect();
    let chain = tables.clone().session(1, &chain);
    for draft in [sessions, chain, tables.session(1, &forks)] {
        let file = draft.bytes();
        let svg = picture(&["-"], &file);
        has_all(&svg, &file);
        assert!(svg.number("width") < 50_000 && svg.number("height") < 50_000);
        let length = pilzdamo_fed(&["show", "-", "--svg"], &file).out.len();
        assert!(length < 800 * 1_024, "{length}");
    }
}

/// A picture of small sessions keeps to the width that the page names, and one of a wide
/// session is as wide as that takes.
#[test]
fn how_wide_a_picture_is() {
    let tables = Draft::default().user(&[]);
    let mut small = tables.clone();
    (0..32).for_each(|_| small = small.clone().session(1, &[END]));
    let wide = |draft: Draft| picture(&["-"], &draft.bytes()).number("width");
    assert_eq!(wide(small), 1_592);
    let forks: Vec<_> = (0..20).map(|i| fork(41 - i)).collect();
    let ends = [END; 21];
    assert_eq!(
        wide(tables.session(1, &[&forks[..], &ends].concat())),
        1_820
    );
}

/// The name of a file may have any characters; those that do not show are written out.
#[test]
fn any_name() {
    let folder = Folder::new("any name");
    let name = "<&amp;\"'>\u{1}\n]]>\u{ffff} ä.clinic";
    let path = folder.file(name, files::booking().bytes());
    let svg = picture(&[&path], b"");
    assert_eq!(svg.child("title"), text::printable(&path));
}

/// With `-o` the picture goes to a file, and never over the one that is shown.
#[test]
fn into_a_file() {
    let folder = Folder::new("picture");
    let (file, out) = (example("booking.txt"), folder.at("booking.svg"));
    let answer = pilzdamo(&["show", &file, "--svg", "-o", &out]);
    assert_eq!((answer.status, answer.text()), (0, ""));
    let due = pilzdamo(&["show", &file, "--svg"]).out;
    assert_eq!(fs::read(&out).expect("a picture"), due);
    let own = folder.file("own.clinic", files::booking().bytes());
    let answer = pilzdamo(&["show", &own, "--svg", "-o", &own]);
    assert_eq!(answer.status, 2, "{}", answer.err);
    assert_eq!(
        fs::read(&own).expect("it is there"),
        files::booking().bytes()
    );
}

/// The pictures in `examples`, and what prints them at the root of the project.
const KEPT: [(&str, &str); 2] = [
    ("booking-before.svg", "P show examples/booking.txt --svg"),
    (
        "booking-after.svg",
        "P place examples/booking.txt | P show - --svg",
    ),
];

fn printed(command: &str) -> Vec<u8> {
    let program = concat!("'", env!("CARGO_BIN_EXE_pilzdamo"), "'");
    let output = Command::new("bash")
        .args(["-c", &command.replace('P', program)])
        .current_dir(example(".."))
        .output();
    output.expect("bash starts").stdout
}

#[test]
fn the_kept_pictures() {
    for (name, command) in KEPT {
        let kept = fs::read(example(name)).expect("a picture");
        assert!(kept == printed(command), "{name} is not what is printed");
    }
}

/// `cargo test -p command -- --ignored write_the_pictures`
#[test]
#[ignore = "writes the pictures anew"]
fn write_the_pictures() {
    for (name, command) in KEPT {
        fs::write(example(name), printed(command)).expect("it can be written");
    }
}
