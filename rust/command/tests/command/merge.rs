//! `merge A B`.

use crate::common::{example, example_bytes, pilzdamo, pilzdamo_fed, sentence, Answer, Folder};
use crate::draft::{Draft, END, REPEAT};
use crate::files;
use std::fs;
use std::process::{Command, Stdio};

const TOLD: &str = "7 users, 2 channels, 5 sessions, 28 nodes, 266 bytes";

fn north() -> String {
    example("house/north.clinic")
}

fn south() -> String {
    example("house/south.clinic")
}

#[test]
fn to_standard_output() {
    let (north, south) = (north(), south());
    let answer = pilzdamo(&["merge", &north, &south]);
    assert_eq!((answer.status, answer.out), (0, files::house().bytes()));
    assert_eq!(answer.err, format!("{north}, {south}: merged, {TOLD}\n"));
}

#[test]
fn from_standard_input() {
    let (north, south) = (north(), south());
    let answer = pilzdamo_fed(&["merge", &north, "-", "-o", "-"], &files::south().bytes());
    assert_eq!((answer.status, answer.out), (0, files::house().bytes()));
    let due = format!("{north}, standard input: merged, {TOLD}\n");
    assert_eq!(answer.err, due);
    let answer = pilzdamo_fed(&["merge", "-", &south], &files::north().bytes());
    assert_eq!((answer.status, answer.out), (0, files::house().bytes()));
}

#[test]
fn to_a_file() {
    let folder = Folder::new("merge");
    let (north, south) = (north(), south());
    let out = folder.file("the house.clinic", [7; 5_000]);
    for words in [
        ["merge", &north, &south, "-o", &out],
        ["merge", "-o", &out, &north, &south],
        ["merge", &north, "-o", &out, &south],
    ] {
        let answer = pilzdamo(&words);
        assert_eq!((answer.status, answer.text()), (0, ""));
        let due = format!("{north}, {south}: merged, {TOLD} in {out}\n");
        assert_eq!(answer.err, due);
        assert_eq!(fs::read(&out).unwrap(), files::house().bytes());
    }
}

/// The second file comes after the first, so that the order counts.
#[test]
fn in_the_other_order() {
    let answer = pilzdamo(&["merge", &south(), &north()]);
    assert_eq!(answer.status, 0);
    assert_ne!(answer.out, files::house().bytes());
    assert_eq!(answer.out.len(), files::house().bytes().len());
}

#[test]
fn a_file_with_itself() {
    let answer = pilzdamo(&["merge", &north(), &north()]);
    assert_eq!(answer.status, 0);
    let told = "merged, 6 users, 2 channels, 4 sessions, 20 nodes, ";
    assert!(answer.err.contains(told), "{}", answer.err);
}

/// Placed, it has the on steps of both, and is what both placed give in one.
#[test]
fn on_steps_add_up() {
    let house = pilzdamo(&["merge", &north(), &south()]).out;
    let measured = pilzdamo_fed(&["measure", "-"], &house);
    assert!(measured.text().contains("5 on steps"), "{measured:?}");
    let folder = Folder::new("placed");
    let placed = [north(), south()].map(|file| pilzdamo(&["place", &file]));
    let told = ["2 on steps", "3 on steps"];
    for (placed, told) in placed.iter().zip(told) {
        assert!(placed.err.contains(told), "{}", placed.err);
    }
    let [one, other] = placed.map(|answer| answer.out);
    let (one, other) = (folder.file("one", one), folder.file("other", other));
    let merged = pilzdamo(&["merge", &one, &other]);
    let placed = pilzdamo_fed(&["place", "-"], &house);
    assert_eq!((merged.status, merged.out), (0, placed.out));
}

/// Wrong use that leaves the file as it was.
fn assert_spared(answer: Answer, written: &str, input: &str, kept: &[u8]) {
    assert_eq!((answer.status, answer.out.len()), (2, 0));
    let due = format!(
        "pilzdamo: {written} is the same file as {input}, and an input is not written over \
         without --force\n"
    );
    assert_eq!(answer.err, due);
    assert_eq!(fs::read(input).unwrap(), kept);
}

/// Neither by its name, nor by another path, nor by a link of either sort.
#[test]
fn never_over_an_input() {
    let folder = Folder::new("over an input");
    let (one, two) = (files::north().bytes(), files::south().bytes());
    let first = folder.file("a.clinic", &one);
    let second = folder.file("b.clinic", &two);
    fs::create_dir(folder.at("under")).unwrap();
    let another_path = |name: &str| folder.at(&format!("under/../{name}"));
    for (name, input, kept) in [("a.clinic", &first, &one), ("b.clinic", &second, &two)] {
        let (soft, hard) = (folder.at("soft"), folder.at("hard"));
        std::os::unix::fs::symlink(input, &soft).unwrap();
        fs::hard_link(input, &hard).unwrap();
        for out in [
            input.clone(),
            another_path(name),
            soft.clone(),
            hard.clone(),
        ] {
            let answer = pilzdamo(&["merge", &first, &second, "-o", &out]);
            assert_spared(answer, &out, input, kept);
        }
        // The input by a link, and the output by its name.
        let by_link = match name {
            "a.clinic" => ["merge", &soft, &second, "-o", input],
            _ => ["merge", &first, &hard, "-o", input],
        };
        assert_eq!(pilzdamo(&by_link).status, 2);
        fs::remove_file(soft).unwrap();
        fs::remove_file(hard).unwrap();
    }
    // Also where the two would be refused.
    let refused = example("refused/25-tables.clinic");
    let answer = pilzdamo(&["merge", &first, &refused, "-o", &first]);
    assert_spared(answer, &first, &first, &one);
    // A copy is another file.
    let copy = folder.file("copy", &one);
    let answer = pilzdamo(&["merge", &first, &second, "-o", &copy]);
    assert_eq!(answer.status, 0);
    assert_eq!(fs::read(copy).unwrap(), files::house().bytes());
}

/// By redirection: standard input and standard output.
#[test]
fn never_over_an_input_by_redirection() {
    let folder = Folder::new("redirected");
    let one = files::north().bytes();
    let first = folder.file("a.clinic", &one);
    let output = |words: &[&str], input: Stdio, out: Stdio| {
        let child = Command::new(env!("CARGO_BIN_EXE_pilzdamo"))
            .args(words)
            .stdin(input)
            .stdout(out)
            .stderr(Stdio::piped())
            .output()
            .expect("the command ends");
        (
            child.status.code(),
            String::from_utf8(child.stderr).unwrap(),
        )
    };
    let from = fs::File::open(&first).unwrap();
    let (status, err) = output(
        &["merge", "-", &south(), "-o", &first],
        from.into(),
        Stdio::null(),
    );
    assert_eq!(status, Some(2));
    let due = format!("pilzdamo: {first} is the same file as standard input, and");
    assert!(err.starts_with(&due), "{err}");
    let onto = fs::File::options().append(true).open(&first).unwrap();
    let (status, err) = output(&["merge", &first, &south()], Stdio::null(), onto.into());
    assert_eq!(status, Some(2));
    let due = format!("pilzdamo: standard output is the same file as {first}, and");
    assert!(err.starts_with(&due), "{err}");
    assert_eq!(fs::read(&first).unwrap(), one);
}

/// What is refused, and what the message says of it.
fn assert_refused(first: &[u8], second: &[u8], number: u16, said: &[&str]) {
    let thread = std::thread::current();
    let folder = Folder::new(thread.name().expect("a test has a name"));
    let (one, other) = (folder.file("a", first), folder.file("b", second));
    let out = folder.file("kept", "as it was");
    let answer = pilzdamo(&["merge", &one, &other, "-o", &out]);
    assert_eq!((answer.status, answer.text()), (1, ""), "{}", answer.err);
    assert_eq!(fs::read_to_string(out).unwrap(), "as it was");
    let here = format!("{}/", folder.path().display());
    let err = answer.err.replace(&here, "");
    let refused = format!(": Refused {number}: ");
    assert!(err.contains(&refused), "{err}");
    for due in said {
        assert!(err.contains(due), "{due} in:\n{err}");
    }
}

fn changed(change: impl Fn(&mut Draft)) -> Vec<u8> {
    let mut draft = files::south();
    change(&mut draft);
    draft.bytes()
}

#[test]
fn what_differs_is_named() {
    let north = files::north().bytes();
    let refused = |other: Vec<u8>, said: &[&str]| assert_refused(&north, &other, 25, said);
    refused(
        files::other_south().bytes(),
        &[
            &format!("pilzdamo: a, b: {}\n", sentence(25, "")),
            "  role 2 differs\n    in a: sends on kind 2; receives on kind 1\n    \
             in b: sends on kinds 1, 2; receives on kind 1\n  \
             the schema's keeper can mend it; more: pilzdamo explain 25\n",
        ],
    );
    refused(
        changed(|draft| draft.roles.push([0; 4])),
        &["  the number of roles differs\n    in a: 2 roles\n    in b: 3 roles\n"],
    );
    refused(
        changed(|draft| draft.kinds.push([0])),
        &["  the number of kinds differs\n    in a: 2 kinds\n    in b: 3 kinds\n"],
    );
    let asks = changed(|draft| {
        draft.kinds = vec![[0], [0]];
        draft.sessions.truncate(1);
        draft.nodes = vec![END];
    });
    refused(
        asks,
        &[
            "  kind 1 differs\n    in a: carries a channel of kind 2\n    \
           in b: carries a plain value\n",
        ],
    );
    let one_role = changed(|draft| {
        draft.roles.truncate(1);
        draft.users = vec![[1]; 4];
        draft.roles[0] = [0; 4];
    });
    assert_refused(
        &one_role,
        &north,
        25,
        &["  the number of roles differs\n    in a: 1 role\n    in b: 2 roles\n"],
    );
}

/// Zero bytes have no tables, and no records to add.
#[test]
fn nothing_planned() {
    let north = files::north().bytes();
    assert_refused(&north, b"", 25, &["    in a: 2 roles\n    in b: 0 roles\n"]);
    let folder = Folder::new("nothing planned");
    let empty = folder.file("empty", "");
    let answer = pilzdamo(&["merge", &empty, &empty]);
    assert_eq!((answer.status, answer.out.len()), (0, 26));
    let told = "merged, 0 users, 0 channels, 0 sessions, 0 nodes, 26 bytes\n";
    assert!(answer.err.ends_with(told), "{}", answer.err);
    let planned = format!("{empty} (zero bytes: nothing is planned), {empty} (zero bytes");
    assert!(answer.err.starts_with(&planned), "{}", answer.err);
}

/// So many users, channels, sessions and nodes.
fn sized(users: u16, channels: usize, sessions: usize, nodes: usize) -> Vec<u8> {
    let mut draft = Draft::default().kind(0);
    draft.users = vec![[0]; users.into()];
    draft.channels = vec![[users, 1]; channels];
    for _ in 1..sessions {
        draft = draft.session(1, &[END]);
    }
    let rest = nodes - draft.nodes.len();
    let last = [vec![REPEAT; rest - 1], vec![END]].concat();
    draft.session(1, &last).bytes()
}

#[test]
fn sums_that_are_too_large() {
    let too_many = |one: Vec<u8>, other: Vec<u8>, line: &str| {
        let refused = format!("pilzdamo: a, b: {}\n", sentence(3, ""));
        assert_refused(&one, &other, 3, &[&refused, line]);
    };
    too_many(
        sized(20, 0, 1, 1),
        sized(13, 0, 1, 1),
        "  users: 20 in a, 13 in b, 33 together (at most 32)\n",
    );
    too_many(
        sized(1, 64, 1, 1),
        sized(1, 1, 1, 1),
        "  channels: 64 in a, 1 in b, 65 together (at most 64)\n",
    );
    too_many(
        sized(1, 0, 1, 1),
        sized(1, 0, 32, 32),
        "  sessions: 1 in a, 32 in b, 33 together (at most 32)\n",
    );
    too_many(
        sized(1, 0, 1, 1_000),
        sized(1, 0, 1, 25),
        "  nodes: 1000 in a, 25 in b, 1025 together (at most 1024)\n",
    );
    too_many(
        sized(32, 0, 1, 1_024),
        sized(1, 0, 1, 1),
        "  users: 32 in a, 1 in b, 33 together (at most 32)\n  \
         nodes: 1024 in a, 1 in b, 1025 together (at most 1024)\n",
    );
}

/// A file's own refusal has its name, place and step.
#[test]
fn what_is_wrong_with_either() {
    let north = files::north().bytes();
    let kinds = example_bytes("refused/10-kinds.clinic");
    let refused = sentence(10, "node 2, a receive");
    let step = &format!("{refused}\n  node 2: receive variable 1 on channel 2\n");
    assert_refused(&kinds, &north, 10, &["pilzdamo: a: ", step]);
    assert_refused(&north, &kinds, 10, &["pilzdamo: b: ", step]);
    assert_refused(&kinds, b"x", 10, &["pilzdamo: a: "]);
    let count = example_bytes("refused/03-count.clinic");
    let whole = &format!("{}\n", sentence(3, ""));
    assert_refused(&north, &count, 3, &["pilzdamo: b: ", whole]);
    let second = example_bytes("head-nurse/juniors.clinic");
    let version = "  this file has version 2, and two are merged in version 1 alone\n";
    assert_refused(&second, &north, 2, &["pilzdamo: a: ", version]);
    assert_refused(&north, &second, 2, &["pilzdamo: b: ", version]);
}

/// Two files that don't pass are merged all the same.
#[test]
fn the_check_is_not_asked() {
    let file = example("refused/13-role.clinic");
    let answer = pilzdamo(&["merge", &example("booking.clinic"), &file]);
    assert_eq!(answer.status, 0);
    let checked = pilzdamo_fed(&["check", "-"], &answer.out);
    assert_eq!(checked.status, 1);
    let due = sentence(13, "node 1, a send");
    assert!(checked.err.contains(&due), "{checked:?}");
}
