//! What refusals of bytes say beyond the sentence: the record, and the numbers that are
//! there and those that are due.

use crate::common::{example, pilzdamo, pilzdamo_fed, Folder};
use crate::draft::{channel, compare, fork, new, off, on, receive, send, variable};
use crate::draft::{Draft, END, REPEAT};
use crate::files;

/// The lines between the sentence and who can mend it.
fn told(err: &str) -> Vec<&str> {
    let lines = err.lines().skip(1);
    let lines = lines.take_while(|line| !line.contains(" can mend it; more: "));
    lines.map(str::trim_start).collect()
}

fn assert_told(words: &[&str], file: &[u8], number: u16, due: &[&str]) {
    let answer = pilzdamo_fed(words, file);
    assert_eq!(answer.status, 1, "{due:?}");
    let first = answer.err.lines().next().expect("a line");
    assert!(first.contains(&format!(": Refused {number}: ")), "{first}");
    assert_eq!(told(&answer.err), due, "{}", answer.err);
}

/// Users 1 and 2 with roles 1 and 2; role 1 sends on kind 1, role 2 receives on it. Kind 2
/// carries channels of kind 1. Channel 1 of kind 1 and channel 2 of kind 2 are user 2's.
fn ward() -> Draft {
    let draft = Draft::default().user(&[1]).user(&[2]);
    let draft = draft.role(&[1], &[]).role(&[], &[1]);
    let draft = draft.kind(0).kind(1);
    draft.channel(2, 1).channel(2, 2)
}

#[test]
fn lengths_and_versions() {
    let bytes = files::booking().bytes();
    let check = &["check", "-"][..];
    let due = "it has 25 bytes, and its head alone has 26";
    assert_told(check, &bytes[..25], 1, &[due]);
    let due = "it has 1 byte, and its head alone has 26";
    assert_told(check, &bytes[..1], 1, &[due]);
    let due = "it has 27 bytes, and a word has 2: one is left over";
    assert_told(check, &bytes[..27], 1, &[due]);
    let second = files::by_juniors().bytes();
    let due = "it has 26 bytes, and its head alone has 28";
    assert_told(check, &second[..26], 1, &[due]);
    let due = "it has version 513";
    assert_told(check, &[&[1, 2], &bytes[2..]].concat(), 2, &[due]);
    let due = "it has 30 bytes, and its counts give 82";
    assert_told(check, &bytes[..30], 5, &[due]);
}

/// Each way in which 8 finds a tree that isn't one.
#[test]
fn trees() {
    let check = &["check", "-"][..];
    let refused = |draft: Draft, due: &[&str]| assert_told(check, &draft.bytes(), 8, due);
    let mut root = ward().session(1, &[END]).session(2, &[END]);
    root.sessions[1][2] = 9;
    let due = ["node 2: end", "session 2's root is node 9, and 2 is due"];
    refused(root, &due);
    let past = ward().session(1, &[on(1), off(1)]);
    let due = "session 1's tree runs past the last node: the file has 2 nodes";
    refused(past, &[due]);
    let mut none = ward().session(1, &[END]);
    none.sessions.push([2, 0, 2]);
    let due = "no node is left for session 2: the file has 1 node";
    refused(none, &[due]);
    let left = ward().session(1, &[END, END, END]);
    let due = "the sessions' trees have 1 node, and the file has 3 nodes";
    refused(left, &[due]);
    let second = ward().session(1, &[fork(4), END, END]);
    refused(second, &["node 1: fork, second child 4 (3 is due)"]);
    let tag = ward().session(1, &[[9, 0, 0], END]);
    refused(tag, &["node 1: tag 9, f1 0, f2 0 (no such tag)"]);
    let unused = ward().session(1, &[[2, 0, 5], END]);
    refused(unused, &["node 1: repeat (f2 is 5, due is 0)"]);
    let ninth = [[new(1); 9].as_slice(), &[END]].concat();
    let due = "node 9: new channel of kind 1 as variable 9 (at most 8)";
    refused(ward().session(1, &ninth), &[due]);
}

/// A session's user and nodes, and the lines that are due.
type Case<'a> = (u16, &'a [[u16; 3]], [&'a str; 2]);

/// 10 says what is at odds.
#[test]
fn kinds_and_owners() {
    let cases: [Case; 6] = [
        (
            1,
            &[send(channel(2), 1), END],
            [
                "node 1: send user 1 on channel 2",
                "channel 2 carries a channel of kind 1, and user 1 is a plain value",
            ],
        ),
        (
            1,
            &[send(2, 1), END],
            [
                "node 1: send user 1 on user 2",
                "user 2 is a plain value, and no channel",
            ],
        ),
        (
            1,
            &[send(channel(1), channel(1)), END],
            [
                "node 1: send channel 1 on channel 1",
                "channel 1 carries a plain value, and channel 1 is a channel of kind 1",
            ],
        ),
        (
            1,
            &[receive(channel(1)), END],
            [
                "node 1: receive variable 1 on channel 1",
                "user 1 receives on channel 1, and its owner is user 2",
            ],
        ),
        (
            2,
            &[receive(channel(2)), receive(variable(1)), END],
            [
                "node 2: receive variable 2 on variable 1",
                "variable 1 was received, so it serves for sending alone: a channel is received on by its owner, or below the new that makes it",
            ],
        ),
        (
            2,
            &[compare(1, channel(2)), END],
            [
                "node 1: compare user 1 with channel 2",
                "user 1 is a plain value, and channel 2 is a channel of kind 2",
            ],
        ),
    ];
    for (user, nodes, due) in cases {
        let file = ward().session(user, nodes).bytes();
        assert_told(&["check", "-"], &file, 10, &due);
    }
}

/// 11 to 15 say whose role is missing.
#[test]
fn roles() {
    let check = |nodes: &[[u16; 3]], number, due: [&str; 2]| {
        let file = ward().session(1, nodes).bytes();
        assert_told(&["check", "-"], &file, number, &due);
    };
    let due = "role 2 isn't a role of user 1 (roles of user 1: role 1)";
    check(&[on(2), END], 11, ["node 1: on role 2", due]);
    let due = "role 1 is not on here (roles on: none)";
    check(&[off(1), END], 12, ["node 1: off role 1", due]);
    let sends = [send(channel(1), 1), END];
    let due =
        "user 1 has no role on that may send on kind 1 (roles on: none; roles that may: role 1)";
    let answer = pilzdamo_fed(&["check", "-"], &ward().session(1, &sends).bytes());
    let step = "node 1: send user 1 on channel 1";
    assert_eq!(told(&answer.err), [step, due]);
    let place = |file: Draft, number, due: &[&str]| {
        assert_told(&["place", "-"], &file.bytes(), number, due);
    };
    let due = "placing adds every on and off itself, and this one is there already";
    let file = ward().session(1, &[on(1), END]);
    let strip = "pilzdamo strip FILE removes on and off";
    place(file, 14, &["node 1: on role 1", due, strip]);
    let file = ward().session(1, &[END]).session_with(2, &[2], &[END]);
    let due = "session 2 starts with role 2, and a session to be placed starts with none";
    let by_hand = "remove the roles with which this session starts by hand";
    place(file, 14, &[due, by_hand]);
    let due = "user 2 has no role that may send on kind 1 (roles that may: role 1)";
    place(ward().session(2, &sends), 15, &[step, due]);
    let file = example("refused/16-too-long.clinic");
    let answer = pilzdamo(&["place", &file]);
    let due = "it has 601 nodes before placing, and a file has at most 1024";
    assert_eq!(told(&answer.err), [due]);
}

#[test]
fn hours() {
    let folder = Folder::new("refused hours");
    let bytes = ward().session(1, &[on(1), off(1), END]).bytes();
    let file = folder.file("file", bytes);
    let asked = |verb: &str, hours: &str, due: &[&str]| {
        let words = [verb, &file, "--at", "Tue 12:00", "--hours", "-"];
        let answer = pilzdamo_fed(&words, hours.as_bytes());
        assert_eq!((answer.status, told(&answer.err)), (1, due.to_vec()));
    };
    let days = "role 1 Mon-Sun 08:00-09:00\n".repeat(10);
    asked(
        "check",
        &days,
        &["the table has 70 rows, and at most 64 are taken"],
    );
    let due = "row 2 comes from line 3: it is of role 3, and there are 2 roles";
    asked(
        "check",
        "role 1 Mon 08:00-09:00\n\nrole 3 Mon 08:00-09:00",
        &[due],
    );
    asked("check", "role 1 Mon 08:00-09:00", &["node 1: on role 1"]);
    let bytes = ward().session(1, &[send(channel(1), 1), END]).bytes();
    folder.file("file", bytes);
    let due = [
        "node 1: send user 1 on channel 1",
        "user 1 has no open role that may send on kind 1 (roles that may: role 1)",
    ];
    asked("place", "role 1 Mon 08:00-09:00", &due);
}

#[test]
fn seats() {
    let folder = Folder::new("refused seats");
    let ends = &[END][..];
    let file = ward()
        .session_with(1, &[1], ends)
        .session_with(1, &[1], ends);
    let file = folder.file("file", file.session(2, &[REPEAT, END]).bytes());
    let asked = |seats: &str, number: u16, due: &[&str]| {
        let seats = folder.file("seats", seats);
        let words = ["run", &file, "-", "--seats", &seats];
        let answer = pilzdamo(&words);
        assert_eq!(answer.status, 1);
        assert!(answer.err.contains(&format!(": Refused {number}: ")));
        assert_eq!(told(&answer.err), due);
    };
    let due = "session 2 starts with role 1, which has 1 seat, taken by 1 session before it";
    asked("1 0", 26, &[due]);
    let due =
        "the table has 2 numbers, the file 2 roles: one for each, 0 for no limit, else 1 to 32";
    asked("2 33", 17, &[due, "number 2 of the table is 33"]);
}

/// A refused choice says where its threads stand.
#[test]
fn choices() {
    let folder = Folder::new("refused choices");
    let nodes = [on(1), send(channel(1), 1), END];
    let file = ward()
        .session(1, &nodes)
        .session(2, &[receive(channel(1)), END]);
    let file = folder.file("file", file.bytes());
    let cases: [(&str, u16, &[&str]); 4] = [
        (
            "1 0  1 3",
            18,
            &[
                "choice 2: thread 1, partner 3",
                "thread 1 stands at node 2 (send user 1 on channel 1)",
                "there is no thread 3: the list has 2 threads",
            ],
        ),
        (
            "0 0",
            18,
            &[
                "choice 1: thread 0, partner 0",
                "there is no thread 0: the list has 2 threads",
            ],
        ),
        (
            "1 0  1 2",
            13,
            &[
                "choice 2: thread 1, partner 2",
                "thread 1 stands at node 2 (send user 1 on channel 1), holds role 1",
                "thread 2 stands at node 4 (receive variable 1 on channel 1), holds no role",
                "thread 2 holds no role that may receive on kind 1 (roles that may: role 2)",
            ],
        ),
        (
            "s1  s1",
            18,
            &[
                "choice 2: thread 1, partner 0",
                "thread 1 stands at node 2 (send user 1 on channel 1)",
                "a send takes a partner that stands at a receive: 1 -> T",
            ],
        ),
    ];
    for (list, number, due) in cases {
        assert_told(&["run", &file, "-"], list.as_bytes(), number, due);
    }
}

/// The file of a notice is reported as the file is.
#[test]
fn notices() {
    let folder = Folder::new("refused notices");
    let mut draft = ward();
    draft.channels[1] = [9, 2];
    let file = draft.bytes();
    let notice = [&[0, 0, file.len() as u8, 0], &file[..]].concat();
    let notice = folder.file("notice", notice);
    let sound = example("notices/november.notice");
    let answer = pilzdamo(&["in-force", "2026-12-01", &sound, &notice]);
    assert_eq!(answer.status, 1);
    let [sentence, record] = told(&answer.err)[..] else {
        panic!("{}", answer.err);
    };
    assert!(sentence.starts_with("its file: Refused 6: "), "{sentence}");
    assert_eq!(record, "channel 2's owner is user 9, and there are 2 users");
}

/// Any refusal of an example has more to say than its sentence.
#[test]
fn every_example() {
    let mut numbers = Vec::new();
    for (name, bytes) in files::all() {
        for verb in ["check", "place"] {
            let answer = pilzdamo_fed(&[verb, "-"], &bytes);
            if answer.status == 1 {
                assert!(
                    !told(&answer.err).is_empty(),
                    "{verb} {name}: {}",
                    answer.err
                );
                let number = answer.err.split("Refused ").nth(1).expect("a number");
                numbers.push(number.split(':').next().expect("a number").to_string());
            }
        }
    }
    numbers.sort();
    numbers.dedup();
    assert_eq!(numbers.len(), 17, "{numbers:?}");
}
