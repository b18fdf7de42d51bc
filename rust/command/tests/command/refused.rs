//! One example for each refusal.

use crate::common::{example, pilzdamo, pilzdamo_fed, sentence};
use crate::draft::Draft;
use crate::files;

/// The example, what is asked of it, the refusal, its place in the sentence, and what
/// more is said of it.
const FILES: [(&str, &str, u16, &str, &str); 17] = [
    (
        "01-odd",
        "check",
        1,
        "",
        "it has 83 bytes, and a word has 2: one is left over",
    ),
    ("02-version", "check", 2, "", "it has version 9"),
    ("03-count", "check", 3, "", "it has 33 users (at most 32)"),
    (
        "04-offset",
        "check",
        4,
        "",
        "the offset of the kinds is 24, and 23 is due",
    ),
    (
        "05-length",
        "check",
        5,
        "",
        "it has 84 bytes, and its counts give 82",
    ),
    (
        "06-record",
        "check",
        6,
        "word 27",
        "channel 2's kind is 3, and there are 2 kinds",
    ),
    (
        "07-session",
        "check",
        7,
        "session 2",
        "session 2 starts with role 1, and user 2 has no role",
    ),
    (
        "08-tree",
        "check",
        8,
        "node 1",
        "node 1: fork, second child 5 (4 is due)",
    ),
    (
        "09-name",
        "check",
        9,
        "node 2, a send",
        "node 2: send user 2 on channel 3 (out of count)",
    ),
    (
        "10-kinds",
        "check",
        10,
        "node 2, a receive",
        "node 2: receive variable 1 on channel 2\n  user 1 receives on channel 2, and its owner is user 2",
    ),
    (
        "11-on",
        "check",
        11,
        "node 1, an on",
        "node 1: on role 1\n  role 1 isn't a role of user 2 (roles of user 2: none)",
    ),
    (
        "12-off",
        "check",
        12,
        "node 1, an off",
        "node 1: off role 1\n  role 1 is not on here (roles on: none)",
    ),
    (
        "13-role",
        "check",
        13,
        "node 4, a send",
        "node 4: send user 2 on channel 1\n  user 1 has no role on that may send on kind 1 (roles on: none; roles that may: role 1, role 2)",
    ),
    (
        "14-placed",
        "place",
        14,
        "node 1, an on",
        "node 1: on role 2\n  placing adds every on and off itself, and this one is there \
         already\n  pilzdamo strip FILE removes on and off",
    ),
    (
        "15-no-role",
        "place",
        15,
        "node 4, a send",
        "node 4: send user 1 on channel 1\n  user 2 has no role that may send on kind 1 (roles that may: role 1, role 2)",
    ),
    (
        "16-too-long",
        "place",
        16,
        "",
        "it has 601 nodes before placing, and a file has at most 1024",
    ),
    (
        "21-junior",
        "check",
        21,
        "word 24",
        "role 1's junior is role 2, which isn't a lower one",
    ),
];

/// The line of a shown file after which the refusal of a check is marked.
const MARKED: [(&str, &str); 14] = [
    ("01-odd", "length: 83 bytes (82 by the counts)"),
    ("02-version", "version: 9"),
    (
        "03-count",
        "counts: 33 users (at most 32), 2 roles, 2 kinds, 2 channels, 1 session, 3 nodes",
    ),
    (
        "04-offset",
        "offsets: users 13, roles 15, kinds 24 (23 is due), channels 25, sessions 29, nodes 32",
    ),
    ("05-length", "length: 84 bytes (82 by the counts)"),
    (
        "06-record",
        "channel 2: owner user 2, kind 3 (out of count)",
    ),
    (
        "07-session",
        "session 2: user 2, role 1 at the start, root 4",
    ),
    (
        "08-tree",
        "           1  -     fork, second child 5 (4 is due)",
    ),
    (
        "09-name",
        "           2  -     send user 2 on channel 3 (out of count)",
    ),
    (
        "10-kinds",
        "           2  -     receive variable 1 on channel 2",
    ),
    ("11-on", "  +1       1  -     on role 1"),
    ("12-off", "  -1       1  -     off role 1"),
    ("13-role", "           4  -     send user 2 on channel 1"),
    (
        "21-junior",
        "role 1: sends on kind 1; receives on no kind; junior: role 2 (not lower)",
    ),
];

fn who(number: u16) -> &'static str {
    match number {
        1..=5 => "the file's writer",
        6 | 21 => "the schema's keeper",
        7..=16 => "the routine's author",
        _ => "the caller",
    }
}

/// The lines that are due, after the name of the file.
fn message(number: u16, place: &str, more: &str) -> String {
    let sentence = sentence(number, place);
    let more = match more {
        "" => String::new(),
        more => format!("  {more}\n"),
    };
    let mends = format!(
        "{} can mend it; more: pilzdamo explain {number}",
        who(number)
    );
    format!("{sentence}\n{more}  {mends}\n")
}

#[test]
fn files() {
    for (name, verb, number, place, more) in FILES {
        let file = example(&format!("refused/{name}.clinic"));
        let answer = pilzdamo(&[verb, &file]);
        assert_eq!((answer.status, answer.text()), (1, ""), "{name}");
        let due = format!("pilzdamo: {file}: {}", message(number, place, more));
        assert_eq!(answer.err, due);
        assert_read_back(&answer.err, &file, number, place);
    }
}

/// Makes a record wrong.
type Change = fn(&mut Draft);

/// Each sort of record is described in words.
#[test]
fn records_in_words() {
    let mut counts = files::booking().words();
    (counts[2], counts[3]) = (17, 40);
    let bytes: Vec<u8> = counts.into_iter().flat_map(u16::to_le_bytes).collect();
    let due = "it has 17 roles (at most 16); it has 40 kinds (at most 32)";
    assert_told(&bytes, due);
    let cases: [(Change, &str); 8] = [
        (
            |draft| draft.users[1] = [8],
            "user 2 has role 4, and there are 2 roles",
        ),
        (
            |draft| draft.roles[0][1] = 1,
            "role 1 may send on kind 17, and there are 2 kinds",
        ),
        (
            |draft| draft.roles[1][2] = 4,
            "role 2 may receive on kind 3, and there are 2 kinds",
        ),
        (
            |draft| draft.kinds[1] = [7],
            "kind 2 carries kind 7, and there are 2 kinds",
        ),
        (
            |draft| draft.channels[0] = [0, 1],
            "channel 1's owner is user 0, and there are 2 users",
        ),
        (
            |draft| draft.channels[1] = [1, 0],
            "channel 2's kind is 0, and there are 2 kinds",
        ),
        (
            |draft| draft.sessions[0][0] = 3,
            "session 1's user is 3, and there are 2 users",
        ),
        (
            |draft| draft.sessions[0] = [2, 2, 1],
            "session 1 starts with role 2, and user 2 has no role",
        ),
    ];
    for (change, due) in cases {
        let mut draft = files::booking();
        change(&mut draft);
        assert_told(&draft.bytes(), due);
    }
}

fn assert_told(file: &[u8], due: &str) {
    let answer = pilzdamo_fed(&["check", "-"], file);
    assert_eq!(answer.status, 1);
    assert!(
        answer.err.contains(&format!("\n  {due}\n")),
        "{}",
        answer.err
    );
}

#[test]
fn lists() {
    let most = "at most 65,535 choices (65,471 before a round)";
    let odd = format!("the list has 3 numbers: two for each choice, {most}");
    let lists = [
        ("17-odd", 17, "", odd.as_str()),
        (
            "18-thread",
            18,
            "choice 1",
            "choice 1: thread 3, partner 0\n  there is no thread 3: the list has 2 threads",
        ),
        (
            "19-unequal",
            19,
            "choice 2",
            "choice 2: thread 1, partner 0\n  thread 1 stands at node 1 (compare user 1 with \
             user 2), compares user 1 with user 2",
        ),
        (
            "20-thread",
            20,
            "choice 63",
            "choice 63: thread 2, partner 0\n  thread 2 stands at node 3 (repeat)\n  there are 64 threads and 0 made channels: at most 64 of each",
        ),
    ];
    for (name, number, place, more) in lists {
        let list = example(&format!("refused/{name}.choices"));
        let answer = pilzdamo(&["run", &example("refused/choices.clinic"), &list]);
        assert_eq!(answer.status, 1, "{name}");
        let due = format!("{list}: {}", message(number, place, more));
        assert!(answer.err.ends_with(&due), "{}", answer.err);
        assert_read_back(&answer.err, &list, number, place);
        assert_eq!(answer.text().is_empty(), number == 17);
    }
}

#[test]
fn seats() {
    let file = example("spring/bare.clinic");
    let few = example("refused/17-short.seats");
    let due =
        "the table has 2 numbers, the file 3 roles: one for each, 0 for no limit, else 1 to 32";
    for verb in ["run", "round"] {
        let answer = pilzdamo(&[verb, &file, "-", "--seats", &few]);
        assert_eq!((answer.status, answer.text()), (1, ""));
        assert_eq!(
            answer.err,
            format!("pilzdamo: {few}: {}", message(17, "", due))
        );
        assert_read_back(&answer.err, &few, 17, "");
    }
    let (file, one) = (
        example("refused/26-start.clinic"),
        example("refused/26-start.seats"),
    );
    let uses: [&[&str]; 3] = [
        &["seats", &file, "-", &one],
        &["run", &file, "-", "--seats", &one],
        &["round", &file, "-", "--seats", &one],
    ];
    for words in uses {
        let answer = pilzdamo(words);
        assert_eq!((answer.status, answer.text()), (1, ""), "{words:?}");
        let more = "session 2 starts with role 1, which has 1 seat, taken by 1 session before it";
        let due = format!("pilzdamo: {file}: {}", message(26, "session 2", more));
        assert_eq!(answer.err, due);
        assert_read_back(&answer.err, &file, 26, "session 2");
    }
}

/// The first line of a message, after the name, is a sentence that `reason` reads.
fn assert_read_back(message: &str, name: &str, number: u16, place: &str) {
    let line = message.lines().next().expect("a line");
    let (_, sentence) = line.split_once(&format!("{name}: ")).expect("a name");
    let answer = pilzdamo(&["reason", sentence]);
    assert_eq!((answer.status, answer.err.as_str()), (0, ""), "{sentence}");
    let due = format!("number: {number}\n");
    assert!(answer.text().starts_with(&due), "{}", answer.text());
    let place = place.split([' ', ',']).nth(1).unwrap_or("0");
    let due = format!("\nplace: {place}\n");
    assert!(answer.text().contains(&due), "{}", answer.text());
}

#[test]
fn shown_with_the_refusal_at_its_place() {
    for (name, line) in MARKED {
        let number: u16 = name[..2].parse().expect("its number comes first");
        let answer = pilzdamo(&["show", &example(&format!("refused/{name}.clinic"))]);
        assert_eq!((answer.status, answer.err.as_str()), (0, ""), "{name}");
        let text = answer.text();
        let due = format!("\n{line}\n!! Refused {number}: ");
        assert!(text.contains(&due), "{text}");
        assert!(text.starts_with(&format!("check: refused {number}, marked !!")));
    }
}
