//! `dispatch FILE [ROUNDS]`.

use crate::common::{example, pilzdamo, pilzdamo_fed, placed, sentence, Folder};
use crate::draft::{compare, Draft, END, REPEAT};
use crate::format;
use std::time::{Duration, Instant};

const DESKS: [&str; 7] = [
    "1 0  2 0  3 0\n",
    "1 3\n",
    "1 3\n",
    "1 0  2 3\n",
    "1 0  1 2  2 0\n",
    "1 0  2 0\n",
    "1 0\n",
];

#[test]
fn until_a_round_is_empty() {
    let answer = pilzdamo_fed(&["dispatch", "-"], &placed("desks.clinic"));
    assert_eq!((answer.status, answer.text()), (0, &*DESKS.concat()));
    let due = "standard input: 7 rounds, 13 choices; then no choice can be done, 0 threads left\n";
    assert_eq!(answer.err, due);
    let file = example("spring/cut.clinic");
    let answer = pilzdamo(&["dispatch", &file]);
    assert_eq!((answer.status, answer.text().lines().count()), (0, 9));
    let due = format!(
        "{file}: 9 rounds, 30 choices; then no choice can be done, 1 thread left\n  \
         thread 1 (s6) at node 35 (send user 5 on channel 4): waits for a receiver on channel 4\n"
    );
    assert_eq!(answer.err, due);
}

#[test]
fn until_so_many_are_done() {
    let file = placed("desks.clinic");
    for (rounds, choices) in [(1, "3 choices"), (2, "4 choices"), (7, "13 choices")] {
        let answer = pilzdamo_fed(&["dispatch", "-", &rounds.to_string()], &file);
        assert_eq!(answer.status, 0);
        assert_eq!(answer.text(), DESKS[..rounds].concat());
        let many = if rounds == 1 { "" } else { "s" };
        let due = format!("standard input: {rounds} round{many}, {choices}; all rounds are done\n");
        assert!(answer.err.starts_with(&due), "{}", answer.err);
    }
    for rounds in ["8", "65535"] {
        let answer = pilzdamo_fed(&["dispatch", "-", rounds], &file);
        assert_eq!((answer.status, answer.text()), (0, &*DESKS.concat()));
        assert!(answer.err.contains("; then no choice can be done, "));
    }
}

/// 21 sessions that repeat, and as many threads of theirs that end.
#[test]
fn until_the_list_is_too_long() {
    let mut draft = Draft::default().user(&[]);
    for _ in 0..21 {
        draft = draft.session(1, &[REPEAT, END]);
    }
    let answer = pilzdamo_fed(&["dispatch", "-"], &draft.bytes());
    assert_eq!(answer.status, 0);
    // 21 choices in the first round, and 42 in each that follows.
    let rounds = 1 + (65_472 - 21_usize).div_ceil(42);
    let choices = 21 + 42 * (rounds - 1);
    let due = format!(
        "standard input: {rounds} rounds, {choices} choices; no round follows over 65,471 choices\n"
    );
    assert!(answer.err.starts_with(&due), "{}", answer.err);
    assert_eq!(answer.text().lines().count(), rounds);
    // It is not too long for run.
    let folder = Folder::new("dispatched");
    let list = folder.file("list", &answer.out);
    let run = pilzdamo_fed(&["run", "-", &list], &draft.bytes());
    assert_eq!((run.status, run.err.as_str()), (0, ""));
    assert!(run
        .text()
        .starts_with(&format!("choices done: {choices}\n")));
}

/// The list is one that run carries out, and round has nothing to add to it.
#[test]
fn the_list_is_run() {
    let folder = Folder::new("dispatch");
    for name in ["desks.clinic", "spring/bare.clinic", "theatre.clinic"] {
        let file = folder.file("placed", placed(name));
        let list = folder.file("list", pilzdamo(&["dispatch", &file]).out);
        let run = pilzdamo(&["run", &file, &list]);
        assert_eq!((run.status, run.err.as_str()), (0, ""), "{name}");
        let round = pilzdamo(&["round", &file, &list]);
        let due = format!("round: no choice can be done\n{}", run.text());
        assert_eq!((round.status, round.text()), (0, &*due), "{name}");
    }
}

/// A thread that has nothing to do, and none at all.
#[test]
fn no_round() {
    let idle = Draft::default().user(&[]).user(&[]);
    let idle = idle.session(1, &[compare(1, 2), END]).bytes();
    let unequal = "1 thread left\n  thread 1 (s1) at node 1 (compare user 1 with user 2): \
                   user 1 and user 2 aren't equal\n";
    for (file, threads) in [
        (idle, unequal),
        (Draft::default().bytes(), "0 threads left\n"),
    ] {
        let answer = pilzdamo_fed(&["dispatch", "-"], &file);
        assert_eq!((answer.status, answer.text()), (0, ""));
        let due =
            format!("standard input: 0 rounds, 0 choices; then no choice can be done, {threads}");
        assert_eq!(answer.err, due);
    }
}

#[test]
fn refusals() {
    for (name, number, place) in [
        ("01-odd", 1, ""),
        ("06-record", 6, "word 27"),
        ("09-name", 9, "node 2, a send"),
        ("21-junior", 21, "word 24"),
    ] {
        let file = example(&format!("refused/{name}.clinic"));
        let answer = pilzdamo(&["dispatch", &file]);
        assert_eq!((answer.status, answer.text()), (1, ""), "{name}");
        let due = format!("pilzdamo: {file}: {}\n", sentence(number, place));
        assert!(answer.err.starts_with(&due), "{}", answer.err);
    }
}

/// What is said at the end, without the folder.
fn said(folder: &Folder, words: &[&str]) -> String {
    let answer = pilzdamo(words);
    assert_eq!(answer.status, 0, "{}", answer.err);
    let here = format!("{}/", folder.path().display());
    answer.err.replace(&here, "")
}

/// Where each thread stands, and why nothing more happens.
#[test]
fn where_threads_stand() {
    let folder = Folder::new("where threads stand");
    let file = folder.file("placed.txt", format::placed());
    let full = "\
placed.txt: 65 rounds, 139 choices; then no choice can be done, 64 threads left
  serve at line 24 (repeat): there are 64 threads, and no more can be
  serve.3, serve.4, serve.5, serve.6 and 59 more at line 26 (receive back on inbox): waits for \
a sender on inbox
";
    assert_eq!(said(&folder, &["dispatch", &file]), full);
    let begun = "\
placed.txt: 3 rounds, 8 choices; all rounds are done
  ask at line 17 (send reply on inbox): can go on
  serve at line 24 (repeat): can go on
  serve.2, serve.3 at line 26 (receive back on inbox): can go on
  ask.2 at line 20 (receive found on reply): waits for a sender on reply (made channel 1)
  serve.4 at line 25 (on keeper): can go on
";
    assert_eq!(said(&folder, &["dispatch", &file, "3"]), begun);
    let text = "\
clinic 1
kind k
role r: send k
role s: send k; receive k
user u: r
channel c: k, owner u
session away by u
  off r
session other by u
  on s
session giver by u as r
  send u on c
session taker by u as r
  receive x on c
session many by u
  repeat
    new a: k
    new b: k
    new d: k
    new e: k
    compare a with b
";
    let file = folder.file("stuck.txt", text);
    let err = said(&folder, &["dispatch", &file]);
    let (first, rest) = err.split_once('\n').expect("lines");
    assert!(
        first.ends_with("then no choice can be done, 64 threads left"),
        "{first}"
    );
    for due in [
        "  away at line 8 (off r): r isn't on\n",
        "  other at line 10 (on s): s isn't a role of u (roles of u: r)\n",
        "  giver at line 12 (send u on c): waits for a receiver on c\n",
        "  taker at line 14 (receive x on c): holds no role that may receive on k (roles that may: s)\n",
        "  many at line 16 (repeat): there are 64 threads, and no more can be\n",
        "(new a: k): 64 channels are made, and no more can be\n",
        "aren't equal\n",
    ] {
        assert!(rest.contains(due), "{due}{rest}");
    }
    // It has roles on, but not the right ones: placing is no way out.
    assert!(!rest.contains("pilzdamo place"), "{rest}");
}

/// A routine that isn't placed gets a hint, where it stands still and where it halts.
#[test]
fn not_placed() {
    let folder = Folder::new("not placed");
    let hint = "  the routine has no on or off yet: pilzdamo place adds them\n";
    let file = folder.file("ward.txt", crate::text::bare_ward());
    let err = said(&folder, &["dispatch", &file]);
    assert!(err.ends_with(hint), "{err}");
    let bytes = folder.at("ward.clinic");
    assert_eq!(pilzdamo(&["pack", &file, "-o", &bytes]).status, 0);
    for (file, list) in [
        (&file, "ask ask serve ask -> serve.2"),
        (&bytes, "1 0 1 0 2 0 1 4"),
    ] {
        for verb in ["run", "choices", "round", "waiting"] {
            let answer = pilzdamo_fed(&[verb, file, "-"], list.as_bytes());
            assert_eq!(answer.status, 1, "{verb}");
            assert!(answer.err.ends_with(hint), "{verb}: {}", answer.err);
        }
    }
    let still = pilzdamo(&["choices", &example("booking.txt"), "/dev/null"]);
    assert_eq!((still.status, still.text()), (0, ""));
    assert!(still.err.ends_with(hint), "{}", still.err);
    let list = folder.file("list", "");
    let driven = pilzdamo(&["run", "-i", &example("booking.txt"), &list]);
    assert!(driven.err.contains(hint), "{}", driven.err);
}

/// A repeat without end goes through all choices within a moment, in names too, and also
/// beside threads that can do nothing.
#[test]
fn endless_routines() {
    let folder = Folder::new("endless routines");
    let repeat = "session s by u\n  repeat\n";
    let idle: String = (1..=31)
        .map(|number| match number % 2 {
            0 => format!("session a{number} by u as r\n  send u on c\n"),
            _ => format!("session a{number} by u\n  compare u with v\n"),
        })
        .collect();
    let tables = "clinic 1\nkind k\nrole r: send k\nuser u: r\nuser v\nchannel c: k, owner u\n";
    let seated = tables.replace("send k", "send k; 1 seat");
    let holds = "session h by u as r\n  send u on c\n";
    let asks: String = (1..=8)
        .map(|number| format!("session q{number} by u\n  on r\n"))
        .collect();
    for text in [
        format!("{tables}{repeat}"),
        format!("{tables}{repeat}{idle}"),
        format!("{tables}{repeat}    on r\n    off r\n"),
        // With seats, of which there is one, and a line behind it.
        format!("{seated}{holds}{repeat}    compare u with u\n{asks}"),
    ] {
        let file = folder.file("endless.txt", text);
        let begun = Instant::now();
        let answer = pilzdamo(&["dispatch", &file]);
        let took = begun.elapsed();
        assert_eq!(answer.status, 0);
        let due = "; no round follows over 65,471 choices\n";
        assert!(answer.err.contains(due), "{}", answer.err);
        assert!(took < Duration::from_secs(5), "{took:?}");
        let list = folder.file("list", &answer.out);
        let run = pilzdamo(&["run", &file, &list]);
        assert_eq!((run.status, &*run.err), (0, ""));
    }
}

/// With `--sparing` the desk has one thread ready, and the report says what these rounds
/// aren't.
#[test]
fn sparing() {
    let folder = Folder::new("sparing");
    let file = folder.file("placed.txt", format::placed());
    let answer = pilzdamo(&["dispatch", &file, "--sparing"]);
    let due = "\
ask  serve
ask  serve.2
ask
ask -> serve.2  serve  serve.2 -> ask.2  ask.2
ask  serve.2  ask.2  serve.3
ask  serve.2
";
    assert_eq!((answer.status, answer.text()), (0, due));
    let told = "\
placed.txt: 6 rounds, 15 choices; then nothing is left to do, 2 threads left
  with --sparing these are not the rounds of `round`: a repeat was left out 5 times
  serve at line 24 (repeat): left out until serve.3 meets another thread or ends
  serve.3 at line 26 (receive back on inbox): waits for a sender on inbox
";
    assert_eq!(said(&folder, &["dispatch", &file, "--sparing"]), told);
    let run = pilzdamo_fed(&["run", &file, "-"], due.as_bytes());
    assert_eq!((run.status, &*run.err), (0, ""));
    // Without a repeat they are the same rounds.
    let desks = folder.file("desks", placed("desks.clinic"));
    let [plain, spared] = [
        &["dispatch", &desks][..],
        &["dispatch", &desks, "--sparing"],
    ]
    .map(|words| pilzdamo(words).out);
    assert_eq!(plain, spared);
    let told = pilzdamo(&["dispatch", &desks, "--sparing"]).err;
    assert!(!told.contains("--sparing"), "{told}");
    let help = pilzdamo(&["help", "dispatch"]);
    assert!(help.text().contains("not the rounds of round, and"));
}
