//! What the examples of spring show.

use crate::common::{example, example_bytes, numbers, pilzdamo, pilzdamo_fed};
use pilzdamo::RUN_ROOM;

/// What is looked at in a thread: its node, mask, first and third variable.
#[derive(Debug, PartialEq)]
struct Thread {
    node: u16,
    mask: u16,
    first: u16,
    third: u16,
}

/// The threads of a state that has no made channels.
fn threads(file: &[u8], choices: &[u16]) -> Vec<Thread> {
    let mut room = [0; RUN_ROOM];
    assert!(pilzdamo::run(file, choices, &mut room).is_clean());
    let words: Vec<u16> = room
        .as_chunks()
        .0
        .iter()
        .copied()
        .map(u16::from_le_bytes)
        .collect();
    assert_eq!(words[3], 0);
    let thread = |i: u16| {
        let at = 4 + 12 * usize::from(i);
        Thread {
            node: words[at + 1],
            mask: words[at + 2],
            first: words[at + 4],
            third: words[at + 6],
        }
    };
    (0..words[2]).map(thread).collect()
}

fn cut() -> Vec<u8> {
    example_bytes("spring/cut.clinic")
}

fn placed() -> Vec<u8> {
    pilzdamo(&["place", &example("spring/bare.clinic")]).out
}

/// The two schedulers.
fn schedulers(threads: &[Thread]) -> [&Thread; 2] {
    [&threads[0], &threads[1]]
}

/// Both have read bed 4, neither has written, and neither holds a role.
#[test]
fn the_cut_routine_with_both_reads_first() {
    let threads = threads(&cut(), &numbers("spring/cut-both-read.choices"));
    let [one, other] = schedulers(&threads);
    assert_eq!((one.node, one.mask, one.first), (4, 0, 4));
    assert_eq!((other.node, other.mask, other.first), (11, 0, 4));
}

/// The desk has two bookings of bed 4, and at no time did the two schedulers
/// hold the same role.
#[test]
fn the_cut_routine_promises_one_bed_twice() {
    let list = numbers("spring/cut-both-write.choices");
    let last = threads(&cut(), &list);
    assert_eq!((last[6].first, last[6].third), (4, 4));
    for done in 0..=list.len() / 2 {
        let state = threads(&cut(), &list[..2 * done]);
        let [one, other] = schedulers(&state);
        assert_eq!(one.mask & other.mask, 0);
    }
    let read = numbers("spring/cut-both-read.choices");
    assert_eq!(list[..read.len()], read);
}

/// One after the other, cut and placed do the same: beds 4 and 5.
#[test]
fn one_by_one() {
    for (file, list) in [
        (cut(), "spring/cut-one-by-one.choices"),
        (placed(), "spring/placed-one-by-one.choices"),
    ] {
        let last = threads(&file, &numbers(list));
        assert_eq!((last[6].first, last[6].third), (4, 5));
    }
}

/// Placed, both can read first as well; but then both hold role 2.
#[test]
fn the_placed_routine_with_both_reads_first() {
    let threads = threads(&placed(), &numbers("spring/placed-both-read.choices"));
    let [one, other] = schedulers(&threads);
    assert_eq!((one.node, one.mask, one.first), (3, 2, 4));
    assert_eq!((other.node, other.mask, other.first), (8, 2, 4));
}

/// Where it goes on the desk has two bookings of bed 4.
#[test]
fn the_placed_routine_promises_one_bed_twice() {
    let list = numbers("spring/placed-both-write.choices");
    let last = threads(&placed(), &list);
    assert_eq!((last[6].first, last[6].third), (4, 4));
    let read = numbers("spring/placed-both-read.choices");
    assert_eq!(list[..read.len()], read);
}

/// The lists in names are those in numbers, and the examples' page prints them.
#[test]
fn lists_in_names() {
    let readme = String::from_utf8(example_bytes("README.md")).expect("text");
    let texts = [
        ("cut", String::from_utf8(example_bytes("spring/cut.txt"))),
        (
            "placed",
            String::from_utf8(crate::common::placed("spring/bare.txt")),
        ),
    ];
    for (name, text) in texts {
        let text = text.expect("text");
        let run = |list: &str| {
            let list = example(&format!("spring/{name}-both-write{list}.choices"));
            let words = ["run", "-", &list, "--seats", "/dev/null"];
            let answer = pilzdamo_fed(&words, text.as_bytes());
            assert_eq!((answer.status, answer.err.as_str()), (0, ""));
            answer.text().to_string()
        };
        assert_eq!(run("-named"), run(""));
        let list = example_bytes(&format!("spring/{name}-both-write-named.choices"));
        let list = String::from_utf8(list).expect("text");
        let printed = format!("```text\n{list}```\n");
        assert!(readme.contains(&printed), "{name}");
    }
}

/// By rounds both read first too, both hold role 2, and the desk has two bookings
/// of bed 4.
#[test]
fn the_placed_routine_dispatched() {
    let mut list = Vec::new();
    let mut round = || {
        let round = pilzdamo::round(&placed(), &list, &mut [0; RUN_ROOM]);
        assert!(round.verdict().is_clean());
        list.extend(round.choices());
        threads(&placed(), &list)
    };
    let states = [(); 5].map(|()| round());
    let [one, other] = schedulers(&states[0]);
    assert_eq!((one.mask, other.mask), (2, 2));
    let [one, other] = schedulers(&states[2]);
    assert_eq!((one.first, other.first), (4, 4));
    let desk = states[4].last().expect("the desk");
    assert_eq!((desk.first, desk.third), (4, 4));
}

/// The rows of the first session, as shown.
fn first_session(shown: &str) -> Vec<String> {
    let rows = shown
        .lines()
        .skip_while(|line| !line.starts_with("session 1"));
    rows.skip(2)
        .take_while(|line| !line.is_empty())
        .map(str::to_string)
        .collect()
}

#[test]
fn shown() {
    let answer = pilzdamo(&["show", &example("spring/cut.clinic")]);
    let cut = [
        "  +1       1  -     on role 1",
        "           2  1     receive variable 1 on channel 1",
        "  -1       3  1     off role 1",
        "  +2       4  -     on role 2",
        "           5  2     send variable 1 on channel 3",
        "  -2       6  2     off role 2",
        "           7  -     end",
    ];
    assert_eq!(first_session(answer.text()), cut);
    let placed = [
        "  +2       1  -     on role 2",
        "           2  2     receive variable 1 on channel 1",
        "           3  2     send variable 1 on channel 3",
        "  -2       4  2     off role 2",
        "           5  -     end",
    ];
    assert_eq!(first_session(&command::show::text(&self::placed())), placed);
}
