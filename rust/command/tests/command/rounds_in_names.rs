//! `round` and `dispatch` of a text: its names, in the form that `run` takes.

use crate::common::{example, pilzdamo, pilzdamo_fed, placed, without_seats, Folder};
use crate::files;
use std::time::{Duration, Instant};

/// Every text of the examples, as it stands and placed if it can be.
fn texts() -> Vec<(String, Vec<u8>)> {
    let mut texts = Vec::new();
    for (name, _) in files::all() {
        let text = example(&name.replace(".clinic", ".txt"));
        if !name.ends_with(".clinic") || !std::fs::exists(&text).expect("a folder") {
            continue;
        }
        texts.push((name.to_string(), std::fs::read(&text).expect("a text")));
        let placed = pilzdamo(&["place", &text]);
        if placed.status == 0 {
            texts.push((format!("{name}, placed"), placed.out));
        }
    }
    texts
}

/// What is dispatched is run to the same state as the numbers that the bytes give.
#[test]
fn what_is_dispatched_is_run() {
    let folder = Folder::new("dispatched in names");
    let (mut dispatched, mut meetings) = (0, 0);
    for (name, text) in texts() {
        let file = folder.file("file.txt", without_seats(text));
        let bytes = folder.at("file.clinic");
        assert_eq!(pilzdamo(&["pack", &file, "-o", &bytes]).status, 0);
        let [names, numbers] = [&file, &bytes].map(|file| pilzdamo(&["dispatch", file]));
        assert_eq!((names.status, numbers.status), (0, 0), "{name}");
        let lines = [&names, &numbers].map(|answer| answer.text().lines().count());
        assert_eq!(lines[0], lines[1], "{name}");
        let digits = |line: &str| line.starts_with(|c: char| c.is_ascii_digit());
        assert!(!names.text().lines().any(digits), "{}", names.text());
        let by_name = pilzdamo_fed(&["run", &file, "-"], &names.out);
        let by_number = pilzdamo_fed(&["run", &file, "-"], &numbers.out);
        assert_eq!((by_name.status, &*by_name.err), (0, ""), "{name}");
        assert_eq!(by_name.out, by_number.out, "{name}");
        dispatched += lines[0];
        meetings += names.text().matches(" -> ").count();
    }
    assert!(
        dispatched > 100 && meetings > 50,
        "{dispatched}, {meetings}"
    );
}

/// A round's line after its list leads where the round led.
#[test]
fn a_round_is_run() {
    let folder = Folder::new("rounds in names");
    for (name, text) in texts() {
        let file = folder.file("file.txt", text);
        let mut list = String::new();
        for _ in 0..12 {
            let round = pilzdamo_fed(&["round", &file, "-"], list.as_bytes());
            assert_eq!(round.status, 0, "{name}: {}", round.err);
            let (first, state) = round.text().split_once('\n').expect("lines");
            let choices = first.strip_prefix("round: ").expect("its choices");
            if choices == "no choice can be done" {
                break;
            }
            assert_eq!(round.err, "", "{name}");
            list += choices;
            list.push('\n');
            let run = pilzdamo_fed(&["run", &file, "-"], list.as_bytes());
            assert_eq!((run.status, run.text()), (0, state), "{name}: {list}");
        }
    }
}

/// The example's rounds in names.
#[test]
fn the_desks_in_names() {
    let placed = pilzdamo(&["place", &example("desks.txt")]).out;
    let answer = pilzdamo_fed(&["dispatch", "-"], &placed);
    let due = "\
first  second  desk
first -> desk
first -> desk
first  second -> desk
first  second -> desk  desk
second  desk
second
";
    assert_eq!((answer.status, answer.text()), (0, due), "{}", answer.err);
    let due = "standard input: 7 rounds, 13 choices; then no choice can be done, 0 threads left\n";
    assert_eq!(answer.err, due);
}

/// With seats, who waits is in the round's line, and the line is read again.
#[test]
fn a_round_with_seats() {
    let folder = Folder::new("seated rounds in names");
    let file = folder.file("asked.txt", placed("seats/asked.txt"));
    let mut list = String::new();
    for _ in 0..8 {
        let round = pilzdamo_fed(&["round", &file, "-"], list.as_bytes());
        assert_eq!((round.status, &*round.err), (0, ""), "{list}");
        let (first, state) = round.text().split_once('\n').expect("lines");
        list += first.strip_prefix("round: ").expect("its choices");
        list.push('\n');
        let run = pilzdamo_fed(&["run", &file, "-"], list.as_bytes());
        assert_eq!((run.status, run.text()), (0, state), "{list}");
    }
    assert!(list.contains("book2"), "{list}");
}

/// Two sessions that put one role on and off again and again, in threads of their own.
const TURNS: &str = "\
clinic 1
role holder
user one: holder
user two: holder

session first by one
  repeat
    on holder
    off holder

session second by two
  repeat
    on holder
    off holder
";

/// The second asks while the first has the seat, and waits once in each turn. What is
/// counted: the numbers of threads, and the choices that got no seat.
fn turns(most: usize) -> (String, usize) {
    let (mut list, mut count, mut turn) = (String::new(), 0, 2);
    while count + 9 <= most {
        list += &format!("first second first.{turn} second.{turn} first.{turn} first.{turn}\n");
        list += &format!("second.{turn} second.{turn} second.{turn}\n");
        (count, turn) = (count + 9, turn + 1);
    }
    (list, count)
}

/// A long list with names and seats takes time by its length alone.
#[test]
fn a_long_list_with_seats() {
    let folder = Folder::new("long list with seats");
    let (file, seats) = (
        folder.file("turns.txt", TURNS),
        folder.file("one", "holder 1\n"),
    );
    for most in [20_000, 65_535] {
        let (list, count) = turns(most);
        let list = folder.file("list", list);
        let begun = Instant::now();
        let answer = pilzdamo(&["run", &file, &list, "--seats", &seats]);
        let took = begun.elapsed();
        assert_eq!((answer.status, &*answer.err), (0, ""));
        let done = format!("choices done: {count}\nthreads: 2\n");
        assert!(answer.text().starts_with(&done), "{}", answer.text());
        let waited = format!("\nchoices that got no seat: {}\n", count / 9);
        assert!(answer.text().contains(&waited), "{}", answer.text());
        assert!(
            took < Duration::from_secs(5),
            "{took:?} for {count} choices"
        );
    }
}

/// A list of as many choices as there can be has its names to the end.
#[test]
fn as_many_choices_as_a_list_can_have() {
    let folder = Folder::new("as many choices as can be");
    let file = folder.file("turns.txt", TURNS);
    // The last turn lacks its end.
    let list = "1 0 3 0 3 0 3 0\n".repeat(16_383) + "1 0 3 0 3 0";
    let answer = pilzdamo_fed(&["run", &file, "-"], list.as_bytes());
    let due = "\
choices done: 65535
threads: 3
  1 first: one, line 7 (repeat), no role
  2 second: two, line 12 (repeat), no role
  3 first.16385: one, the end after line 9, no role
made channels: 0
";
    assert_eq!((answer.status, answer.text()), (0, due));
    let answer = pilzdamo_fed(&["run", &file, "-"], (list + " 3 0").as_bytes());
    assert_eq!((answer.status, answer.text()), (1, ""));
    assert!(answer.err.contains("Refused 17: "), "{}", answer.err);
}
