//! Seats and hours that a text says of its roles, and tables that name roles.

use crate::common::{example, example_bytes, pilzdamo, pilzdamo_fed, placed, Answer, Folder};
use std::fs;

fn asked(words: &[&str], input: &str) -> Answer {
    pilzdamo_fed(words, input.as_bytes())
}

fn text(name: &str) -> String {
    String::from_utf8(example_bytes(name)).expect("text")
}

/// A text with each two role lines that follow each other swapped.
fn swapped(text: &str) -> Vec<String> {
    let lines: Vec<&str> = text.split('\n').collect();
    let is_role = |at: usize| lines[at].starts_with("role ");
    let pairs = (1..lines.len()).filter(|&at| is_role(at - 1) && is_role(at));
    let texts = pairs.map(|at| {
        let mut lines = lines.clone();
        lines.swap(at - 1, at);
        lines.join("\n")
    });
    texts.collect()
}

/// What is answered, with the lines of the roles in one order.
fn told(answer: Answer) -> (i32, Vec<String>, String) {
    let lines = answer.text().lines().map(str::to_string);
    let (mut roles, mut told): (Vec<_>, Vec<_>) = lines.partition(|line| line.starts_with("role "));
    roles.sort();
    told.extend(roles);
    (answer.status, told, answer.err)
}

/// Seats go by name: whichever role stands first, every list of the examples of seats and of
/// spring comes to the same, with the seats of the text and with a table.
#[test]
fn the_order_of_the_roles_changes_no_run() {
    let folder = Folder::new("swapped roles");
    let table = folder.file("one.seats", "# the bed holder alone\nholder 1\n");
    let (mut runs, mut waited) = (0, 0);
    for (file, lists) in [
        ("seats/asked.txt", "seats"),
        ("spring/bare.txt", "spring"),
        ("spring/cut.txt", "spring"),
    ] {
        let place = |text: &str| match file {
            "spring/cut.txt" => text.to_string(),
            _ => asked(&["place", "-"], text).text().to_string(),
        };
        let due = folder.file("due.txt", place(&text(file)));
        let others = swapped(&text(file));
        assert_eq!(others.len(), 2, "{file}");
        for other in others {
            let other = folder.file("other.txt", place(&other));
            let lists = fs::read_dir(example(lists)).expect("a folder");
            let lists = lists.map(|entry| entry.expect("an entry").path().display().to_string());
            for list in lists.filter(|list| list.ends_with(".choices")) {
                for seats in [&[][..], &["--seats", &table]] {
                    let [one, other] = [&due, &other].map(|file| {
                        let words = [&["run", file, &list][..], seats].concat();
                        told(pilzdamo(&words))
                    });
                    assert_eq!(one, other, "{file} {list}");
                    let waits = |line: &String| line.contains(", in line: ");
                    (runs, waited) = (runs + 1, waited + one.1.iter().filter(|l| waits(l)).count());
                }
            }
        }
    }
    assert!(runs > 90 && waited > 20, "{runs} {waited}");
}

/// The issue's own case: the two schedulers of asked.txt with their roles swapped.
#[test]
fn one_seat_holds_after_a_swap() {
    let folder = Folder::new("one seat after a swap");
    let swapped = swapped(&text("seats/asked.txt")).swap_remove(0);
    assert!(swapped
        .contains("\nrole holder: send request, booking; receive answer; 1 seat\nrole reader"));
    let file = folder.file("placed.txt", asked(&["place", "-"], &swapped).out);
    let list = example("seats/both-read.choices");
    let answer = pilzdamo(&["run", &file, &list]);
    assert_eq!(answer.status, 1, "{}", answer.text());
    assert!(answer.err.contains(": refused 18: "), "{}", answer.err);
    // By position the table would limit another role, and isn't taken.
    let answer = pilzdamo(&[
        "run",
        &file,
        &list,
        "--seats",
        &example("seats/one-holder.seats"),
    ]);
    assert_eq!((answer.status, answer.text()), (2, ""));
    let due = ":2:1: a table by position, and roles go by name here: reader 1\n";
    assert!(answer.err.contains(due), "{}", answer.err);
}

/// Two sessions that want one role, which has one seat.
const TWO: &str = "\
clinic 1
kind note
role reader
role holder: send note; receive note; 1 seat
user one: holder
user two: holder
channel line: note, owner two

session first by one
  on holder
  send one on line
  off holder

session second by two
  on holder
  receive got on line
  off holder
";

#[test]
fn seats_of_the_text_are_in_force() {
    let folder = Folder::new("seats of a text");
    let file = folder.file("two.txt", TWO);
    let free = folder.file("free.txt", TWO.replace("; 1 seat", ""));
    let waits = "role reader: no limit, taken by 0 sessions\n\
                 role holder: 1 seat, taken by 1 session, in line: session second\n\
                 choices that got no seat: 1\n";
    for verb in ["run", "seats"] {
        let answer = asked(&[verb, &file, "-"], "first second");
        assert_eq!(answer.status, 0, "{}", answer.err);
        assert!(answer.text().contains(waits), "{}", answer.text());
    }
    let answer = asked(&["choices", &file, "-"], "first");
    assert_eq!(answer.text(), "second  # waits for a seat as holder\n");
    // Who waits for a seat hasn't come to its receive.
    let answer = asked(&["ready", &file, "-"], "first second");
    assert_eq!(answer.text(), "no two threads can meet\n");
    let answer = asked(&["ready", &free, "-"], "first second");
    assert_eq!(
        answer.text(),
        "first (thread 1) can send to second (thread 2)\n"
    );
    let answer = asked(&["waiting", &file, "-"], "first second");
    assert_eq!(answer.text(), "kind note: 0 waiting\n");
    let answer = asked(&["waiting", &free, "-"], "first second");
    assert_eq!(answer.text(), "kind note: 1 waiting\n");
    // A refused choice has its own number, whoever waited before it.
    for verb in ["ready", "waiting"] {
        let answer = asked(&[verb, &file, "-"], "first second second first -> second");
        assert_eq!(answer.status, 1);
        let due = "standard input:1:21: refused 18: ";
        assert!(answer.err.starts_with(due), "{}", answer.err);
        assert!(answer.err.contains(" at choice 4.\n"), "{}", answer.err);
    }
    let answer = asked(&["round", &file, "-"], "");
    assert!(answer.text().starts_with("round: first  second\n"));
    assert!(answer.text().contains(waits), "{}", answer.text());
}

/// A table replaces the seats of the text, for every command that runs routines.
#[test]
fn a_table_replaces_them() {
    let folder = Folder::new("seats replaced");
    let [file, list] = [
        folder.file("two.txt", TWO),
        folder.file("list", "first second"),
    ];
    let free = folder.file("free.txt", TWO.replace("; 1 seat", ""));
    let [none, two] = [("none", "# no limit\nholder 0\n"), ("two", "holder 2\n")]
        .map(|(name, table)| folder.file(name, table));
    for table in [&none, &two, "/dev/null"] {
        for words in [
            &["ready", "FILE", &list][..],
            &["waiting", "FILE", &list],
            &["choices", "FILE", &list],
            &["dispatch", "FILE"],
        ] {
            let [one, other] = [&file, &free].map(|file| {
                let words = words
                    .iter()
                    .map(|&word| if word == "FILE" { file } else { word });
                let words: Vec<&str> = words.chain(["--seats", table]).collect();
                let answer = pilzdamo(&words);
                assert_eq!(answer.status, 0, "{}", answer.err);
                answer.out
            });
            assert_eq!(one, other, "{words:?}");
        }
    }
    let answer = pilzdamo(&["seats", &file, &list, &two]);
    let due = "role holder: 2 seats, taken by 2 sessions\n";
    assert!(answer.text().contains(due), "{}", answer.text());
    for verb in ["run", "round"] {
        let answer = pilzdamo(&[verb, &file, &list, "--seats", &two]);
        assert!(
            answer.text().contains("\nrole holder: 2 seats, taken by "),
            "{verb}"
        );
    }
    // Without seats there is nothing to print.
    let answer = pilzdamo(&["seats", &free, &list]);
    assert_eq!((answer.status, answer.text()), (2, ""));
    let due =
        format!("pilzdamo: seats: {free}: no role has seats of its own; name a table: SEATS\n");
    assert_eq!(answer.err, due);
    let answer = pilzdamo(&["seats", &example("refused/08-tree.clinic"), &list]);
    assert_eq!(answer.status, 1);
}

/// Rounds in which everybody waits, and nobody goes on, end.
#[test]
fn dispatching_ends_where_all_wait() {
    let folder = Folder::new("dispatched with seats");
    let answer = asked(&["dispatch", "-"], TWO);
    assert_eq!((answer.status, answer.text()), (0, "first  second\n"));
    let due = "\
standard input: 1 round, 2 choices; then every choice waits for a seat, 2 threads left
  first at line 11 (send one on line): waits for a receiver on line
  second at line 15 (on holder): waits for a seat as holder, number 1 in line; 1 seat, taken by \
session first
";
    assert_eq!(answer.err, due);
    // Who hasn't asked yet isn't in line.
    let later = TWO.replace(
        "two\n  on holder",
        "two\n  compare two with two\n  on holder",
    );
    let answer = asked(&["dispatch", "-", "1"], &later);
    let due = "second at line 16 (on holder): would wait for a seat as holder; 1 seat, taken by \
               session first\n";
    assert!(answer.err.ends_with(due), "{}", answer.err);
    let file = folder.file("asked.txt", placed("seats/asked.txt"));
    let answer = pilzdamo(&["dispatch", &file]);
    assert_eq!(answer.status, 0, "{}", answer.err);
    let run = pilzdamo_fed(&["run", &file, "-", "--trace"], &answer.out);
    assert_eq!(run.status, 0, "{}", run.err);
    let beds =
        ["bed4", "bed5"].map(|bed| run.text().matches(&format!(" has booked = {bed}")).count());
    assert_eq!(beds, [1, 1], "{}", run.text());
    // Bytes take a table by position.
    let bytes = placed("seats/asked.clinic");
    let words = [
        "dispatch",
        "-",
        "--seats",
        &example("seats/one-holder.seats"),
    ];
    let numbers = pilzdamo_fed(&words, &bytes);
    assert_eq!(
        numbers.text().lines().count(),
        answer.text().lines().count()
    );
    let few = [
        "dispatch",
        "-",
        "--seats",
        &example("refused/17-short.seats"),
    ];
    let answer = pilzdamo_fed(&few, &bytes);
    assert_eq!((answer.status, answer.text()), (1, ""));
    assert!(answer.err.contains("Refused 17: "), "{}", answer.err);
}

#[test]
fn wrong_tables_of_seats() {
    let folder = Folder::new("wrong tables of seats");
    let file = folder.file("two.txt", TWO);
    let list = folder.file("list", "1 0");
    for (table, due) in [
        (
            "0 2",
            "1:1: a table by position, and roles go by name here: holder 2\n",
        ),
        (
            "\n1",
            "2:1: a table by position, and roles go by name here: reader 1\n",
        ),
        (
            "0\n0",
            "1:1: a table by position, and roles go by name here: reader 1\n",
        ),
        (
            "holdr 1",
            "1:1: there is no role 'holdr' (roles: reader, holder); did you mean 'holder'?\n",
        ),
        (
            "desk 1",
            "1:1: there is no role 'desk' (roles: reader, holder)\n",
        ),
        (
            "desk\x1b 1",
            "1:1: there is no role 'desk\\x1b' (roles: reader, holder)\n",
        ),
        (
            "holder",
            "1:1: a role and its seats, such as reader 1, are due\n",
        ),
        (
            "holder 1 reader 2",
            "1:1: a role and its seats, such as reader 1, are due\n",
        ),
        (
            "holder 33",
            "1:8: '33' isn't 0 for no limit, or 1 to 32 seats\n",
        ),
        (
            "holder one",
            "1:8: 'one' isn't 0 for no limit, or 1 to 32 seats\n",
        ),
        ("holder 1\nholder 1", "2:1: 'holder' is there twice\n"),
    ] {
        for words in [
            &["run", &file, &list, "--seats", "-"][..],
            &["seats", &file, &list, "-"],
        ] {
            let answer = asked(words, table);
            assert_eq!((answer.status, answer.text()), (2, ""), "{table}");
            let due = format!("standard input:{due}");
            assert!(answer.err.starts_with(&due), "{}", answer.err);
            let form = "seats are text, a line for each role with a limit of 1 to 32: reader 1\n";
            assert!(answer.err.ends_with(form), "{}", answer.err);
        }
    }
    // Bytes have no names, unless they are given: then tables go by them.
    let [bytes, names] = ["two.clinic", "two.names"].map(|name| folder.at(name));
    assert_eq!(
        pilzdamo(&["pack", &file, "-o", &bytes, "--names", &names]).status,
        0
    );
    let run = ["run", &bytes, &list, "--seats", "-"];
    assert_eq!(asked(&run, "0 1").status, 0);
    let answer = asked(&run, "holder 1");
    assert_eq!(answer.status, 2);
    assert!(
        answer.err.ends_with("(by name with --names NAMES)\n"),
        "{}",
        answer.err
    );
    let named = [&run[..], &["--names", &names]].concat();
    let answer = asked(&named, "holder 3");
    assert!(
        answer.text().contains("role holder: 3 seats, "),
        "{}",
        answer.err
    );
    assert_eq!(asked(&named, "0 1").status, 2);
    // A refused file is reported first.
    let damaged = example("refused/08-tree.clinic");
    let answer = asked(&["run", &damaged, &list, "--seats", "-"], "holder 1");
    assert_eq!(answer.status, 1);
    assert!(answer.err.contains("Refused 8: "), "{}", answer.err);
}

/// Bytes with names that say seats and hours are run and checked as the text is.
#[test]
fn names_bring_seats_and_hours() {
    let folder = Folder::new("seats in names");
    let [bytes, names] = ["file.clinic", "file.names"].map(|name| folder.at(name));
    let pack = |text: &str| pilzdamo(&["pack", text, "-o", &bytes, "--names", &names]).status;
    let file = folder.file("two.txt", TWO);
    assert_eq!(pack(&file), 0);
    let answer = asked(&["seats", &bytes, "-", "--names", &names], "first second");
    let due = asked(&["seats", &file, "-"], "first second");
    assert_eq!((answer.status, answer.out), (0, due.out));
    assert_eq!(pack(&example("hours/by-day.txt")), 0);
    for (time, status) in [("Mon 12:00", 0), ("Mon 20:00", 1)] {
        let answer = pilzdamo(&["check", &bytes, "--names", &names, "--at", time]);
        assert_eq!(answer.status, status, "{}", answer.err);
    }
    let answer = pilzdamo(&["check", &bytes, "--at", "Mon 12:00"]);
    assert_eq!((answer.status, answer.text()), (2, ""));
    let why = "--at goes with --hours HOURS here: no role has opening hours of its own";
    assert_eq!(answer.err, format!("pilzdamo: {bytes}: {why}\n"));
}

#[test]
fn hours_of_the_text_are_in_force() {
    let folder = Folder::new("hours of a text");
    let [desk, by_day] = ["desk", "by-day"].map(|name| example(&format!("hours/{name}.txt")));
    let [bytes, week] = ["hours/desk.clinic", "hours/week.hours"].map(example);
    for time in [
        "Mon 12:00",
        "Mon 07:15",
        "Tue 03:00",
        "Sat 12:00",
        "Mon 00:00",
    ] {
        let text = pilzdamo(&["place", &desk, "--bytes", "--at", time]);
        let due = pilzdamo(&["place", &bytes, "--at", time, "--hours", &week]);
        assert_eq!((text.status, text.out), (0, due.out), "{time}");
        let [text, due] = [
            &["measure", &desk, "--at", time][..],
            &["measure", &bytes, "--at", time, "--hours", &week],
        ]
        .map(pilzdamo);
        let figures = |answer: &Answer| {
            answer
                .text()
                .rsplit_once(": ")
                .map(|(_, it)| it.to_string())
        };
        assert_eq!(figures(&text), figures(&due));
    }
    let evening = ["check", &by_day, "--at", "Mon 20:00"];
    let answer = pilzdamo(&evening);
    assert_eq!(answer.status, 1);
    let due = format!("{by_day}:13:3: refused 24: admissions is closed at that minute\n");
    assert!(answer.err.starts_with(&due), "{}", answer.err);
    // A table replaces them, by name.
    let late = folder.file("late.hours", "admissions Mon-Fri 19:00-23:00\n");
    let answer = pilzdamo(&[&evening[..], &["--hours", &late]].concat());
    assert_eq!((answer.status, &*answer.err), (0, ""));
    assert_eq!(
        pilzdamo(&[&evening[..], &["--hours", "/dev/null"]].concat()).status,
        0
    );
    for (table, due) in [
        ("role 1 Mon-Fri 07:00-15:00", "1:1: a role by position, and roles go by name here: admissions\n"),
        ("night_desk Mon 07:00-15:00", "1:1: there is no role 'night_desk' (roles: admissions, night-desk); did you mean 'night-desk'?\n"),
        ("admissions Mon-Fri", "1:1: 'admissions Mon-Fri' doesn't have three words\n"),
    ] {
        let answer = asked(&[&evening[..], &["--hours", "-"]].concat(), table);
        assert_eq!((answer.status, answer.text()), (2, ""), "{table}");
        assert!(answer.err.starts_with(&format!("standard input:{due}")), "{}", answer.err);
        let form = "opening hours are text, a line for each stretch: admissions Mon-Fri 07:00-15:00\n";
        assert!(answer.err.ends_with(form), "{}", answer.err);
    }
    // A text without hours needs a table.
    let answer = pilzdamo(&["check", &example("spring/cut.txt"), "--at", "Mon 12:00"]);
    assert_eq!((answer.status, answer.text()), (2, ""));
    // Of several files each has its own, and a table is read for each.
    let answer = pilzdamo(&[
        "check",
        &by_day,
        &example("spring/cut.txt"),
        "--at",
        "Mon 12:00",
    ]);
    assert_eq!(
        (answer.status, answer.text()),
        (2, &*format!("{by_day}: passes at Mon 12:00\n"))
    );
    let many = TWO.replace(
        "; 1 seat",
        &format!("; open {}", ["Mon-Sun 22:00-06:00"; 5].join(", ")),
    );
    let answer = asked(&["check", "-", "--at", "Mon 12:00"], &many);
    assert_eq!(answer.status, 1);
    let due = "\n  the table has 70 rows, and at most 64 are taken\n";
    assert!(answer.err.contains(due), "{}", answer.err);
}

/// The tables that programs lend to the engine, in words of two bytes, the low byte first.
#[test]
fn tables_for_programs() {
    let folder = Folder::new("tables for programs");
    let [out, names, seats, hours] =
        ["a.clinic", "a.names", "a.seats", "a.hours"].map(|name| folder.at(name));
    let pack = |text: &str| {
        let words = [
            "pack", text, "-o", &out, "--names", &names, "--seats", &seats, "--hours", &hours,
        ];
        let answer = pilzdamo(&words);
        assert_eq!((answer.status, answer.text()), (0, ""), "{}", answer.err);
        [&out, &seats, &hours].map(|path| fs::read(path).expect("a file"))
    };
    let [file, table, rows] = pack(&example("seats/asked.txt"));
    assert_eq!(file, example_bytes("seats/asked.clinic"));
    assert_eq!((&table[..], &rows[..]), (&[0, 0, 1, 0, 0, 0][..], &[][..]));
    let [file, table, rows] = pack(&example("hours/desk.txt"));
    assert_eq!(file, example_bytes("hours/desk.clinic"));
    assert_eq!(table, [0; 4]);
    let words: Vec<u16> = rows
        .as_chunks()
        .0
        .iter()
        .copied()
        .map(u16::from_le_bytes)
        .collect();
    assert_eq!(words[..6], [1, 420, 900, 1, 1_860, 2_340]);
    assert_eq!(words.len(), 3 * (5 + 14 + 2));
    let placed = pilzdamo::placed_at(&file, &words, 720).expect("a placement");
    let due = pilzdamo(&[
        "place",
        &example("hours/desk.txt"),
        "--bytes",
        "--at",
        "Mon 12:00",
    ]);
    assert_eq!(placed.0, due.out);
    // One of them may be standard output, and no two the same file.
    let text = example("seats/asked.txt");
    let answer = pilzdamo(&["pack", &text, "-o", &out, "--seats", "-"]);
    assert_eq!(answer.out, [0, 0, 1, 0, 0, 0]);
    for (words, due) in [
        (
            &["-o", &out, "--seats", &out][..],
            "pack: FILE and SEATS are the same file\n",
        ),
        (
            &["--seats", &seats, "--hours", &seats],
            "pack: SEATS and HOURS are the same file\n",
        ),
        (
            &["--seats", &text],
            "an input is not written over without --force\n",
        ),
    ] {
        let answer = pilzdamo(&[&["pack", &text][..], words].concat());
        assert_eq!((answer.status, answer.text()), (2, ""), "{words:?}");
        assert!(answer.err.ends_with(due), "{}", answer.err);
    }
}

/// Every text of the examples, packed and unpacked with its names, is the same text, apart
/// from comments; and placing and stripping keep its role lines.
#[test]
fn packed_and_unpacked() {
    let folder = Folder::new("unpacked seats");
    let [out, names] = ["a.clinic", "a.names"].map(|name| folder.at(name));
    for name in [
        "seats/asked.txt",
        "spring/bare.txt",
        "hours/desk.txt",
        "hours/by-day.txt",
    ] {
        let path = example(name);
        assert_eq!(
            pilzdamo(&["pack", &path, "-o", &out, "--names", &names]).status,
            0
        );
        let due: String = text(name)
            .split_inclusive('\n')
            .filter(|line| !line.starts_with('#'))
            .collect();
        for from in [&names, &path] {
            let answer = pilzdamo(&["unpack", &out, "--names", from]);
            assert_eq!((answer.status, answer.text()), (0, &*due), "{name}");
        }
        let shown = pilzdamo(&["show", &path]);
        let stripped = pilzdamo(&["strip", &path]);
        let roles = due.lines().filter(|line| line.starts_with("role "));
        for line in roles {
            assert!(
                shown.text().contains(line) && stripped.text().contains(line),
                "{name}"
            );
        }
        if name != "hours/by-day.txt" {
            let placed = String::from_utf8(placed(name)).expect("text");
            let back = asked(&["strip", "-"], &placed);
            assert_eq!(back.text(), text(name));
        }
    }
}

/// Who writes a text as bytes hears which roles have seats or hours that aren't in them.
#[test]
fn bytes_without_seats_and_hours() {
    let folder = Folder::new("lost limits");
    let desk = example("hours/desk.txt");
    let both = text("hours/desk.txt").replacen("; open", "; 2 seats; open", 1);
    let both = folder.file("both.txt", both);
    let asked = example("seats/asked.txt");
    let out = folder.at("out");
    let other = folder.at("other");
    let lost = |file: &str, what: &str| format!("{file}: the {what} write them\n");
    let hours = "hours of roles admissions, night-desk aren't in the bytes; ";
    let seats = "seats of role admissions aren't in the bytes; ";
    let all = "seats and hours of roles admissions, night-desk aren't in the bytes; ";
    for (file, option, due) in [
        (&desk, "", Some(format!("{hours}--names or --hours"))),
        (&desk, "--seats", Some(format!("{hours}--names or --hours"))),
        (&desk, "--hours", None),
        (&desk, "--names", None),
        (&both, "", Some(format!("{all}--names, --seats or --hours"))),
        (&both, "--hours", Some(format!("{seats}--names or --seats"))),
        (&both, "--seats", Some(format!("{hours}--names or --hours"))),
        (&both, "--names", None),
    ] {
        let mut words = vec!["pack", file, "-o", &out];
        if !option.is_empty() {
            words.extend([option, &other]);
        }
        let answer = pilzdamo(&words);
        assert_eq!(answer.status, 0, "{}", answer.err);
        let (_, told) = answer.err.split_once('\n').expect("a line");
        let due = due.map_or(String::new(), |due| lost(file, &due));
        assert_eq!(told, due, "{words:?}");
    }
    let bytes = example("hours/desk.clinic");
    let due = lost(&desk, &format!("{hours}pack --names or --hours"));
    for words in [
        &["place", &desk, "--bytes", "-o", &out][..],
        &["notice", "0", &desk, "-o", &out],
        &["merge", &desk, &bytes, "-o", &out],
        &["merge", &bytes, &desk, "-o", &out],
        &["merge", &desk, &desk, "--bytes", "-o", &out],
    ] {
        let answer = pilzdamo(words);
        assert_eq!(answer.status, 0, "{}", answer.err);
        assert_eq!(answer.err.matches(&due).count(), 1, "{}", answer.err);
    }
    let due = lost(
        &asked,
        "seats of role holder aren't in the bytes; pack --names or --seats",
    );
    let answer = pilzdamo(&["place", &asked, "--bytes", "-o", &out]);
    assert!(answer.err.contains(&due), "{}", answer.err);
    // Texts keep them, and bytes have none to lose.
    let names = folder.at("names");
    assert_eq!(
        pilzdamo(&["pack", &desk, "-o", &out, "--names", &names]).status,
        0
    );
    for words in [
        &["place", &desk][..],
        &["merge", &desk, &desk],
        &["place", &out, "--names", &names],
        &["pack", &example("booking.txt")],
    ] {
        let answer = pilzdamo(words);
        assert_eq!(answer.status, 0, "{}", answer.err);
        assert!(!answer.err.contains("aren't in the bytes"), "{words:?}");
    }
}

/// A mark of the byte order before a table changes nothing.
#[test]
fn a_mark_before_a_table() {
    let folder = Folder::new("marked tables");
    let file = folder.file("placed.txt", placed("seats/asked.txt"));
    let list = example("seats/both-ask.choices");
    let [plain, marked] = ["", "\u{feff}"].map(|mark| {
        let seats = folder.file("a.seats", format!("{mark}holder 2\n"));
        let hours = folder.file("a.hours", format!("{mark}admissions Mon 07:00-15:00\n"));
        let desk = example("hours/desk.txt");
        let words = ["check", &desk, "--at", "Mon 07:30", "--hours", &hours];
        [pilzdamo(&["seats", &file, &list, &seats]), pilzdamo(&words)]
            .map(|answer| (answer.status, answer.out, answer.err))
    });
    assert_eq!(plain, marked);
    assert_eq!(plain[0].0, 0, "{}", plain[0].2);
}

/// The line of a table as it should be, and a day that was forgotten.
#[test]
fn lines_that_are_nearly_right() {
    let folder = Folder::new("nearly hours");
    let desk = example("hours/desk.txt");
    let hours = folder.file("a.hours", "role night-desk Mon-Fri 07:00-15:00\n");
    let answer = pilzdamo(&["check", &desk, "--at", "Mon 07:30", "--hours", &hours]);
    let due = ":1:1: leave out the word role: night-desk Mon-Fri 07:00-15:00\n";
    assert_eq!(answer.status, 2, "{}", answer.err);
    assert!(answer.err.contains(due), "{}", answer.err);
    let file = folder.file(
        "a.txt",
        "clinic 1\nkind a\nrole r: send a; open 07:00-15:00\n",
    );
    let answer = pilzdamo(&["check", &file]);
    let due = ":3:22: a day or days, such as Mon-Fri, are due before '07:00-15:00'\n";
    assert_eq!(answer.status, 2, "{}", answer.err);
    assert!(answer.err.contains(due), "{}", answer.err);
}
