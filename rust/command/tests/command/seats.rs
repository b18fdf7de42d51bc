//! `seats FILE CHOICES SEATS`, and `--seats`.

use crate::common::{example, example_bytes, pilzdamo, pilzdamo_fed, placed, Folder};
use crate::draft::{off, on, Draft, END};

/// Three sessions that put role 1 on and off, which has one seat, and role 2, which has
/// no limit.
fn three(folder: &Folder) -> [String; 2] {
    let tree = [on(1), off(1), on(2), off(2), END];
    let file = Draft::default().user(&[1, 2]).role(&[], &[]).role(&[], &[]);
    let file = file.session(1, &tree).session(1, &tree).session(1, &tree);
    [
        folder.file("a.clinic", file.bytes()),
        folder.file("a.seats", "1 # one\n0\n"),
    ]
}

const WAITS: &str = "the last choice done: Refused 26: the role has no free seat, or other \
                     sessions are before this one in line\n";

#[test]
fn a_line_for_each_role() {
    let folder = Folder::new("seats");
    let [file, seats] = three(&folder);
    let none = "role 1: 1 seat, taken by 0 sessions\nrole 2: no limit, taken by 0 sessions\n\
                choices that got no seat: 0\n";
    let waits = format!(
        "role 1: 1 seat, taken by 1 session, in line: session 3\nrole 2: no limit, taken by 0 \
         sessions\nchoices that got no seat: 1\n{WAITS}"
    );
    let both = format!(
        "role 1: 1 seat, taken by 1 session, in line: sessions 3, 1\nrole 2: no limit, taken by 0 \
         sessions\nchoices that got no seat: 3\n{WAITS}"
    );
    let freed = "role 1: 1 seat, taken by 0 sessions, in line: sessions 3, 1\nrole 2: no limit, \
                 taken by 1 session\nchoices that got no seat: 2\n";
    let had = "role 1: 1 seat, taken by 1 session, in line: session 1\nrole 2: no limit, taken by \
               1 session\nchoices that got no seat: 2\n";
    for (list, due) in [
        ("", none),
        ("2 0 3 0", &waits),
        ("2 0 3 0 1 0 3 0", &both),
        ("2 0 3 0 1 0 2 0 2 0", freed),
        ("2 0 3 0 1 0 2 0 2 0 3 0", had),
    ] {
        let answer = pilzdamo_fed(&["seats", &file, "-", &seats], list.as_bytes());
        assert_eq!((answer.status, answer.err.as_str()), (0, ""), "{list}");
        assert_eq!(answer.text(), due, "{list}");
        // A run prints its state, and then the same.
        let run = pilzdamo_fed(&["run", &file, "-", "--seats", &seats], list.as_bytes());
        assert_eq!((run.status, run.err.as_str()), (0, ""), "{list}");
        assert!(run.text().starts_with("choices done: "), "{list}");
        assert!(run.text().ends_with(due), "{list}");
    }
}

#[test]
fn a_round() {
    let folder = Folder::new("seated round");
    let [file, seats] = three(&folder);
    let answer = pilzdamo_fed(&["round", &file, "-", "--seats", &seats], b"");
    assert_eq!((answer.status, answer.err.as_str()), (0, ""));
    let due = format!(
        "round: 1 0  2 0  3 0\nchoices done: 3\nthreads: 3\n  thread 1: user 1, node 2 (off role \
         1), role 1\n  thread 2: user 1, node 6 (on role 1), no role\n  thread 3: user 1, node 11 \
         (on role 1), no role\nmade channels: 0\nrole 1: 1 seat, taken by 1 session, in line: \
         sessions 2, 3\nrole 2: no limit, taken by 0 sessions\nchoices that got no seat: 2\n{WAITS}"
    );
    assert_eq!(answer.text(), due);
}

/// Without limits a run and a round print what they print without a table, and then the
/// roles.
#[test]
fn without_limits() {
    let folder = Folder::new("no limits");
    let free = folder.file("free.seats", "0 0 0");
    let file = example("spring/cut.clinic");
    let list = example("spring/cut-both-write.choices");
    for verb in ["run", "round"] {
        let plain = pilzdamo(&[verb, &file, &list]);
        let seated = pilzdamo(&[verb, &file, &list, "--seats", &free]);
        assert_eq!((seated.status, seated.err.as_str()), (0, ""));
        let roles = seated.text().strip_prefix(plain.text()).expect("the same");
        assert!(roles.starts_with("role 1: no limit, taken by "), "{roles}");
        assert!(roles.ends_with("choices that got no seat: 0\n"), "{roles}");
    }
}

/// Where the list stops the seats are those of the state before.
#[test]
fn a_list_that_stops() {
    let folder = Folder::new("stopped seats");
    let [file, seats] = three(&folder);
    let list = b"2 0 3 0 9 0 1 0";
    let answer = pilzdamo_fed(&["seats", &file, "-", &seats], list);
    let due = "role 1: 1 seat, taken by 1 session, in line: session 3\n";
    assert_eq!(answer.status, 1);
    assert!(answer.text().starts_with(due), "{}", answer.text());
    let run = pilzdamo_fed(&["run", &file, "-", "--seats", &seats], list);
    assert_eq!((run.status, &run.err), (1, &answer.err));
    assert!(run
        .text()
        .starts_with("choices done: 2, the next refused with 18\n"));
    assert!(run.text().ends_with(answer.text()));
    let due = "choice 3: thread 9, partner 0\n";
    assert!(answer.err.contains(due), "{}", answer.err);
}

#[test]
fn a_table_that_is_no_table() {
    let folder = Folder::new("no table");
    let [file, _] = three(&folder);
    let list = folder.file("none", "");
    let answer = pilzdamo_fed(&["seats", &file, &list, "-"], b"1\nmany");
    assert_eq!((answer.status, answer.text()), (2, ""));
    let due = "\
standard input:2:1: 'many' isn't a number from 0 to 65535
     2 | many
       | ^^^^
pilzdamo: standard input: 1 error
  seats are text, a number for each role: 0 for no limit, else 1 to 32 (by name with --names NAMES)
";
    assert_eq!(answer.err, due);
    for (table, numbers) in [("", "0 numbers"), ("1", "1 number"), ("1 33", "2 numbers")] {
        let answer = pilzdamo_fed(&["seats", &file, &list, "-"], table.as_bytes());
        assert_eq!((answer.status, answer.text()), (1, ""));
        let due = format!("\n  the table has {numbers}, the file 2 roles: one for each, ");
        assert!(answer.err.contains(&due), "{}", answer.err);
        assert!(answer
            .err
            .starts_with("pilzdamo: standard input: Refused 17: "));
    }
    // The list is refused before the table is looked at.
    let odd = folder.file("odd", "1");
    let answer = pilzdamo_fed(&["seats", &file, &odd, "-"], b"1 0");
    let due = format!("pilzdamo: {odd}: Refused 17: ");
    assert!(answer.err.starts_with(&due), "{}", answer.err);
}

#[test]
fn a_refusal_of_the_file_prints_nothing() {
    let seats = example("seats/one-holder.seats");
    for name in ["01-odd", "06-record", "08-tree", "10-kinds", "21-junior"] {
        let file = example(&format!("refused/{name}.clinic"));
        let answer = pilzdamo_fed(&["seats", &file, "-", &seats], b"");
        assert_eq!((answer.status, answer.text()), (1, ""), "{name}");
        let due = format!("pilzdamo: {file}: Refused ");
        assert!(answer.err.starts_with(&due), "{}", answer.err);
    }
}

/// The bed that each scheduler of an example was told, in the variable of this number.
fn beds(file: &[u8], list: &str, seats: Option<&str>, variable: u16) -> [String; 2] {
    let list = example(list);
    let mut words = vec!["run", "-", &list];
    words.extend(seats.iter().flat_map(|seats| ["--seats", seats]));
    let answer = pilzdamo_fed(&words, file);
    assert_eq!((answer.status, answer.err.as_str()), (0, ""), "{list}");
    let mut lines = answer.text().lines().map(str::to_string);
    ["  thread 1: ", "  thread 2: "].map(|start| {
        let line = lines
            .find(|line| line.starts_with(start))
            .expect("a thread");
        let (_, bed) = line
            .split_once(&format!("variable {variable} = "))
            .unwrap_or(("", "nothing"));
        bed.split(',').next().unwrap_or("").to_string()
    })
}

#[test]
fn the_examples_promise_one_bed_or_two() {
    let one = example("seats/one-holder.seats");
    let (asked, spring) = (placed("seats/asked.clinic"), placed("spring/bare.clinic"));
    let told = beds(&asked, "seats/both-read.choices", None, 2);
    assert_eq!(told, ["user 4", "user 4"]);
    let told = beds(&asked, "seats/one-by-one.choices", Some(&one), 2);
    assert_eq!(told, ["user 4", "user 5"]);
    let told = beds(&spring, "spring/one-seat-twice.choices", Some(&one), 1);
    assert_eq!(told, ["user 4", "user 4"]);
}

/// With one seat nobody goes on but to ask again, round after round.
#[test]
fn the_example_of_a_blocked_line() {
    let folder = Folder::new("blocked");
    let file = folder.file("a.clinic", placed("spring/bare.clinic"));
    let seats = example("seats/one-holder.seats");
    let mut list = example_bytes("spring/one-seat-blocked.choices");
    for waited in 2..5 {
        let answer = pilzdamo_fed(&["round", &file, "-", "--seats", &seats], &list);
        assert_eq!((answer.status, answer.err.as_str()), (0, ""));
        assert!(
            answer.text().starts_with("round: 2 0\n"),
            "{}",
            answer.text()
        );
        let due = format!("\nchoices that got no seat: {waited}\n");
        assert!(answer.text().contains(&due), "{}", answer.text());
        list.extend(b"\n2 0\n");
    }
}
