//! `waiting FILE CHOICES`.

use crate::common::{example, pilzdamo, pilzdamo_fed, placed, sentence, Folder};
use crate::draft::{channel, fork, new, receive, variable, Draft, END, REPEAT};

/// What is printed for the file of this path after a list in text.
fn after(file: &str, list: &str) -> String {
    let answer = pilzdamo_fed(&["waiting", file, "-"], list.as_bytes());
    assert_eq!((answer.status, answer.err.as_str()), (0, ""), "{list}");
    answer.text().to_string()
}

/// The desk that takes two bookings, by the rounds of the example.
#[test]
fn a_desk_that_takes_bookings() {
    let folder = Folder::new("bookings");
    let file = folder.file("a.clinic", placed("desks.clinic"));
    for (list, due) in [
        ("", "kind 1: 0 waiting\nkind 2: 0 waiting\n"),
        ("3 0", "kind 1: 1 waiting\nkind 2: 0 waiting\n"),
        ("1 0 2 0 3 0  1 3", "kind 1: 0 waiting\nkind 2: 1 waiting\n"),
        (
            "1 0 2 0 3 0  1 3 1 3",
            "kind 1: 1 waiting\nkind 2: 0 waiting\n",
        ),
    ] {
        assert_eq!(after(&file, list), due, "{list}");
    }
}

/// Sessions that wait, of kinds that are their own, on named and on made channels.
#[test]
fn a_line_for_each_kind() {
    let (named, made) = (receive(channel(1)), receive(variable(1)));
    let file = Draft::default()
        .user(&[])
        .kind(0)
        .kind(0)
        .kind(0)
        .channel(1, 3)
        .session(1, &[named, END])
        .session(1, &[REPEAT, named, END])
        .session(1, &[new(2), fork(10), made, END, made, END])
        .bytes();
    let folder = Folder::new("kinds");
    let file = folder.file("a.clinic", file);
    let due = |totals: [u16; 3]| {
        let [one, two, three] = totals;
        format!("kind 1: {one} waiting\nkind 2: {two} waiting\nkind 3: {three} waiting\n")
    };
    assert_eq!(after(&file, ""), due([0, 0, 1]));
    assert_eq!(after(&file, "2 0 2 0"), due([0, 0, 3]));
    assert_eq!(after(&file, "3 0 3 0"), due([0, 2, 1]));
}

#[test]
fn a_file_without_kinds() {
    let folder = Folder::new("no kinds");
    let file = Draft::default().user(&[]).session(1, &[END]).bytes();
    let file = folder.file("a.clinic", file);
    assert_eq!(after(&file, ""), "");
    assert_eq!(after(&file, "1 0"), "");
}

/// Where the list stops the totals are printed too, and the refusal is the run's.
#[test]
fn a_list_that_stops() {
    let file = example("spring/cut.clinic");
    let list = b"3 0 4 0 5 0 6 0 1 0 2 0 9 0 1 0";
    let answer = pilzdamo_fed(&["waiting", &file, "-"], list);
    let due = "kind 1: 4 waiting\nkind 2: 1 waiting\n";
    assert_eq!((answer.status, answer.text()), (1, due));
    let run = pilzdamo_fed(&["run", &file, "-"], list);
    assert_eq!(answer.err, run.err);
    let sentence = sentence(18, "choice 7");
    let due = format!("standard input: {sentence}\n  choice 7: thread 9, partner 0\n");
    assert!(answer.err.contains(&due), "{}", answer.err);
    let file = example("refused/choices.clinic");
    for name in ["18-thread", "19-unequal", "20-thread"] {
        let list = example(&format!("refused/{name}.choices"));
        let answer = pilzdamo(&["waiting", &file, &list]);
        let run = pilzdamo(&["run", &file, &list]);
        assert_eq!((answer.status, answer.err), (1, run.err), "{name}");
    }
}

#[test]
fn a_refusal_before_the_choices_prints_nothing() {
    let list = example("desks.choices");
    for name in ["01-odd", "06-record", "08-tree", "10-kinds", "21-junior"] {
        let file = example(&format!("refused/{name}.clinic"));
        let answer = pilzdamo(&["waiting", &file, &list]);
        assert_eq!((answer.status, answer.text()), (1, ""), "{name}");
        let due = format!("pilzdamo: {file}: Refused ");
        assert!(answer.err.starts_with(&due), "{}", answer.err);
    }
}

#[test]
fn a_list_that_is_no_list() {
    let file = example("booking.clinic");
    let answer = pilzdamo_fed(&["waiting", &file, "-"], b"1 0\n2 zero\n");
    assert_eq!((answer.status, answer.text()), (2, ""));
    let due = "standard input:2:3: there is no session 'zero' (sessions: s1)\n";
    assert!(answer.err.starts_with(due), "{}", answer.err);
    let answer = pilzdamo_fed(&["waiting", &file, "-"], b"1");
    assert_eq!((answer.status, answer.text()), (1, ""));
    assert!(answer.err.contains("standard input: Refused 17: "));
}
