//! `check` of several files.

use crate::common::{example, example_bytes, pilzdamo, pilzdamo_fed};

#[test]
fn all_pass() {
    let (cut, nothing) = (example("spring/cut.clinic"), example("nothing.clinic"));
    let answer = pilzdamo(&["check", &cut, &nothing, &cut]);
    assert_eq!((answer.status, answer.err.as_str()), (0, ""));
    let one = pilzdamo(&["check", &nothing]);
    let due = format!("{cut}: passes\n{}{cut}: passes\n", one.text());
    assert_eq!(answer.text(), due);
}

#[test]
fn each_is_answered_as_by_itself() {
    let (cut, absent) = (example("spring/cut.clinic"), example("no such file"));
    let kinds = example("refused/10-kinds.clinic");
    let bare = example("booking.txt");
    for (files, status) in [
        (vec![&cut, &kinds], 1),
        (vec![&kinds, &cut, &bare], 1),
        (vec![&absent, &cut], 2),
        (vec![&kinds, &absent, &cut, &bare], 2),
        (vec![&absent, &kinds, &cut], 2),
    ] {
        let alone = files.iter().map(|file| pilzdamo(&["check", file]));
        let (out, err) = alone.fold((Vec::new(), String::new()), |(out, err), answer| {
            ([out, answer.out].concat(), err + &answer.err)
        });
        let words: Vec<&str> = ["check"]
            .into_iter()
            .chain(files.iter().map(|file| file.as_str()))
            .collect();
        let answer = pilzdamo(&words);
        assert_eq!(answer.status, status, "{words:?}");
        assert_eq!((answer.out, answer.err), (out, err), "{words:?}");
    }
}

#[test]
fn one_of_them_may_be_standard_input() {
    let cut = example("spring/cut.clinic");
    let answer = pilzdamo_fed(&["check", &cut, "-"], &example_bytes("spring/cut.clinic"));
    let due = format!("{cut}: passes\nstandard input: passes\n");
    assert_eq!((answer.status, answer.text()), (0, due.as_str()));
}

#[test]
fn hours_hold_for_all() {
    let hours = example("hours/week.hours");
    let files = [example("hours/by-day.clinic"), example("spring/cut.clinic")];
    let asked = |files: &[String]| {
        let words = ["check", "--at=Sun 03:00", "--hours", &hours];
        let words = words.into_iter().chain(files.iter().map(String::as_str));
        pilzdamo(&words.collect::<Vec<_>>())
    };
    let alone = [asked(&files[..1]), asked(&files[1..])];
    let both = asked(&files);
    assert_eq!(both.status, alone[0].status.max(alone[1].status));
    assert_eq!(both.err, alone[0].err.clone() + &alone[1].err);
    assert_eq!(both.out, [&alone[0].out[..], &alone[1].out].concat());
}
