//! `round FILE CHOICES`.

use crate::common::{example, example_bytes, pilzdamo, pilzdamo_fed, placed, sentence, Folder};
use crate::draft::{compare, Draft, END, REPEAT};

/// The round after the list of the example, and what the run then stands at.
const FIFTH: &str = "\
round: 1 0  1 2  2 0
choices done: 10
threads: 2
  thread 1: user 1, node 9 (off role 2), role 2
  thread 2: user 2, node 17 (end), no role; variable 1 = user 2, variable 2 = user 2, \
variable 3 = user 2, variable 4 = user 2
made channels: 0
";

#[test]
fn a_round_behind_a_list() {
    let list = example("desks.choices");
    let answer = pilzdamo_fed(&["round", "-", &list], &placed("desks.clinic"));
    assert_eq!((answer.status, answer.err.as_str()), (0, ""));
    assert_eq!(answer.text(), FIFTH);
}

/// The state is that of a run through the list and then the round's choices.
#[test]
fn the_state_is_the_runs() {
    let file = example("spring/cut.clinic");
    for list in [
        "spring/cut-both-read.choices",
        "spring/cut-both-write.choices",
        "spring/cut-one-by-one.choices",
    ] {
        let round = pilzdamo(&["round", &file, &example(list)]);
        assert_eq!((round.status, round.err.as_str()), (0, ""), "{list}");
        let (first, state) = round.text().split_once('\n').expect("lines");
        let choices = first.strip_prefix("round: ").expect("its choices");
        let both = [&example_bytes(list)[..], b"\n", choices.as_bytes()].concat();
        let run = pilzdamo_fed(&["run", &file, "-"], &both);
        assert_eq!((run.status, run.text()), (0, state), "{list}");
    }
}

#[test]
fn choices_on_standard_input() {
    let file = example("booking.clinic");
    let answer = pilzdamo_fed(&["round", &file, "-"], b"# nothing\n");
    let unplaced = format!("{file}: the routine has no on or off yet: pilzdamo place adds them\n");
    assert_eq!((answer.status, &answer.err), (0, &unplaced));
    // So does ready, and neither says it of a placed file.
    let ready = pilzdamo(&["ready", &file, "/dev/null"]);
    assert_eq!(
        (ready.status, ready.text()),
        (0, "no two threads can meet\n")
    );
    assert_eq!(ready.err, unplaced);
    for verb in ["round", "ready"] {
        let words = [verb, "-", "/dev/null"];
        let answer = pilzdamo_fed(&words, &placed("booking.clinic"));
        assert_eq!((answer.status, &*answer.err), (0, ""), "{verb}");
    }
    let due = "round: no choice can be done\nchoices done: 0\nthreads: 1\n  \
               thread 1: user 1, node 1 (send user 2 on channel 1), no role\nmade channels: 0\n";
    assert_eq!(answer.text(), due);
}

#[test]
fn no_thread_is_left() {
    let folder = Folder::new("ended");
    let file = Draft::default().user(&[]).session(1, &[END]).bytes();
    let file = folder.file("a.clinic", file);
    for (list, choices) in [("", "1 0"), ("1 0", "no choice can be done")] {
        let answer = pilzdamo_fed(&["round", &file, "-"], list.as_bytes());
        assert_eq!((answer.status, answer.err.as_str()), (0, ""));
        let due = format!("round: {choices}\nchoices done: 1\nthreads: 0\nmade channels: 0\n");
        assert_eq!(answer.text(), due);
    }
}

/// A list that stops is answered as by run, word for word.
#[test]
fn a_list_that_stops() {
    let file = example("refused/choices.clinic");
    for name in ["18-thread", "19-unequal", "20-thread"] {
        let list = example(&format!("refused/{name}.choices"));
        let round = pilzdamo(&["round", &file, &list]);
        let run = pilzdamo(&["run", &file, &list]);
        assert_eq!((round.status, round.text()), (1, run.text()), "{name}");
        assert_eq!(round.err, run.err, "{name}");
        assert!(round.text().starts_with("choices done: "), "{name}");
    }
}

#[test]
fn a_refusal_before_the_choices_prints_nothing() {
    let list = example("desks.choices");
    for name in ["01-odd", "06-record", "08-tree", "10-kinds", "21-junior"] {
        let file = example(&format!("refused/{name}.clinic"));
        let answer = pilzdamo(&["round", &file, &list]);
        assert_eq!((answer.status, answer.text()), (1, ""), "{name}");
        let due = format!("pilzdamo: {file}: Refused ");
        assert!(answer.err.starts_with(&due), "{}", answer.err);
    }
}

/// 65,471 choices are enough; run takes 64 more.
#[test]
fn a_list_that_is_too_long_for_a_round() {
    let file = Draft::default()
        .user(&[])
        .session(1, &[REPEAT, END])
        .session(1, &[compare(1, 1), END])
        .bytes();
    let folder = Folder::new("long");
    let list = |count: usize| {
        let choices = ["1 0\n", "3 0\n"].into_iter().cycle().take(count);
        folder.file(&format!("{count}"), choices.collect::<String>())
    };
    let answer = pilzdamo_fed(&["round", "-", &list(65_471)], &file);
    assert_eq!((answer.status, answer.err.as_str()), (0, ""));
    let due = "round: 1 0  2 0  3 0\nchoices done: 65474\nthreads: 3\n";
    assert!(answer.text().starts_with(due), "{}", answer.text());
    let long = list(65_472);
    let answer = pilzdamo_fed(&["round", "-", &long], &file);
    assert_eq!((answer.status, answer.text()), (1, ""));
    let sentence = sentence(17, "");
    let due = format!(
        "pilzdamo: {long}: {sentence}\n  the list has 130944 numbers: two for each choice, \
         at most 65,535 choices (65,471 before a round)\n"
    );
    assert!(answer.err.starts_with(&due), "{}", answer.err);
    assert_eq!(pilzdamo_fed(&["run", "-", &long], &file).status, 0);
}

#[test]
fn a_list_that_is_no_list() {
    let file = example("booking.clinic");
    let answer = pilzdamo_fed(&["round", &file, "-"], b"1 0\n2 zero\n");
    assert_eq!((answer.status, answer.text()), (2, ""));
    let due = "standard input:2:3: there is no session 'zero' (sessions: s1)\n";
    assert!(answer.err.starts_with(due), "{}", answer.err);
    let answer = pilzdamo_fed(&["round", &file, "-"], b"1");
    assert_eq!((answer.status, answer.text()), (1, ""));
    assert!(answer.err.contains("standard input: Refused 17: "));
}
