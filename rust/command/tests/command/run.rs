//! `run FILE CHOICES`.

use crate::common::{example, example_bytes, pilzdamo, pilzdamo_fed, sentence, Folder};

const TRANSFERRED: &str = "\
choices done: 17
threads: 6
  thread 1: user 1, node 5 (off role 1), role 1; variable 1 = made channel 1
  thread 2: user 2, node 15 (off role 1), role 1; variable 1 = made channel 2
  thread 3: user 3, node 21 (repeat), no role
  thread 4: user 1, node 10 (end), no role; variable 1 = made channel 1, variable 2 = user 4
  thread 5: user 2, node 17 (receive variable 2 on variable 1), role 1; variable 1 = made channel 2
  thread 6: user 3, node 24 (send user 4 on variable 1), role 2; variable 1 = made channel 2
made channels: 2
  made channel 1: owner user 1, kind 2
  made channel 2: owner user 2, kind 2
";

#[test]
fn a_run_to_the_end_of_the_list() {
    let placed = pilzdamo(&["place", &example("transfer.clinic")]).out;
    let answer = pilzdamo_fed(&["run", "-", &example("transfer.choices")], &placed);
    assert_eq!((answer.status, answer.err.as_str()), (0, ""));
    assert_eq!(answer.text(), TRANSFERRED);
}

#[test]
fn choices_on_standard_input() {
    let file = example("spring/cut.clinic");
    let list = example("spring/cut-both-write.choices");
    let named = pilzdamo(&["run", &file, &list]);
    let fed = pilzdamo_fed(
        &["run", &file, "-"],
        &example_bytes("spring/cut-both-write.choices"),
    );
    assert_eq!((named.status, fed.status), (0, 0));
    assert_eq!(named.text(), fed.text());
}

#[test]
fn no_choices_give_the_start() {
    let answer = pilzdamo_fed(&["run", &example("booking.clinic"), "-"], b"# nothing\n");
    assert_eq!(answer.status, 0);
    let start = "choices done: 0\nthreads: 1\n  \
                 thread 1: user 1, node 1 (send user 2 on channel 1), no role\nmade channels: 0\n";
    assert_eq!(answer.text(), start);
}

#[test]
fn a_halted_run_prints_its_state() {
    let file = example("refused/choices.clinic");
    let list = example("refused/19-unequal.choices");
    let answer = pilzdamo(&["run", &file, &list]);
    assert_eq!(answer.status, 1);
    let state = "choices done: 1, the next refused with 19\nthreads: 3\n  \
                 thread 1: user 1, node 1 (compare user 1 with user 2), no role\n  \
                 thread 2: user 1, node 3 (repeat), no role\n  \
                 thread 3: user 1, node 4 (end), no role\nmade channels: 0\n";
    assert_eq!(answer.text(), state);
    let due = format!(
        "pilzdamo: {file}, {list}: Refused 19: the values compared are not equal, or the two \
         channels differ at choice 2.\n  \
         choice 2: thread 1, partner 0\n  \
         thread 1 stands at node 1 (compare user 1 with user 2), compares user 1 with user 2\n  \
         the caller can mend it; more: pilzdamo explain 19\n"
    );
    assert_eq!(answer.err, due);
}

/// 11 to 13 have the choice as their place in a run.
#[test]
fn a_run_halted_for_a_role() {
    let cases = [("11-on", 11, 1), ("12-off", 12, 1)];
    for (name, number, choice) in cases {
        let file = example(&format!("refused/{name}.clinic"));
        let answer = pilzdamo_fed(&["run", &file, "-"], b"1 0");
        assert_eq!(answer.status, 1);
        let sentence = sentence(number, &format!("choice {choice}"));
        let due = format!("{sentence}\n  choice {choice}: thread 1, partner 0\n");
        assert!(answer.err.contains(&due), "{}", answer.err);
        assert!(answer
            .text()
            .starts_with("choices done: 0, the next refused"));
    }
    let list = b"3 0 4 0 1 4";
    let answer = pilzdamo_fed(&["run", &example("transfer.clinic"), "-"], list);
    assert_eq!(answer.status, 1);
    let due = sentence(18, "choice 2") + "\n  choice 2: thread 4, partner 0\n";
    assert!(answer.err.contains(&due), "{}", answer.err);
}

#[test]
fn a_bare_routine_halts_at_its_first_send() {
    let list = b"1 0  1 0  3 0  1 5";
    let answer = pilzdamo_fed(&["run", &example("transfer.clinic"), "-"], list);
    assert_eq!(answer.status, 1);
    let due = sentence(13, "choice 4") + "\n  choice 4: thread 1, partner 5\n";
    assert!(answer.err.contains(&due), "{}", answer.err);
    assert!(answer
        .text()
        .starts_with("choices done: 3, the next refused with 13\n"));
}

#[test]
fn a_refusal_before_the_choices_prints_no_state() {
    let list = example("transfer.choices");
    for name in ["01-odd", "06-record", "07-session", "08-tree", "10-kinds"] {
        let file = example(&format!("refused/{name}.clinic"));
        let answer = pilzdamo(&["run", &file, &list]);
        assert_eq!((answer.status, answer.text()), (1, ""), "{name}");
        assert!(answer
            .err
            .starts_with(&format!("pilzdamo: {file}: Refused ")));
    }
}

#[test]
fn a_list_that_is_refused_as_a_whole() {
    let file = example("refused/choices.clinic");
    let long = "1 0\n".repeat(65_536);
    for list in ["1 0 1", long.as_str()] {
        let answer = pilzdamo_fed(&["run", &file, "-"], list.as_bytes());
        assert_eq!((answer.status, answer.text()), (1, ""));
        let due = format!("pilzdamo: standard input: {}\n", sentence(17, ""));
        assert!(answer.err.starts_with(&due), "{}", answer.err);
    }
}

#[test]
fn a_list_that_is_no_list() {
    let folder = Folder::new("list");
    let list = folder.file("my list", "1 0\n# two\n2 zero\n");
    let answer = pilzdamo(&["run", &example("booking.clinic"), &list]);
    assert_eq!((answer.status, answer.text()), (2, ""));
    let due = format!(
        "\
{list}:3:3: there is no session 'zero' (sessions: s1)
     3 | 2 zero
       |   ^^^^
pilzdamo: {list}: 1 error
"
    );
    assert_eq!(answer.err, due);
    for wrong in ["65536 0", "-1 0", "1 0x2", "1, 0", "\u{0}\u{1}"] {
        let answer = pilzdamo_fed(&["run", &example("booking.clinic"), "-"], wrong.as_bytes());
        assert_eq!((answer.status, answer.text()), (2, ""), "{wrong}");
        assert!(answer.err.starts_with("standard input:1:"), "{wrong}");
    }
}
