//! `run -i FILE [CHOICES]`, with what is typed on standard input.

use crate::common::{example, pilzdamo_fed, placed, sentence, Answer, Folder};
use crate::format;
use std::fs;

fn driven(words: &[&str], typed: &str) -> Answer {
    let words = [&["run", "-i"][..], words].concat();
    let answer = pilzdamo_fed(&words, typed.as_bytes());
    assert_eq!(answer.status, 0, "{}", answer.err);
    answer
}

const START: &str = "\
choices done: 0; threads: ask at line 13, serve at line 24; made channels: 0
  1  ask    makes a channel of kind answer: reply = made channel 1
  2  serve  repeats; serve.2 begins at line 25
";

#[test]
fn choices_by_number_and_by_name() {
    let folder = Folder::new("driven");
    let file = folder.file("placed.txt", format::placed());
    let answer = driven(&[&file], "");
    assert_eq!((answer.text(), &answer.err[..]), ("", START));
    let typed = "1\n1 0\n\nask serve # and more\nserve.2\n1\nserve.2 -> ask.2\nquit\nnothing\n";
    let answer = driven(&[&file], typed);
    let list = "ask\nask\nask\nserve\nserve.2\nask -> serve.2\nserve.2 -> ask.2\n";
    assert_eq!(answer.text(), list);
    let due = "\
ask: makes a channel of kind answer: reply = made channel 1
choices done: 1; threads: ask at line 14, serve at line 24; made channels: 1
  1  ask    puts caller on; holds caller
  2  serve  repeats; serve.2 begins at line 25
";
    let behind = answer.err.strip_prefix(START).expect("the start");
    assert!(behind.starts_with(due), "{behind}");
    let due = "\
ask -> serve.2: sends reply (made channel 1) on inbox; serve.2 has back = made channel 1
choices done: 6; threads: ask at line 18, serve at line 24, ask.2 at line 20, serve.2 at line 27; \
         made channels: 1
  1  ask               puts caller off; holds no role
  2  serve             repeats; serve.3 begins at line 25
  3  serve.2 -> ask.2  sends bed on back (made channel 1); ask.2 has found = bed
";
    assert!(
        answer.err.contains(&due.replace("         made", "made")),
        "{}",
        answer.err
    );
    // What was kept is a list that `run` takes.
    let run = pilzdamo_fed(&["run", &file, "-"], answer.text().as_bytes());
    assert!(run.text().starts_with("choices done: 7\n"));
}

#[test]
fn bytes_behind_a_list() {
    let folder = Folder::new("driven bytes");
    let file = folder.file("transfer.clinic", placed("transfer.clinic"));
    let list = folder.file("begun.choices", "1 0 1 0 1 0 # ward 1\n3 0 5 0");
    let answer = driven(&[&file, &list], "1\nlist\n");
    assert_eq!(answer.text(), "1 0\n1 0\n1 0\n3 0\n5 0\n1 5\n");
    assert!(answer.err.ends_with(answer.text()), "{}", answer.err);
    let due =
        "choices done: 5; threads: thread 1 at node 4, thread 2 at node 11, thread 3 at node \
               21, thread 4 at node 7, thread 5 at node 23; made channels: 1\n  1  1 5  sends ";
    assert!(answer.err.starts_with(due), "{}", answer.err);
}

#[test]
fn taken_back() {
    let folder = Folder::new("driven back");
    let file = folder.file("placed.txt", format::placed());
    let list = folder.file("begun.choices", "ask ask ask serve serve.2");
    let answer = driven(&[&file, &list], "ask -> serve.2\nundo\nu\nserve\n");
    assert_eq!(answer.text(), "ask\nask\nask\nserve\nserve\n");
    let due = "taken back: ask -> serve.2\nchoices done: 5; ";
    assert!(answer.err.contains(due), "{}", answer.err);
    // The thread that is new then has the next name.
    let due = "taken back: serve.2\nchoices done: 4; threads: ask at line 17, serve at line 24, \
               ask.2 at line 20, serve.2 at line 25; made channels: 1\n";
    assert!(answer.err.contains(due), "{}", answer.err);
    assert!(answer
        .err
        .contains("\nserve: repeats; serve.3 begins at line 25\n"));
    let answer = driven(&[&file], "undo\nundo\nlist\n");
    assert_eq!(answer.text(), "");
    let due = "there is no choice to take back\n".repeat(2) + "no choice is done yet\n";
    assert_eq!(answer.err, format!("{START}{due}"));
}

#[test]
fn why_not() {
    let folder = Folder::new("why not");
    let file = folder.file("placed.txt", format::placed());
    let said = |list: &str, typed: &str| {
        let list = folder.file("begun.choices", list);
        let answer = driven(&[&file, &list], &format!("why not {typed}\n"));
        let start = driven(&[&file, &list], "").err;
        let said = answer.err.strip_prefix(&start).expect("the start");
        said.to_string()
    };
    let refused = |number: u16, choice: usize, why: &str| {
        let sentence = sentence(number, &format!("choice {choice}"));
        let more = format!("the caller can mend it; more: pilzdamo explain {number}");
        format!("refused {number}: {why}\n  {sentence}\n  {more}\n")
    };
    let stand = "ask stands at line 13 (new reply: answer), and serve stands at line 24 \
                 (repeat); a step that is no send takes no partner: ask";
    for typed in ["ask serve", "ask -> serve", "1 2", "1 -> serve"] {
        assert_eq!(said("", typed), refused(18, 1, stand), "{typed}");
    }
    let stand = "ask stands at line 17 (send reply on inbox); a send takes a partner that stands \
                 at a receive: ask -> T";
    for typed in ["ask", "ask 0", "1 0", "1"] {
        assert_eq!(said("ask ask ask", typed), refused(18, 4, stand), "{typed}");
    }
    let differ =
        "ask stands at line 17 (send reply on inbox), sends on inbox, and ask.2 stands at \
                  line 20 (receive found on reply), receives on reply (made channel 1)";
    let found = said("ask ask ask", "ask ask.2");
    assert_eq!(found, refused(19, 4, differ));
    assert_eq!(
        said("ask", "ask"),
        "it can be done: puts caller on; holds caller\n"
    );
    let missing = "there is no thread ask.2 here (threads: ask, serve)\n";
    assert_eq!(said("", "ask.2 serve"), missing);
    let missing = "there is no thread 9: the list has 2 threads";
    assert_eq!(said("", "9"), refused(18, 1, missing));
    for (typed, due) in [
        ("", "expected a thread: "),
        ("serv", "there is no session 'serv' (sessions: ask, serve)"),
        (
            "ask serve ask",
            "expected no more than two threads, not 'ask'",
        ),
    ] {
        let found = said("", typed);
        assert!(found.starts_with(due), "{found}");
    }
}

/// Roles that are wrong and values that differ are said.
#[test]
fn why_not_for_roles_and_values() {
    let folder = Folder::new("why not roles");
    let bare = pilzdamo_fed(&["strip", "-"], format::placed().as_bytes());
    let bare = folder.file("bare.txt", bare.out);
    let answer = driven(&[&bare], "ask ask serve ask -> serve.2\n");
    let due =
        "refused 13: ask stands at line 16 (send reply on inbox), holds no role, and serve.2 \
               stands at line 22 (receive back on inbox), holds no role; ask holds no role that \
               may send on request (roles that may: caller), and serve.2 holds no role that may \
               receive on request (roles that may: keeper)\n";
    assert!(answer.err.contains(due), "{}", answer.err);
    assert_eq!(answer.text(), "ask\nask\nserve\n");
    let answer = driven(&[&example("refused/choices.clinic")], "why not 1 0\n");
    let due =
        "refused 19: thread 1 stands at node 1 (compare user 1 with user 2), compares user 1 \
               with user 2\n";
    assert!(answer.err.contains(due), "{}", answer.err);
}

/// What can't be understood is told, and doesn't end it.
#[test]
fn wrong_words() {
    let folder = Folder::new("wrong words");
    let file = folder.file("placed.txt", format::placed());
    let typed = b"3\n0\nwhat\nask ->\nask.\nsave\n\xff\x00\nask.2\nserve -> ask\n99999999999999999999\nask\n";
    let answer = pilzdamo_fed(&["run", "-i", &file], typed);
    assert_eq!(
        (answer.status, answer.text()),
        (0, "ask\n"),
        "{}",
        answer.err
    );
    for due in [
        "there is no choice 3 (choices listed: 2)\n",
        "there is no choice 0 (choices listed: 2)\n",
        "there is no choice 99999999999999999999 (choices listed: 2)\n",
        "there is no session 'what' (sessions: ask, serve)",
        "expected a thread to meet, but the list ends",
        "save needs the name of a file\n",
        "there is no thread ask.2 here (threads: ask, serve)\n",
        "refused 18: serve stands at line 24 (repeat), and ask stands at line 13 (new reply: answer); a step that is no send takes no partner: serve\n",
    ] {
        assert!(answer.err.contains(due), "{due}: {}", answer.err);
    }
    let answer = driven(&[&file], "help\n");
    for due in ["undo, u", "why not T P", "save PATH", "quit, q"] {
        assert!(answer.err.contains(&format!("\n{due} ")), "{due}");
    }
}

#[test]
fn saved_and_shown() {
    let folder = Folder::new("saved");
    let file = folder.file("placed.txt", format::placed());
    let path = folder.at("kept list.choices");
    let answer = driven(&[&file], &format!("ask\nask\nsave {path}\nask\nstate\n"));
    assert_eq!(fs::read_to_string(&path).expect("a list"), "ask\nask\n");
    assert!(answer.err.contains(&format!("2 choices in {path}\n")));
    let state = pilzdamo_fed(&["run", &file, "-"], b"ask ask ask");
    assert!(answer.err.ends_with(state.text()), "{}", answer.err);
    let answer = driven(&[&file], &format!("ask\nsave {file}\nsave {path}/none\n"));
    assert!(
        answer.err.contains(" is an input, and isn't overwritten"),
        "{}",
        answer.err
    );
    assert!(answer.err.contains("can't be written"), "{}", answer.err);
    assert_eq!(
        fs::read_to_string(&file).expect("the file"),
        format::placed()
    );
    assert_eq!(answer.text(), "ask\n");
    // Nor is the list written over, or a table of seats.
    let list = folder.file("begun.choices", "ask # so far");
    let table = folder.file("one.seats", "caller 1");
    let typed = format!("ask\nsave {list}\nsave {table}\n");
    let answer = driven(&[&file, &list, "--seats", &table], &typed);
    let refused = answer.err.matches(" is an input, and isn't overwritten");
    assert_eq!(refused.count(), 2, "{}", answer.err);
    let kept = [&list, &table].map(|path| fs::read_to_string(path).expect("it"));
    assert_eq!(kept, ["ask # so far", "caller 1"]);
}

/// A line without an end is not waited for.
#[test]
fn an_endless_line() {
    let folder = Folder::new("endless line");
    let file = folder.file("placed.txt", format::placed());
    let answer = pilzdamo_fed(&["run", "-i", &file], &vec![b' '; 16_000_001]);
    assert_eq!((answer.status, answer.text()), (2, ""));
    let due = "pilzdamo: standard input: it has more than 16000000 bytes, ";
    assert!(answer.err.contains(due), "{}", answer.err);
}

#[test]
fn with_seats() {
    let folder = Folder::new("driven with seats");
    let text = folder.file("asked.txt", placed("seats/asked.txt"));
    let typed = "book1 book2 book1\nwhy not book2\nbook2\nundo\nbook2 book2\nstate\n";
    let answer = driven(&[&text], typed);
    assert_eq!(answer.text(), "book1\nbook2\nbook1\nbook2\nbook2\n");
    for due in [
        "; made channels: 2\nrole holder: 1 seat, taken by 1 session\n  1  book2   waits for a seat as holder\n",
        "\nit can be done: waits for a seat as holder\n",
        "\nbook2: waits for a seat as holder\nchoices done: 4; ",
        "; made channels: 2\nrole holder: 1 seat, taken by 1 session, in line: session book2\n  1  book2   waits",
        "\ntaken back: book2\nchoices done: 3; ",
        "\nrole holder: 1 seat, taken by 1 session, in line: session book2\n",
        "\nchoices that got no seat: 2\n",
    ] {
        assert!(answer.err.contains(due), "{due}: {}", answer.err);
    }
}

/// A choice that waited and is taken back is forgotten: another that stands in its place
/// is done, also when the list is gone through again.
#[test]
fn a_wait_that_is_taken_back() {
    let folder = Folder::new("driven back from a wait");
    let text = folder.file("asked.txt", placed("seats/asked.txt"));
    let typed = "book1 book2 book1\nbook2\nundo\nbegin\nbook2\nundo\n";
    let answer = driven(&[&text], typed);
    assert_eq!(answer.text(), "book1\nbook2\nbook1\nbegin\n");
    let (_, last) = answer.err.rsplit_once("taken back: ").expect("a last");
    let due =
        "book2\nchoices done: 4; threads: book1 at line 24, book2 at line 32, begin at line 41, ";
    assert!(last.starts_with(due), "{last}");
}

/// A file that can't be run is refused; a list that halts is told, and gone on from.
#[test]
fn what_it_starts_with() {
    let folder = Folder::new("driven from");
    let answer = pilzdamo_fed(&["run", "-i", &example("refused/08-tree.clinic")], b"1\n");
    assert_eq!((answer.status, answer.text()), (1, ""));
    let file = folder.file("placed.txt", format::placed());
    let list = folder.file("begun.choices", "ask ask -> serve");
    let answer = driven(&[&file, &list], "undo\n");
    assert_eq!(answer.text(), "");
    let due = format!("{list}:1:5: refused 18: ask stands at line 14 (on caller), and serve ");
    assert!(answer.err.starts_with(&due), "{}", answer.err);
    assert!(answer.err.ends_with(START), "{}", answer.err);
    let nothing = driven(&[&example("nothing.clinic")], "1\n");
    let due = "choices done: 0; threads: none; made channels: 0\nno choice can be done\n\
               there is no choice 1 (choices listed: 0)\n";
    assert_eq!((nothing.text(), &nothing.err[..]), ("", due));
}

/// What is typed comes from standard input, so that neither file can.
#[test]
fn standard_input_is_what_is_typed() {
    let file = example("booking.txt");
    for words in [&["-"][..], &[&file, "-"], &[&file, "--seats", "-"]] {
        let words = [&["run", "-i"][..], words].concat();
        let answer = pilzdamo_fed(&words, b"quit\n");
        assert_eq!((answer.status, answer.text()), (2, ""), "{words:?}");
        assert!(answer.err.contains("standard input"), "{}", answer.err);
    }
}
