//! `--names`: reports on bytes in names.

use crate::common::{example, pilzdamo, pilzdamo_fed, sentence, Answer, Folder};
use crate::files;
use crate::text::bare_ward;
use std::fs;

/// The ward packed, its names, and the packed ward as it is placed.
struct Ward {
    folder: Folder,
    file: String,
    names: String,
    placed: String,
}

impl Ward {
    fn new(name: &str) -> Ward {
        let folder = Folder::new(name);
        let text = folder.file("ward.txt", bare_ward());
        let [file, names, placed] =
            ["ward.clinic", "ward.names", "placed.clinic"].map(|name| folder.at(name));
        let pack = ["pack", &text, "-o", &file, "--names", &names];
        assert_eq!(pilzdamo(&pack).status, 0);
        let place = ["place", &file, "--names", &names, "-o", &placed];
        let answer = pilzdamo(&place);
        assert_eq!(answer.status, 0, "{}", answer.err);
        let due = format!("{file}: placed, 2 on steps, 158 bytes in {placed}\n");
        assert_eq!(answer.err, due);
        Ward {
            folder,
            file,
            names,
            placed,
        }
    }

    /// Asks about the placed file with its names.
    fn ask(&self, verb: &str, more: &[&str], input: &str) -> Answer {
        let words = [&[verb, &self.placed][..], more, &["--names", &self.names]];
        pilzdamo_fed(&words.concat(), input.as_bytes())
    }
}

/// Placing keeps the names: the placed bytes, unpacked with them, are the placed text.
#[test]
fn names_through_placing() {
    let ward = Ward::new("names through placing");
    let placed = pilzdamo_fed(&["place", "-"], bare_ward().as_bytes());
    let bytes = fs::read(&ward.placed).expect("the placed file");
    assert_eq!(pilzdamo_fed(&["pack", "-"], &placed.out).out, bytes);
    let text = pilzdamo(&["unpack", &ward.placed, "--names", &ward.names]);
    assert_eq!((text.status, &text.out), (0, &placed.out));
    // Every example, with the names of its text.
    for name in files::BARE {
        let text = example(&name.replace(".clinic", ".txt"));
        let placed = pilzdamo(&["place", &example(name), "--names", &text]);
        assert_eq!(placed.out, pilzdamo(&["place", &example(name)]).out);
        let back = pilzdamo_fed(&["unpack", "-", "--names", &text], &placed.out);
        let due = pilzdamo_fed(&["unpack", "-"], &pilzdamo(&["place", &text]).out);
        assert_eq!((back.status, back.text()), (0, due.text()), "{name}");
    }
}

#[test]
fn check_and_measure() {
    let ward = Ward::new("names in check");
    let answer = ward.ask("check", &[], "");
    let due = format!("{}: passes\n", ward.placed);
    assert_eq!((answer.status, answer.text()), (0, &*due));
    let Ward { file, names, .. } = &ward;
    let answer = pilzdamo(&["measure", file, "--names", names]);
    let due = format!("{file}: can be placed, 2 on steps, 158 bytes\n");
    assert_eq!((answer.status, answer.text()), (0, &*due));
}

/// A refusal has the engine's sentence first, then the step and who is to blame in names.
#[test]
fn refusals_in_names() {
    let ward = Ward::new("names in refusals");
    let Ward { file, names, .. } = &ward;
    let answer = pilzdamo(&["check", file, "--names", names]);
    let due = format!(
        "\
pilzdamo: {file}: {}
  node 3: send reply on inbox
  nurse has no role on that may send on request (roles on: none; roles that may: caller)
  the routine's author can mend it; more: pilzdamo explain 13
  the routine has no on or off yet: pilzdamo place adds them
",
        sentence(13, "node 3, a send")
    );
    assert_eq!((answer.status, answer.err), (1, due));
    let answer = ward.ask("place", &[], "");
    let due = "\n  node 2: on caller\n  placing adds every on and off itself, and this one is there already\n";
    assert_eq!(answer.status, 1);
    assert!(answer.err.contains(due), "{}", answer.err);
    let other = bare_ward().replace("session serve by desk", "session serve by desk as caller");
    let text = ward.folder.file("other.txt", &other);
    let other = pilzdamo_fed(&["pack", "-"], other.as_bytes()).out;
    let other = ward.folder.file("other.clinic", other);
    let answer = pilzdamo(&["check", &other, "--names", &text]);
    let due = "\n  session serve by desk as caller\n  caller isn't a role of desk (roles of desk: keeper)\n";
    assert_eq!(answer.status, 1);
    assert!(answer.err.contains(due), "{}", answer.err);
}

#[test]
fn shown_in_names() {
    let ward = Ward::new("names in show");
    let answer = ward.ask("show", &[], "");
    let due = "\
check: passes
length: 158 bytes
on steps: 2

  node  held
                clinic 1
                kind answer
                kind request carries answer
                role caller: send request; receive answer
                role keeper: send answer; receive request
                user nurse: caller
                user desk: keeper
                user bed
                channel inbox: request, owner desk

                session ask by nurse
     1  -         new reply: answer
     2  -         on caller
     3  caller    fork
                    branch
     4  caller        send reply on inbox
     5  caller        off caller
                    branch
     7  caller        receive found on reply
     8  caller        off caller

                session serve by desk
    10  -         repeat
    11  -           on keeper
    12  keeper      receive back on inbox
    13  keeper      send bed on back
    14  keeper      off keeper
";
    assert_eq!((answer.status, answer.text()), (0, due));
}

const LIST: &str = "ask ask ask  serve serve.2  ask -> serve.2";

#[test]
fn runs_in_names() {
    let ward = Ward::new("names in runs");
    let answer = ward.ask("run", &["-"], LIST);
    let due = "\
choices done: 6
threads: 4
  1 ask: nurse, node 5 (off caller), as caller; reply = made channel 1
  2 serve: desk, node 10 (repeat), no role
  3 ask.2: nurse, node 7 (receive found on reply), as caller; reply = made channel 1
  4 serve.2: desk, node 13 (send bed on back), as keeper; back = made channel 1
made channels: 1
  made channel 1: answer, owner nurse
";
    assert_eq!((answer.status, answer.text()), (0, due), "{}", answer.err);
    let answer = ward.ask("run", &["-"], "ask ask ask ask");
    let due = "standard input:1:13: refused 18: ask stands at node 4 (send reply on inbox); \
               a send takes a partner that stands at a receive: ask -> T\n";
    assert_eq!(answer.status, 1);
    assert!(answer.err.starts_with(due), "{}", answer.err);
    let answer = ward.ask("run", &["-"], "ask nobody");
    let due = "standard input:1:5: there is no session 'nobody' (sessions: ask, serve)\n";
    assert_eq!(answer.status, 2);
    assert!(answer.err.starts_with(due), "{}", answer.err);
    let answer = ward.ask("waiting", &["-"], LIST);
    let due = "kind answer: 1 waiting\nkind request: 0 waiting\n";
    assert_eq!((answer.status, answer.text()), (0, due));
    let seats = ward.folder.file("seats", "caller 1");
    let answer = ward.ask("seats", &["-", &seats], LIST);
    let due = "\
role caller: 1 seat, taken by 1 session
role keeper: no limit, taken by 1 session
choices that got no seat: 0
";
    assert_eq!((answer.status, answer.text()), (0, due), "{}", answer.err);
}

/// Rounds come in names, and `run` takes them.
#[test]
fn rounds_in_names() {
    let ward = Ward::new("names in rounds");
    let answer = ward.ask("round", &["-"], LIST);
    let first = answer.text().lines().next();
    assert_eq!(first, Some("round: ask  serve  serve.2 -> ask.2"));
    let answer = ward.ask("dispatch", &["3"], "");
    let due = "ask  serve\nask  serve  serve.2\nask  serve  serve.3\n";
    assert_eq!((answer.status, answer.text()), (0, due));
    let run = ward.ask("run", &["-"], answer.text());
    assert_eq!(run.status, 0, "{}", run.err);
    let done = "choices done: 8\n";
    assert!(run.text().starts_with(done), "{}", run.text());
}

/// A report on bytes with the names of a text is the report on the text, but for lines.
#[test]
fn as_of_the_text() {
    for name in files::BARE {
        let text = example(&name.replace(".clinic", ".txt"));
        let placed = pilzdamo(&["place", &text]).out;
        let folder = Folder::new("as of the text");
        let file = folder.file("placed.txt", placed);
        let bytes = folder.at("placed.clinic");
        assert_eq!(pilzdamo(&["pack", &file, "-o", &bytes]).status, 0);
        let of_text = pilzdamo(&["dispatch", &file]);
        let of_bytes = pilzdamo(&["dispatch", &bytes, "--names", &text]);
        assert_eq!(of_bytes.text(), of_text.text(), "{name}");
        let list = folder.file("list", &of_text.out);
        for verb in ["waiting", "run"] {
            let of_text = pilzdamo(&[verb, &file, &list]);
            let of_bytes = pilzdamo(&[verb, &bytes, &list, "--names", &text]);
            let [one, other] = [&of_text, &of_bytes].map(|answer| without_places(answer.text()));
            assert_eq!((of_bytes.status, other), (0, one), "{verb} {name}");
        }
    }
}

/// The words of a state but for where each thread stands.
fn without_places(state: &str) -> String {
    let places = ["line ", "node ", "the end after "];
    let is_place = |part: &&str| places.iter().any(|place| part.starts_with(place));
    let parts = state.split(", ").filter(|part| !is_place(part));
    parts.collect::<Vec<_>>().join(", ")
}

/// Names that don't fit say which count it is.
#[test]
fn names_that_do_not_fit() {
    let ward = Ward::new("names that do not fit");
    let Ward { file, names, .. } = &ward;
    let good = fs::read_to_string(names).expect("the names");
    let cases = [
        (
            "answer, request",
            "answer",
            "they have 1 kind, and the file has 2",
        ),
        (
            "caller, keeper",
            "caller, keeper, head",
            "they have 3 roles, and the file has 2",
        ),
        (
            "users nurse, desk, bed\n",
            "",
            "they have 0 users, and the file has 3",
        ),
        (
            "inbox",
            "inbox, outbox",
            "they have 2 channels, and the file has 1",
        ),
        (
            "session serve: back\n",
            "",
            "they have 1 session, and the file has 2",
        ),
        (
            ": back",
            ": back, more",
            "session serve has 2 variables in them, and 1 in the file",
        ),
        (
            ": reply, found",
            "",
            "session ask has 0 variables in them, and 2 in the file",
        ),
        (
            "nurse, desk, bed",
            "nurse, desk, nurse",
            "'nurse' is the name of a user already",
        ),
    ];
    for (old, new, what) in cases {
        assert!(good.contains(old), "{old}");
        let wrong = ward.folder.file("wrong.names", good.replace(old, new));
        for verb in ["check", "unpack", "show", "measure"] {
            let answer = pilzdamo(&[verb, file, "--names", &wrong]);
            assert_eq!((answer.status, answer.text()), (2, ""), "{verb}: {new}");
            let due = format!("pilzdamo: {wrong}: these names don't fit {file}: {what}\n");
            assert!(answer.err.starts_with(&due), "{}", answer.err);
        }
    }
    let answer = pilzdamo(&["check", file, "--names", &ward.folder.at("missing")]);
    assert_eq!(answer.status, 2);
    assert!(answer.err.contains("there is no such file or folder"));
    let answer = pilzdamo(&["check", "-", "--names", "-"]);
    assert_eq!(answer.status, 2);
    assert!(answer.err.contains("standard input"), "{}", answer.err);
}

/// What has no text stays in numbers, and a text has its own names.
#[test]
fn names_that_say_nothing() {
    let ward = Ward::new("names that say nothing");
    for name in ["01-odd", "02-version", "03-count"] {
        let file = example(&format!("refused/{name}.clinic"));
        for verb in ["check", "show"] {
            let with = pilzdamo(&[verb, &file, "--names", &ward.names]);
            let without = pilzdamo(&[verb, &file]);
            assert_eq!((with.status, with.text()), (without.status, without.text()));
            assert_eq!(with.err, without.err, "{verb} {name}");
        }
    }
    let text = ward.folder.at("ward.txt");
    let answer = pilzdamo(&["check", &text, "--names", &ward.names]);
    assert_eq!((answer.status, answer.text()), (2, ""));
    let names = &ward.names;
    let due = format!(
        "pilzdamo: {names}: {text} is a text and has names of its own; --names is for bytes\n"
    );
    assert_eq!(answer.err, due);
    // Zero bytes have no records to be named.
    let none = ward.folder.file("none.names", "names\n");
    let nothing = example("nothing.clinic");
    let answer = pilzdamo(&["check", &nothing, "--names", &none]);
    let due = format!("{nothing}: passes (zero bytes: nothing is planned)\n");
    assert_eq!((answer.status, answer.text()), (0, &*due), "{}", answer.err);
}

/// Lines of a text in another order: the bytes that they pack to, and the two lines.
const SWAPS: [(&str, &str); 4] = [
    ("kind answer\n", "kind request carries answer\n"),
    (
        "role caller: send request; receive answer\n",
        "role keeper: send answer; receive request\n",
    ),
    ("user nurse: caller\n", "user desk: keeper\n"),
    ("user desk: keeper\n", "user bed\n"),
];

/// Names in another order than the bytes are noticed by their sum, from a file of names and
/// from a text, also for the placed file.
#[test]
fn names_in_another_order() {
    let ward = Ward::new("names in another order");
    let own = bare_ward();
    for (one, other) in SWAPS {
        assert!(own.contains(one) && own.contains(other), "{one}{other}");
        let swapped = own.replace(one, "\0").replace(other, one);
        let swapped = swapped.replace('\0', other);
        let text = ward.folder.file("swapped.txt", &swapped);
        let [bytes, names] = ["swapped.clinic", "swapped.names"].map(|name| ward.folder.at(name));
        let pack = ["pack", &text, "-o", &bytes, "--names", &names];
        assert_eq!(pilzdamo(&pack).status, 0);
        for lent in [&names, &text] {
            for (file, verb) in [(&ward.file, "unpack"), (&ward.placed, "show")] {
                let answer = pilzdamo(&[verb, file, "--names", lent]);
                assert_eq!((answer.status, answer.text()), (2, ""), "{one}");
                let due = format!("pilzdamo: {lent}: these names don't fit {file}: their sum is ");
                assert!(answer.err.starts_with(&due), "{}", answer.err);
                let why = "or the same in another order; give the names or the text that the file was packed from\n";
                assert!(answer.err.ends_with(why), "{}", answer.err);
            }
            let answer = pilzdamo(&["unpack", &bytes, "--names", lent]);
            assert_eq!((answer.status, &*answer.err), (0, ""), "{one}");
        }
    }
}

/// Names without a sum, as they were written before there was one, go by their counts.
#[test]
fn names_without_a_sum() {
    let ward = Ward::new("names without a sum");
    let good = fs::read_to_string(&ward.names).expect("the names");
    let (first, rest) = good.split_once('\n').expect("lines");
    let (sum, rest) = rest.split_once('\n').expect("lines");
    assert_eq!(first, "names");
    assert!(sum.starts_with("sum "), "{sum}");
    let old = ward.folder.file("old.names", format!("names\n{rest}"));
    let [with, without] =
        [&ward.names, &old].map(|names| pilzdamo(&["show", &ward.placed, "--names", names]));
    assert_eq!((without.status, without.text()), (0, with.text()));
    assert_eq!(without.err, "");
    let other = format!("names\nsum 0123456789abcdef\n{rest}");
    let other = ward.folder.file("other.names", other);
    let answer = pilzdamo(&["check", &ward.placed, "--names", &other]);
    let due = format!(
        "pilzdamo: {other}: these names don't fit {}: their sum is 0123456789abcdef, and the file's is {}\n",
        ward.placed,
        &sum[4..]
    );
    assert_eq!((answer.status, answer.text()), (2, ""));
    assert!(answer.err.starts_with(&due), "{}", answer.err);
}
