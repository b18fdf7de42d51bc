//! Texts: `pack`, `unpack`, `strip`, and every word that takes a file.

use crate::common::{example, example_bytes, pilzdamo, pilzdamo_fed, sentence, Answer, Folder};
use crate::files;
use std::fs;

/// A nurse asks the desk for a bed.
const WARD: &str = "\
# A nurse asks the desk for a bed.
clinic 1
kind answer
kind request carries answer
role caller: send request; receive answer
role keeper: send answer; receive request
user nurse: caller
user desk: keeper
user bed
channel inbox: request, owner desk

session ask by nurse
  new reply: answer   # for the answer
  fork
    branch
      # asks
      send reply on inbox
    branch
      receive found on reply

session serve by desk
  repeat
    receive back on inbox
    send bed on back
";

/// The lines that placing puts into it, each with the number of the line after which it
/// goes.
const PUT_IN: [(usize, &str); 5] = [
    (13, "  on caller"),
    (17, "      off caller"),
    (19, "      off caller"),
    (22, "    on keeper"),
    (24, "    off keeper"),
];

/// The ward without its comments.
pub fn bare_ward() -> String {
    let lines = WARD
        .lines()
        .filter(|line| !line.trim_start().starts_with('#'));
    let bare = lines.map(|line| line.split('#').next().unwrap_or("").trim_end());
    bare.map(|line| format!("{line}\n")).collect()
}

fn placed_ward() -> String {
    let mut lines: Vec<&str> = WARD.lines().collect();
    for (behind, line) in PUT_IN.into_iter().rev() {
        lines.insert(behind, line);
    }
    lines.join("\n") + "\n"
}

fn fed(words: &[&str], text: &str) -> Answer {
    pilzdamo_fed(words, text.as_bytes())
}

/// The first line on standard error of a call that ends with this status.
fn first(status: i32, words: &[&str], text: &str) -> String {
    let answer = fed(words, text);
    assert_eq!(answer.status, status, "{words:?}: {}", answer.err);
    let line = answer.err.lines().next().unwrap_or_default();
    line.replace("standard input:", "")
}

#[test]
fn examples_there_and_back() {
    let mut sound = 0;
    for (name, bytes) in files::all() {
        let text = pilzdamo(&["unpack", &example(name)]);
        if pilzdamo_fed(&["measure", "-"], &bytes).status == 0 {
            assert_eq!(text.status, 0, "{name}: {}", text.err);
        }
        if text.status == 0 {
            assert!(text.text().starts_with("clinic "), "{name}");
            assert_eq!(pilzdamo_fed(&["pack", "-"], &text.out).out, bytes, "{name}");
            sound += 1;
        } else {
            assert_eq!((text.status, text.text()), (1, ""), "{name}");
        }
    }
    assert!(sound > 20, "{sound}");
}

/// Each text of the examples says the file beside it, and is canonical but for its
/// comments.
#[test]
fn texts_of_the_examples() {
    let clinics = files::all().into_iter();
    for (name, bytes) in clinics.filter(|(name, _)| name.ends_with(".clinic")) {
        let path = example(name).replace(".clinic", ".txt");
        let Ok(text) = fs::read_to_string(&path) else {
            assert!(name.starts_with("refused/"), "{path}");
            continue;
        };
        assert_eq!(pilzdamo(&["pack", &path]).out, bytes, "{name}");
        let canonical = pilzdamo(&["unpack", &path]);
        let comment = |line: &&str| line.starts_with('#');
        let lines = text.lines().skip_while(comment);
        let without: String = lines.map(|line| format!("{line}\n")).collect();
        assert_eq!(canonical.text(), without, "{name}");
    }
}

/// `check`, `place` and `measure` answer a text as they answer its bytes.
#[test]
fn texts_are_answered_as_their_bytes() {
    for name in files::BARE {
        let bytes = example_bytes(name);
        let text = pilzdamo_fed(&["unpack", "-"], &bytes).out;
        for words in [["check", "-"], ["measure", "-"]] {
            let [one, other] = [&text, &bytes].map(|file| pilzdamo_fed(&words, file));
            assert_eq!((one.status, &one.out), (other.status, &other.out), "{name}");
        }
        let placed = pilzdamo_fed(&["place", "-"], &bytes);
        let by_text = pilzdamo_fed(&["place", "-"], &text);
        let told = placed.err.replace(" bytes\n", " bytes when packed\n");
        assert_eq!(by_text.err, told, "{name}");
        assert_eq!(pilzdamo_fed(&["pack", "-"], &by_text.out).out, placed.out);
        assert_eq!(
            pilzdamo_fed(&["place", "-", "--bytes"], &text).out,
            placed.out
        );
        assert_eq!(pilzdamo_fed(&["strip", "-"], &by_text.out).out, text);
        assert_eq!(pilzdamo_fed(&["strip", "-"], &placed.out).out, bytes);
    }
}

#[test]
fn a_placed_text_has_every_other_line() {
    let answer = fed(&["place", "-"], WARD);
    assert_eq!((answer.status, answer.text()), (0, &placed_ward()[..]));
    assert_eq!(
        answer.err,
        "standard input: placed, 2 on steps, 158 bytes when packed\n"
    );
    let answer = fed(&["check", "-"], &placed_ward());
    assert_eq!(answer.text(), "standard input: passes\n");
    let answer = fed(&["strip", "-"], &placed_ward());
    assert_eq!(answer.text(), WARD);
    let folder = Folder::new("placed text");
    let out = folder.at("placed.txt");
    let text = folder.file("ward.txt", WARD);
    let answer = pilzdamo(&["place", &text, "-o", &out]);
    assert_eq!((answer.status, answer.text()), (0, ""));
    assert_eq!(fs::read_to_string(&out).unwrap(), placed_ward());
    assert_eq!(
        answer.err,
        format!("{text}: placed, 2 on steps, 158 bytes when packed; the text is in {out}\n")
    );
}

/// As the help of `strip` says: what was placed can be placed anew, and roles that a session
/// starts with stay and are refused.
#[test]
fn what_is_stripped_and_placed_again() {
    let stripped = fed(&["strip", "-"], &placed_ward());
    let again = fed(&["place", "-"], stripped.text());
    assert_eq!((again.status, again.text()), (0, &placed_ward()[..]));
    let starts = WARD.replace("session ask by nurse", "session ask by nurse as caller");
    let stripped = fed(&["strip", "-"], &starts);
    assert_eq!((stripped.status, stripped.text()), (0, &starts[..]));
    let again = fed(&["place", "-"], stripped.text());
    assert_eq!((again.status, again.text()), (1, ""));
    assert!(again.err.contains(&sentence(14, "")), "{}", again.err);
    assert!(pilzdamo(&["help", "strip"])
        .text()
        .contains("stay, and place refuses them\nwith 14.\n"));
}

#[test]
fn names_go_beside_a_file() {
    let folder = Folder::new("names");
    let [file, names, placed] = ["a.clinic", "a.names", "b.clinic"].map(|name| folder.at(name));
    let text = folder.file("ward.txt", WARD);
    let answer = pilzdamo(&["pack", &text, "-o", &file, "--names", &names]);
    assert_eq!((answer.status, answer.text()), (0, ""));
    assert_eq!(answer.err, format!("{text}: packed, 128 bytes in {file}\n"));
    assert_eq!(pilzdamo(&["place", &file, "-o", &placed]).status, 0);
    let due = placed_ward()
        .lines()
        .filter(|line| !line.trim_start().starts_with('#'))
        .map(|line| line.trim_end_matches("   # for the answer").to_string() + "\n")
        .collect::<String>();
    for names in [&names, &text] {
        let answer = pilzdamo(&["unpack", &placed, "--names", names]);
        assert_eq!((answer.status, answer.text()), (0, &due[..]));
    }
    let out = folder.at("out.txt");
    let words = ["unpack", &placed, "--names", &names, "-o", &out];
    assert_eq!(pilzdamo(&words).status, 0);
    assert_eq!(fs::read_to_string(&out).unwrap(), due);
    let other = example("booking.clinic");
    let answer = pilzdamo(&["unpack", &other, "--names", &names]);
    assert_eq!((answer.status, answer.text()), (2, ""));
    let what = "they have 3 users, and the file has 2";
    let said = format!("pilzdamo: {names}: these names don't fit {other}: {what}\n");
    assert!(answer.err.starts_with(&said), "{}", answer.err);
    let wrong = folder.file("wrong.names", "names\nkind a\n");
    let answer = pilzdamo(&["unpack", &file, "--names", &wrong]);
    assert_eq!(answer.status, 2);
    assert!(answer
        .err
        .starts_with(&format!("{wrong}:2:1: expected 'sum', 'kinds'")));
    let answer = pilzdamo(&["unpack", "-", "--names", "-"]);
    assert_eq!(answer.status, 2);
    assert!(answer.err.contains("only one of FILE and NAMES"));
}

/// Neither a text nor a file is written over by its other form.
#[test]
fn never_over_its_input() {
    let folder = Folder::new("over a text");
    let text = folder.file("ward.txt", WARD);
    let file = folder.at("ward.clinic");
    assert_eq!(pilzdamo(&["pack", &text, "-o", &file]).status, 0);
    let bytes = fs::read(&file).unwrap();
    for words in [
        vec!["pack", &text, "-o", &text],
        vec!["pack", &text, "-o", &file, "--names", &text],
        vec!["unpack", &file, "-o", &file],
    ] {
        let answer = pilzdamo(&words);
        assert_eq!(answer.status, 2);
        assert!(answer.err.contains("an input is not written over"));
        assert_eq!(fs::read_to_string(&text).unwrap(), WARD);
        assert_eq!(fs::read(&file).unwrap(), bytes);
    }
}

#[test]
fn wrong_texts() {
    let wrong = WARD
        .replace("user bed", "usr bed")
        .replace("send reply on", "send reply");
    for word in [
        "check", "place", "measure", "show", "strip", "unpack", "pack",
    ] {
        let answer = fed(&[word, "-"], &wrong);
        assert_eq!((answer.status, answer.text()), (2, ""), "{word}");
        assert_eq!(
            answer.err,
            "\
standard input:9:1: expected 'kind', 'role', 'user', 'channel' or 'session', not 'usr'
     9 | usr bed
       | ^^^
standard input:17:18: expected 'on', not 'inbox'
    17 |       send reply inbox
       |                  ^^^^^
standard input:24:10: there is no user, channel or variable 'bed' here (variables bound here: back)
    24 |     send bed on back
       |          ^^^
pilzdamo: standard input: 3 errors
",
            "{word}"
        );
    }
    let many = format!("clinic 1\n{}", "what\n".repeat(30));
    let answer = fed(&["check", "-"], &many);
    assert_eq!(answer.err.lines().count(), 3 * 20 + 1);
    assert!(answer
        .err
        .ends_with("standard input: 30 errors (10 more)\n"));
    let answer = pilzdamo_fed(&["check", "-"], b"clinic 1\nuser \xff\x07");
    assert_eq!(answer.status, 2);
    assert!(answer
        .err
        .starts_with("standard input:2:6: a byte that is no character"));
    assert_eq!(
        first(2, &["pack", "-"], ""),
        "1:1: expected 'clinic' and a version, but the text says nothing"
    );
    assert!(!fed(&["check", "-"], "clinic 1\nuser \u{7}\u{1b}[2J")
        .err
        .contains('\u{1b}'));
}

/// Each refusal that a text can come to, at its line and in its names.
#[test]
fn refusals_in_names() {
    let with = |from: &str, to: &str| {
        assert!(WARD.contains(from), "{from}");
        WARD.replace(from, to)
    };
    let placed = |from: &str, to: &str| {
        assert!(placed_ward().contains(from), "{from}");
        placed_ward().replacen(from, to, 1)
    };
    let cases = [
        ("check", with("by nurse", "by nurse as keeper"), "12:25: refused 7: keeper isn't a role of nurse (roles of nurse: caller)"),
        ("check", with("send reply on inbox", "send bed on inbox"), "17:7: refused 10: inbox carries a channel of kind answer, and bed is a plain value"),
        ("check", with("send reply on inbox", "send reply on bed"), "17:7: refused 10: bed is a plain value, and no channel"),
        ("check", with("receive found on reply", "receive found on inbox"), "19:7: refused 10: nurse receives on inbox, and its owner is desk"),
        ("check", with("send bed on back", "receive more on back"), "24:5: refused 10: back was received, so it serves for sending alone: a channel is received on by its owner, or below the new that makes it"),
        ("check", with("send bed on back", "compare bed with back"), "24:5: refused 10: bed is a plain value, and back is a channel of kind answer"),
        ("check", placed("on caller", "on keeper"), "14:3: refused 11: keeper isn't a role of nurse (roles of nurse: caller)"),
        ("check", placed("off caller", "off keeper"), "19:7: refused 12: keeper is not on here (roles on: caller)"),
        ("check", placed("  on caller", "  off caller"), "14:3: refused 12: caller is not on here (roles on: none)"),
        ("check", WARD.to_string(), "17:7: refused 13: nurse has no role on that may send on request (roles on: none; roles that may: caller)"),
        ("place", placed_ward(), "14:3: refused 14: placing adds every on and off itself, and this one is there already"),
        ("place", with("by desk", "by desk as keeper"), "21:26: refused 14: a session to be placed starts without a role"),
        ("place", with("user nurse: caller", "user nurse: keeper"), "17:7: refused 15: nurse has no role that may send on request (roles that may: caller)"),
        ("measure", with("user nurse: caller", "user nurse"), "17:7: refused 15: nurse has no role that may send on request (roles that may: caller)"),
    ];
    for (word, text, due) in cases {
        assert_eq!(first(1, &[word, "-"], &text), due);
        let shown = fed(&["show", "-"], &text);
        assert_eq!(shown.status, 0);
        let what = due.split_once(": ").expect("a place").1;
        if word == "check" {
            assert!(shown.text().contains(&format!("\n!! {what}\n")), "{what}");
        }
    }
    let seniors = "clinic 2\nrole a: juniors b\nrole b: juniors b\nuser u";
    assert_eq!(
        first(1, &["check", "-"], seniors),
        "2:17: refused 21: b is a junior of a, and must stand above it"
    );
    let answer = fed(&["place", "-"], &with("user nurse: caller", "user nurse"));
    assert_eq!(
        answer.err,
        format!(
            "\
standard input:17:7: refused 15: nurse has no role that may send on request (roles that may: caller)
    17 |       send reply on inbox
       |       ^^^^^^^^^^^^^^^^^^^
  {}
  the routine's author can mend it; more: pilzdamo explain 15
",
            sentence(15, "node 3, a send")
        )
    );
    let juniors = WARD.replace("clinic 1", "clinic 2").replace(
        "user nurse: caller",
        "user nurse: head\nrole head: juniors caller",
    );
    assert_eq!(fed(&["place", "-"], &juniors).status, 0);
}

#[test]
fn choices_in_names() {
    let folder = Folder::new("choices in names");
    let file = folder.file("ward.txt", placed_ward());
    let list = "\
ask ask        # makes the channel, puts caller on
ask            # forks: ask.2 waits for the answer
serve          # repeats
serve.2        # puts keeper on
ask -> serve.2
1 0 serve.2 -> ask.2
ask            # has ended, and ask.2 keeps its name
ask.2
";
    let answer = fed(&["run", &file, "-"], list);
    assert_eq!(answer.err, "");
    assert_eq!(
        answer.text(),
        "\
choices done: 10
threads: 3
  1 serve: desk, line 25 (repeat), no role
  2 ask.2: nurse, the end after line 22, no role; reply = made channel 1, found = bed
  3 serve.2: desk, line 29 (off keeper), as keeper; back = made channel 1
made channels: 1
  made channel 1: answer, owner nurse
"
    );
    let numbers = "1 0 1 0 1 0 2 0 4 0 1 4 1 0 4 3 1 0 2 0";
    let same = fed(&["run", &file, "-"], numbers);
    assert_eq!((same.status, same.out), (0, answer.out));
    let answer = fed(&["waiting", &file, "-"], "ask ask ask");
    assert_eq!(
        answer.text(),
        "kind answer: 1 waiting\nkind request: 0 waiting\n"
    );
    let answer = fed(&["round", &file, "-"], "ask ask ask");
    let lines: Vec<&str> = answer.text().lines().collect();
    assert_eq!(lines[0], "round: serve");
    assert_eq!(lines[6], "  4 serve.2: desk, line 26 (on keeper), no role");
    // Of bytes the sessions have the names that unpack gives them.
    let bytes = folder.at("ward.clinic");
    assert_eq!(pilzdamo(&["pack", &file, "-o", &bytes]).status, 0);
    let in_names = list.replace("ask", "s1").replace("serve", "s2");
    let by_name = fed(&["run", &bytes, "-"], &in_names);
    assert_eq!(by_name.text(), fed(&["run", &bytes, "-"], numbers).text());
    let answer = fed(&["run", &bytes, "-"], "s1\ns2.2");
    assert_eq!(answer.status, 1);
    let due = "standard input:2:1: refused 18: there is no thread s2.2 here (threads: s1, s2)\n";
    assert!(answer.err.starts_with(due), "{}", answer.err);
}

#[test]
fn choices_that_are_refused() {
    let folder = Folder::new("choices refused");
    let file = folder.file("ward.txt", placed_ward());
    let cases = [
        ("ask ask\nask\nask -> serve.2", "3:1: refused 18: there is no thread serve.2 here (threads: ask, serve, ask.2)", 18),
        ("1 0 7 0", "1:5: refused 18: there is no thread 7: the list has 2 threads", 18),
        ("ask ask ask -> serve", "1:9: refused 18: ask stands at line 15 (fork), and serve stands at line 25 (repeat); a step that is no send takes no partner: ask", 18),
        ("ask ask ask\nask -> ask.2", "2:1: refused 19: ask stands at line 18 (send reply on inbox), sends on inbox, and ask.2 stands at line 21 (receive found on reply), receives on reply (made channel 1)", 19),
    ];
    for (list, due, number) in cases {
        let answer = fed(&["run", &file, "-"], list);
        assert_eq!(answer.status, 1);
        let first = answer.err.lines().next().unwrap_or_default();
        assert_eq!(first, format!("standard input:{due}"));
        let next = format!(", the next refused with {number}\n");
        assert!(answer.text().contains(&next), "{}", answer.text());
        let meaning = pilzdamo::meaning(number).expect("a refusal");
        assert!(answer.err.contains(&meaning), "{}", answer.err);
    }
    let wrong = fed(
        &["run", &file, "-"],
        "ask\nask -> sreve\n1 serve\n-> 3\nask.0",
    );
    assert_eq!((wrong.status, wrong.text()), (2, ""));
    for due in [
        "standard input:2:8: there is no session 'sreve' (sessions: ask, serve)\n",
        "standard input:3:3: expected '->' and a thread, or the partner's number (0 if it steps alone), not 'serve'\n",
        "standard input:4:1: expected a thread: a session's name, with .2 for its second thread, or a number, not '->'\n",
        "standard input:5:5: expected a thread's number in its session, from 1, not '0'\n",
        "pilzdamo: standard input: 4 errors\n",
    ] {
        assert!(wrong.err.contains(due), "{}", wrong.err);
    }
    let odd = fed(&["run", &file, "-"], "1 0 1");
    assert_eq!((odd.status, odd.text()), (1, ""));
    assert!(odd.err.contains(&sentence(17, "")), "{}", odd.err);
    let refused = folder.file("refused.txt", WARD.replace("send reply", "send bed"));
    let answer = fed(&["run", &refused, "-"], "ask");
    assert_eq!((answer.status, answer.text()), (1, ""));
    assert!(answer
        .err
        .starts_with(&format!("{refused}:17:7: refused 10: ")));
}

/// A text without its first word is taken for bytes, and a hint says what is missing.
#[test]
fn a_first_word_that_is_another() {
    let hint = "\n  if it is meant as a text: its first line is 'clinic 1'\n";
    for text in ["Clinic 1\nuser nurse", "user nurse\nuser desk: keeper\n"] {
        let answer = fed(&["check", "-"], text);
        assert_eq!(answer.status, 1);
        assert!(answer.err.ends_with(hint), "{}", answer.err);
    }
    let answer = pilzdamo_fed(&["check", "-"], &[1, 0, 9]);
    assert!(!answer.err.contains("text"), "{}", answer.err);
}

#[test]
fn a_shown_text() {
    let text = "clinic 1\nkind k\nrole r: send k\nuser u: r\nchannel c: k, owner u\nsession s by u\n  on r\n  send u on c  # now\n";
    let answer = fed(&["show", "-"], text);
    assert_eq!(
        answer.text(),
        "\
check: passes
length: 66 bytes as a file
on steps: 1

  node  line  held
           1        clinic 1
           2        kind k
           3        role r: send k
           4        user u: r
           5        channel c: k, owner u
           6        session s by u
     1     7  -       on r
     2     8  r       send u on c  # now
"
    );
}

#[test]
fn nothing_planned() {
    let answer = pilzdamo(&["unpack", &example("nothing.clinic")]);
    assert_eq!(answer.text(), "clinic nothing planned\n");
    assert_eq!(fed(&["pack", "-"], "clinic nothing planned").out, b"");
    let answer = fed(&["check", "-"], "clinic nothing planned");
    assert_eq!(answer.status, 0);
}

/// Zero bytes are placed as the file without records, of a text as of bytes.
#[test]
fn nothing_planned_is_placed() {
    let folder = Folder::new("nothing placed");
    let bytes = pilzdamo(&["place", &example("nothing.clinic")]).out;
    assert_eq!(bytes.len(), 26);
    for (text, due) in [
        ("clinic nothing planned", "clinic 1"),
        (
            "# clinic nothing planned\r\n\r\nclinic nothing  planned # yet\r\n# more\r\n",
            "# clinic nothing planned\r\n\r\nclinic 1 # yet\r\n# more\r\n",
        ),
        ("\u{feff}clinic nothing planned\n", "\u{feff}clinic 1\n"),
    ] {
        let out = folder.at("placed.txt");
        let answer = fed(&["place", "-", "-o", &out], text);
        let told = format!(
            "standard input: placed, 0 on steps, 26 bytes when packed; the text is in {out} \
             (zero bytes: nothing is planned)\n"
        );
        assert_eq!((answer.status, answer.err), (0, told));
        let placed = fs::read_to_string(&out).expect("a text");
        assert_eq!(placed, due);
        assert_eq!(fed(&["pack", "-"], &placed).out, bytes);
        assert_eq!(fed(&["place", "-", "--bytes"], text).out, bytes);
    }
}

/// What is in the way of placing, and what takes it out.
#[test]
fn placed_already() {
    let strip = "\n  pilzdamo strip FILE removes on and off\n";
    let by_hand = "\n  remove the roles with which this session starts by hand\n";
    let started = WARD.replace("by desk", "by desk as keeper");
    for (text, due) in [(placed_ward(), strip), (started, by_hand)] {
        for word in ["place", "measure"] {
            let answer = fed(&[word, "-"], &text);
            assert_eq!(answer.status, 1);
            assert!(answer.err.contains(due), "{}", answer.err);
        }
    }
}

#[test]
fn wrong_use() {
    let cases: [(&[&str], &str); 9] = [
        (&["pack"], "pack: TEXT is missing"),
        (&["pack", "a", "b"], "pack: 'b' is too many"),
        (&["pack", "a", "--bytes"], "pack has no option '--bytes'"),
        (
            &["pack", "a", "--names"],
            "pack: --names needs the name of a file",
        ),
        (&["unpack"], "unpack: FILE is missing"),
        (
            &["unpack", "a", "--names", "b", "--names", "c"],
            "unpack: --names is given twice",
        ),
        (&["strip", "a", "-o"], "strip: -o needs the name of a file"),
        (
            &["strip", "a", "--names", "b"],
            "strip has no option '--names'",
        ),
        (&["check", "a", "--bytes"], "check has no option '--bytes'"),
    ];
    for (words, due) in cases {
        let answer = pilzdamo(words);
        assert_eq!(answer.status, 2);
        assert!(
            answer.err.starts_with(&format!("pilzdamo: {due}")),
            "{}",
            answer.err
        );
    }
    let help = include_str!("../../src/help.txt");
    for word in ["pack", "unpack", "strip"] {
        assert!(help.contains(&format!("  pilzdamo {word} ")));
    }
}
