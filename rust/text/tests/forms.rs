//! Texts and their bytes, by hand.

use text::{canonical, decoded, is_text, pack, placed, stripped, told, unpack, unpack_named};
use text::{Lent, Packed, Records, Version};

/// The example of the form: a nurse asks the desk for a bed.
const ASK: &str = "\
clinic 1
kind answer
kind request carries answer
role caller: send request; receive answer
role keeper: send answer; receive request
user nurse: caller
user desk: keeper
user bed
channel inbox: request, owner desk

session ask by nurse
  new reply: answer
  fork
    branch
      send reply on inbox
    branch
      receive found on reply

session serve by desk
  repeat
    receive back on inbox
    send bed on back
";

fn words(bytes: &[u8]) -> Vec<u16> {
    let pairs = bytes.as_chunks().0;
    pairs.iter().copied().map(u16::from_le_bytes).collect()
}

fn read(text: &str) -> Packed {
    pack(text).unwrap_or_else(|flaws| panic!("{flaws:#?}"))
}

/// What is said of a wrong text, as `line:column: what`.
fn flaws(text: &str) -> Vec<String> {
    let flaws = pack(text).expect_err("it is wrong");
    let one = |flaw: text::Flaw| format!("{}:{}: {}", flaw.at.line, flaw.at.column, flaw.what);
    flaws.into_iter().map(one).collect()
}

#[test]
fn every_word_of_the_example() {
    #[rustfmt::skip]
    let due = [
        1, 3, 2, 2, 1, 2, 10, 13, 16, 24, 26, 28, 34,
        1, 2, 0,
        2, 0, 1, 0, 1, 0, 2, 0,
        0, 1,
        2, 2,
        1, 0, 1, 2, 0, 7,
        3, 1, 0, 1, 5, 0, 6, 257, 512, 0, 0, 0, 5, 512, 0, 0, 0, 0,
        2, 0, 0, 5, 257, 0, 6, 512, 3, 0, 0, 0,
    ];
    let packed = read(ASK);
    assert_eq!(words(&packed.bytes()), due);
    assert_eq!(canonical(&packed).as_deref(), Some(ASK));
    assert_eq!(
        unpack_named(&packed.bytes(), &packed.names).as_deref(),
        Some(ASK)
    );
}

#[test]
fn names_are_invented() {
    let text = unpack(&read(ASK).bytes()).expect("a text");
    assert_eq!(
        text,
        "\
clinic 1
kind k1
kind k2 carries k1
role r1: send k2; receive k1
role r2: send k1; receive k2
user u1: r1
user u2: r2
user u3
channel c1: k2, owner u2

session s1 by u1
  new v1: k1
  fork
    branch
      send v1 on c1
    branch
      receive v2 on v1

session s2 by u2
  repeat
    receive v1 on c1
    send u3 on v1
"
    );
    assert_eq!(read(&text).bytes(), read(ASK).bytes());
}

#[test]
fn names_are_kept_beside_a_file() {
    let packed = read(ASK);
    let kept = Lent::of(&packed).text();
    assert_eq!(
        kept,
        "\
names
sum 6eafb1d6985f75e0
kinds answer, request
roles caller, keeper
users nurse, desk, bed
channels inbox
session ask: reply, found
session serve: back
"
    );
    let lent = Lent::read(&kept).expect("names");
    assert_eq!(lent, Lent::of(&packed));
    let names = lent.names;
    let file = packed.bytes();
    assert_eq!(unpack_named(&file, &names).as_deref(), Some(ASK));
    for wrong in [
        kept.replace(", bed", ""),
        kept.replace("bed", "bed, more"),
        kept.replace("found", "reply"),
        kept.replace("inbox", "desk"),
        kept.replace("session serve: back\n", ""),
    ] {
        let names = Lent::read(&wrong).expect("names").names;
        assert_eq!(unpack_named(&file, &names), None, "{wrong}");
    }
    assert!(Lent::read("kinds a").is_err());
    assert!(Lent::read("names\nkinds a,").is_err());
    assert!(Lent::read("names\nkinds on").is_err());
}

/// Every version, starting masks, juniors, on and off, tables in any order, kinds that
/// carry each other, branches that are an end alone.
#[test]
fn all_that_a_file_can_say() {
    let text = "\
clinic 2
session idle by nurse as head, nurse
session busy by nurse   # with everything
    fork
      branch
      branch
        on head
        compare nurse with nurse
        compare line with line
        off head
        repeat
channel line: a, owner nurse
user nurse: head, nurse
role nurse
role head: juniors nurse; receive b, a; send b
kind a carries b
kind b carries a
";
    let packed = read(text);
    let canonical = canonical(&packed).expect("a text");
    assert_eq!(
        canonical,
        "\
clinic 2
kind a carries b
kind b carries a
role nurse
role head: send b; receive a, b; juniors nurse
user nurse: nurse, head
channel line: a, owner nurse

session idle by nurse as nurse, head

session busy by nurse
  fork
    branch
    branch
      on head
      compare nurse with nurse
      compare line with line
      off head
      repeat
"
    );
    assert_eq!(read(&canonical).bytes(), packed.bytes());
    assert_eq!(packed.records.sessions[0].mask, 3);
    assert_eq!(packed.records.roles[1].juniors, 1);
    let nodes = &packed.records.nodes;
    let tags: Vec<u16> = nodes.iter().map(|node| node[0]).collect();
    assert_eq!(tags, [0, 1, 0, 7, 4, 4, 8, 2, 0]);
    assert_eq!(nodes[1], [1, 4, 0]);
}

#[test]
fn versions() {
    let bytes = |version: &str| read(&ASK.replace("clinic 1", version)).bytes();
    let (first, second, third) = (bytes("clinic 1"), bytes("clinic 2"), bytes("clinic 3"));
    assert_eq!(second.len(), first.len() + 2 + 2 * 2);
    assert_eq!(third.len(), second.len());
    let nodes = second.len() - 2 * 3 * 10;
    let [rows, columns] = [&second, &third].map(|file| words(&file[nodes..]));
    for at in 0..30 {
        assert_eq!(columns[10 * (at % 3) + at / 3], rows[at]);
    }
    assert_eq!(second[2..nodes], third[2..nodes]);
    for file in [first, second, third] {
        let text = unpack(&file).expect("a text");
        assert_eq!(read(&text).bytes(), file);
    }
    let empty = read("clinic 1").bytes();
    assert_eq!(empty.len(), 26);
    assert_eq!(unpack(&empty).as_deref(), Some("clinic 1\n"));
    let nothing = read(
        "# yet\n clinic nothing planned"
            .replace("\n ", "\n")
            .as_str(),
    );
    assert_eq!(nothing.bytes(), b"");
    assert_eq!(unpack(b"").as_deref(), Some("clinic nothing planned\n"));
}

#[test]
fn bytes_that_have_no_text() {
    let file = read(ASK).bytes();
    for length in 1..file.len() {
        assert_eq!(unpack(&file[..length]), None);
    }
    for at in 0..file.len() {
        let mut other = file.clone();
        other[at] ^= 1;
        if let Some(text) = unpack(&other) {
            assert_eq!(read(&text).bytes(), other, "{text}");
        }
    }
}

#[test]
fn texts_and_bytes_are_told_apart() {
    for text in [
        ASK,
        "clinic",
        "\n # a\r\n\tclinic 7",
        "\u{feff}clinic 1",
        "clinic:",
    ] {
        assert!(is_text(text.as_bytes()), "{text:?}");
    }
    for bytes in [&b""[..], b"# clinic", b"clinics 1", b"\x01\x00", b"names"] {
        assert!(!is_text(bytes), "{bytes:?}");
    }
    assert_eq!(decoded(b"\xef\xbb\xbfclinic 1"), Ok("clinic 1"));
    let flaw = decoded(b"clinic 1\nuser \xff").expect_err("no character");
    assert_eq!((flaw.at.line, flaw.at.column), (2, 6));
}

#[test]
fn line_ends_and_letters_of_any_kind() {
    let text = ASK.replace('\n', "\r\n").replace("nurse", "Ärztin_2-b");
    assert_eq!(read(&text).bytes(), read(ASK).bytes());
    assert_eq!(read(ASK.trim_end()).bytes(), read(ASK).bytes());
}

/// Several flaws at once, each at its place.
#[test]
fn wrong_texts() {
    let text = "\
clinic 4
kind answer carries
kind request carries anser
role caller: send request receive answer
role keeper: sends answer
user nurse: caller, caller
user nurse
usr desk
channel inbox request, owner nurse

session ask of nurse
  new reply: answer
  send reply inbox
    receive bed on reply
  receive nurse on inbox
  fork
    branch
      send bed on inbox
  send reply on inbox
 branch
";
    assert_eq!(
        flaws(text),
        [
            "1:8: expected a version (1, 2 or 3) or 'nothing planned', not '4'",
            "2:20: expected a kind, but the line ends",
            "3:22: there is no kind 'anser' (kinds: answer, request)",
            "4:27: expected ',' or ';' or the end of the line, not 'receive'",
            "5:14: expected 'send', 'receive', 'juniors', 'open' or a number of seats, not 'sends'",
            "6:21: 'caller' is there twice",
            "7:6: 'nurse' is the name of a user already (line 6)",
            "8:1: expected 'kind', 'role', 'user', 'channel' or 'session', not 'usr'",
            "9:15: expected ':', not 'request'",
            "11:13: expected 'by', not 'of'",
            "13:14: expected 'on', not 'inbox'",
            "14:5: indented deeper than the steps above it: only what stands under session, branch, fork or repeat is",
            "15:11: 'nurse' is the name of a user already",
            "16:3: a fork has two branches; this one has 1",
            "18:12: there is no user, channel or variable 'bed' here (variables bound here: reply)",
            "19:3: nothing follows a fork: what comes after it stands in its branches",
            "20:2: indented by 1, where 2 is due",
        ]
    );
}

#[test]
fn more_wrong_texts() {
    let one = |text: &str| match &flaws(text)[..] {
        [flaw] => flaw.clone(),
        flaws => panic!("{flaws:#?}"),
    };
    let below = |lines: &str| one(&format!("clinic 1\n{lines}"));
    let steps = |steps: &str| below(&format!("kind k\nuser u\nsession s by u\n{steps}"));
    assert_eq!(
        one(""),
        "1:1: expected 'clinic' and a version, but the text says nothing"
    );
    assert_eq!(
        one("klinic 1"),
        "1:1: expected 'clinic' and a version as the first line, not 'klinic'"
    );
    assert_eq!(
        one("clinic nothing planned\nuser a"),
        "2:1: a clinic with nothing planned has no lines"
    );
    assert_eq!(
        below("user on"),
        "2:6: expected a name for the user: 'on' is a reserved word"
    );
    assert_eq!(
        below("user 7"),
        "2:6: expected a name for the user, not '7'"
    );
    assert_eq!(
        below("user a\nkind k\nchannel a: k, owner a"),
        "4:9: 'a' is the name of a user already (line 2)"
    );
    assert_eq!(
        below("role a\nrole b: juniors a"),
        "3:9: juniors take 'clinic 2': version 1 has none"
    );
    assert_eq!(
        below("kind k\nrole b: send k; send k"),
        "3:17: 'send' is there twice"
    );
    assert_eq!(
        below("  user a"),
        "2:3: indented, and no session stands above it"
    );
    assert_eq!(
        below("user a\n  send a on a"),
        "3:3: indented, and no session stands above it"
    );
    assert_eq!(
        steps("\trepeat"),
        "5:1: a tab; lines are indented by spaces".to_string()
    );
    assert_eq!(
        steps("  branch"),
        "5:3: a branch stands under a fork, indented"
    );
    assert_eq!(
        steps("  fork\n    branch\n    branch\n    branch"),
        "8:5: a fork has two branches; this is one more"
    );
    assert_eq!(
        steps("  fork\n    send u on u\n    branch\n    branch"),
        "6:5: expected 'branch', not 'send'"
    );
    assert_eq!(
        steps("  repeat\n  send u on u"),
        "6:3: nothing follows a repeat: what is repeated stands under it, indented"
    );
    assert_eq!(
        steps("  new a: k\n  new a: k"),
        "6:7: 'a' is the name of a variable above it already"
    );
    assert_eq!(
        steps("  stop"),
        "5:3: expected a step ('send', 'receive', 'new', 'compare', 'fork', 'repeat', 'on' or 'off'), not 'stop'"
    );
    let nine: String = (1..=9).map(|i| format!("  new v{i}: k\n")).collect();
    assert_eq!(
        steps(&nine),
        "13:7: a ninth variable: at most 8 are bound on the way to a step"
    );
    assert_eq!(
        steps(&"  compare u with u\n".repeat(1_024)),
        "1028:3: one node too many: a clinic has at most 1,024, the end of each branch counted"
    );
    let users: String = (1..=33).map(|i| format!("user u{i}\n")).collect();
    assert_eq!(
        below(&users),
        "34:6: one user too many: a clinic has at most 32"
    );
}

#[test]
fn the_line_with_a_mark() {
    let text = "clinic 1\n\tuser \u{7}x ... \r\n";
    let at = pack(text).expect_err("flaws")[0].at;
    assert_eq!(
        told("a.txt", text, at, "what"),
        "a.txt:2:1: what\n     2 | \\tuser \\x07x ...\n       | ^^"
    );
    let deep = format!("clinic 1\n{}strange words", " ".repeat(500));
    let told = told(
        "a.txt",
        &deep,
        pack(&deep).expect_err("flaws")[0].at,
        "what",
    );
    let lines: Vec<&str> = told.lines().collect();
    assert_eq!(lines[0], "a.txt:2:501: what");
    let (word, mark) = (lines[1].find("strange"), lines[2].find('^'));
    assert!(word.is_some() && word == mark, "{told}");
}

/// On and off lines are put in, and every other line is as it was.
#[test]
fn a_placed_text() {
    let text = "\
clinic 1  # a comment
kind k
role r: send k
user u: r
channel c: k, owner u

# a session
session s by u # of u
    # the first step
    # of two

    # here
    send u on c   # one

    fork
      # nothing
      branch
      branch
       send u on c
       # the end
";
    let packed = read(text);
    let placed_file = {
        let mut records = packed.records.clone();
        records.nodes = vec![
            [7, 1, 0],
            [6, 257, 1],
            [1, 6, 0],
            [8, 1, 0],
            [0, 0, 0],
            [6, 257, 1],
            [8, 1, 0],
            [0, 0, 0],
        ];
        records
    };
    let put_in = placed(text, &packed, &placed_file).expect("a placement");
    let due = text
        .replace("    # here\n", "    on r\n    # here\n")
        .replace(
            "      branch\n      branch\n",
            "      branch\n        off r\n      branch\n",
        )
        .replace("       # the end\n", "       off r\n       # the end\n");
    assert_eq!(put_in, due);
    let again = read(&put_in);
    assert_eq!(again.bytes(), placed_file.bytes());
    assert_eq!(stripped(&put_in, &again), text);
    let no_end = text
        .trim_end()
        .trim_end_matches("       # the end")
        .trim_end();
    let put_in = placed(no_end, &read(no_end), &placed_file).expect("a placement");
    assert!(put_in.ends_with("\n       send u on c\n       off r"));
    assert_eq!(read(&put_in).bytes(), placed_file.bytes());
    let other = Records {
        nodes: vec![[0, 0, 0]],
        ..placed_file
    };
    assert_eq!(placed(text, &packed, &other), None);
}

#[test]
fn a_comment_behind_an_on_stays() {
    let text = "clinic 1\nrole r\nuser u: r\nsession s by u\n  on r # here\n  off r\n";
    let due = "clinic 1\nrole r\nuser u: r\nsession s by u\n  # here\n";
    assert_eq!(stripped(text, &read(text)), due);
}

#[test]
fn a_version_is_one_of_three() {
    for (number, version) in [(1, Version::One), (2, Version::Two), (3, Version::Three)] {
        assert_eq!(Version::numbered(number), Some(version));
    }
    assert_eq!(Version::numbered(4), None);
}
