//! `merge A B` of texts: refusals are in names, at their lines.

use crate::common::{example, pilzdamo, pilzdamo_fed, sentence, Folder};
use crate::format;

/// What is said of two files, without the folder.
fn refused(folder: &Folder, one: &str, other: &str) -> String {
    let answer = pilzdamo(&["merge", one, other]);
    assert_eq!((answer.status, answer.text()), (1, ""), "{}", answer.err);
    let here = format!("{}/", folder.path().display());
    answer.err.replace(&here, "")
}

#[test]
fn at_its_line() {
    let folder = Folder::new("merge at a line");
    let ward = folder.file("ward.txt", format::example());
    let text = "\
clinic 1
kind k
role r: receive k
user u: r
user v: r
channel c: k, owner v
session s by u
  receive x on c
";
    let that = folder.file("that.txt", text);
    let due = format!(
        "\
that.txt:8:3: refused 10: u receives on c, and its owner is v
     8 |   receive x on c
       |   ^^^^^^^^^^^^^^
  {}
  the routine's author can mend it; more: pilzdamo explain 10
",
        sentence(10, "node 1, a receive")
    );
    assert_eq!(refused(&folder, &that, &ward), due);
    assert_eq!(refused(&folder, &ward, &that), due);
}

#[test]
fn another_version() {
    let folder = Folder::new("merge of versions");
    let ward = folder.file("ward.txt", format::example());
    let juniors = example("head-nurse/juniors.txt");
    let err = refused(&folder, &juniors, &ward);
    let checked = pilzdamo(&["rows", &juniors]).err;
    let told: Vec<&str> = checked.lines().collect();
    let [first, .., _] = told[..] else {
        panic!("{checked}");
    };
    assert!(
        first.contains(": refused 2: version 2 can't be used here"),
        "{first}"
    );
    assert!(err.starts_with(&format!("{first}\n")), "{err}");
    let version = "  this file has version 2, and two are merged in version 1 alone\n";
    assert!(err.ends_with(version), "{err}");
}

/// What a message says between the engine's sentence and who can mend it.
fn between(err: &str) -> Vec<&str> {
    let lines: Vec<&str> = err.lines().collect();
    let [first, between @ .., last] = &lines[..] else {
        panic!("{err}");
    };
    assert!(first.ends_with(&sentence(25, "")), "{first}");
    let mend = "  the schema's keeper can mend it; more: pilzdamo explain 25";
    assert_eq!(*last, mend);
    between.to_vec()
}

/// Two texts differ by name, with the lines of both.
#[test]
fn what_differs() {
    let folder = Folder::new("merge of tables");
    let own = format::example();
    let ward = folder.file("ward.txt", &own);
    let differs = |other: String, due: &[&str]| {
        let other = folder.file("other.txt", other);
        assert_eq!(between(&refused(&folder, &ward, &other)), due);
    };
    differs(
        own.replace("send request; receive answer", "receive answer"),
        &[
            "  role caller differs",
            "    ward.txt:5: role caller: send request; receive answer",
            "    other.txt:5: role caller: receive answer",
        ],
    );
    // The same records in the same order, by another name.
    differs(
        own.replace("caller", "asker"),
        &[
            "  role caller is in ward.txt alone",
            "    ward.txt:5: role caller: send request; receive answer",
            "  role asker is in other.txt alone",
            "    other.txt:5: role asker: send request; receive answer",
        ],
    );
    let tables = own.split("user ").next().expect("tables");
    differs(
        tables.replace("request carries answer", "request  # plain"),
        &[
            "  kind request differs",
            "    ward.txt:4: kind request carries answer",
            "    other.txt:4: kind request  # plain",
        ],
    );
    differs(
        tables.replace("kind answer\n", "kind answer\nkind more\n"),
        &[
            "  kind more is in other.txt alone",
            "    other.txt:4: kind more",
        ],
    );
    differs(
        "clinic nothing planned\n".to_string(),
        &[
            "  kind answer is in ward.txt alone",
            "    ward.txt:3: kind answer",
            "  kind request is in ward.txt alone",
            "    ward.txt:4: kind request carries answer",
            "  role caller is in ward.txt alone",
            "    ward.txt:5: role caller: send request; receive answer",
            "  role keeper is in ward.txt alone",
            "    ward.txt:6: role keeper: send answer; receive request",
        ],
    );
    let kinds: String = (1..=14).map(|number| format!("kind k{number}\n")).collect();
    let other = folder.file("other.txt", format!("clinic 1\n{kinds}"));
    let err = refused(&folder, &ward, &other);
    assert_eq!(between(&err).last(), Some(&"  8 more differ"));
    // A name that would clear the screen, and a long line.
    let kind = format!("kind odd # \u{1b}[2J{}\n", "x".repeat(500));
    let other = folder.file("other.txt", format!("{tables}{kind}"));
    let err = refused(&folder, &ward, &other);
    let line = between(&err)[1];
    assert!(
        line.starts_with("    other.txt:7: kind odd # \\x1b[2Jxxx"),
        "{line}"
    );
    assert!(line.ends_with("xxx ...") && line.len() < 240, "{line}");
}

/// Seats and hours belong to a role's line: they are the same in both, however that is
/// written, or the lines of both are told. The engine refuses nothing, so there is no number.
#[test]
fn other_seats_and_hours() {
    let folder = Folder::new("merge of seats");
    let own = format::example();
    let limited =
        |limits: &str| own.replace("receive answer\n", &format!("receive answer{limits}\n"));
    let ward = limited("; 1 seat; open Mon-Fri 07:00-15:00");
    let ward_file = folder.file("ward.txt", &ward);
    let line = "role caller: send request; receive answer";
    for (limits, due) in [
        ("; 2 seats; open Mon-Fri 07:00-15:00", &["seats"][..]),
        ("; 1 seat; open Mon-Sat 07:00-15:00", &["hours"]),
        ("; 1 seat", &["hours"]),
        ("", &["seats", "hours"]),
    ] {
        let other = folder.file("other.txt", limited(limits));
        let differ: String = due
            .iter()
            .map(|what| {
                format!(
                    "  role caller has other {what}\n    ward.txt:5: {line}; 1 seat; open Mon-Fri \
                     07:00-15:00\n    other.txt:5: {line}{limits}\n"
                )
            })
            .collect();
        let due = format!(
            "pilzdamo: ward.txt, other.txt: not merged: the seats or hours of roles differ\n\
             {differ}  write the same seats and hours of each role in both\n"
        );
        assert_eq!(refused(&folder, &ward_file, &other), due);
        let bytes = pilzdamo(&["merge", &ward_file, &other, "--bytes"]);
        assert_eq!((bytes.status, bytes.text()), (1, ""), "{}", bytes.err);
    }
    // A difference that the engine refuses is told first, and alone.
    let other = folder.file("other.txt", own.replace("send request; ", ""));
    assert_eq!(
        between(&refused(&folder, &ward_file, &other))[0],
        "  role caller differs"
    );
    // The same minutes, in other words and another order.
    let same = "; open Wed-Fri 7:00-15:00, Mon-Tue 12:00-15:00, Mon-Wed 07:00-12:00; 1 seat";
    let other = folder.file("other.txt", limited(same));
    let merged = pilzdamo(&["merge", &ward_file, &other]);
    assert_eq!(merged.status, 0, "{}", merged.err);
    let roles: Vec<&str> = merged
        .text()
        .lines()
        .filter(|line| line.starts_with("role caller"))
        .collect();
    assert_eq!(roles, [format!("{line}; 1 seat; open Mon-Fri 07:00-15:00")]);
}

/// A text beside bytes goes by position, with the numbers that are compared.
#[test]
fn a_text_and_bytes() {
    let folder = Folder::new("merge of a text and bytes");
    let own = format::example();
    let ward = folder.file("ward.txt", &own);
    let packed = |text: &str| {
        let text = folder.file("other.txt", text);
        let bytes = folder.at("other.clinic");
        assert_eq!(pilzdamo(&["pack", &text, "-o", &bytes]).status, 0);
        bytes
    };
    let other = packed(&own.replace("send request; receive answer", "receive answer"));
    let due = [
        "  role caller differs",
        "    in ward.txt:5:6: caller sends on request (kind 2); receives on answer (kind 1)",
        "    in other.clinic: sends on no kind; receives on kind 1",
    ];
    assert_eq!(between(&refused(&folder, &ward, &other)), due);
    let other = packed(&own);
    for pair in [[&ward, &other], [&other, &ward]] {
        let merged = pilzdamo(&["merge", pair[0], pair[1]]);
        let bytes = pilzdamo(&["merge", &other, &other]);
        assert_eq!((merged.status, merged.out), (0, bytes.out));
    }
}

/// The lines of a text's tables, one order after the other.
fn orders(text: &str) -> Vec<String> {
    let is_table = |line: &&str| line.starts_with("kind ") || line.starts_with("role ");
    let lines: Vec<&str> = text.lines().collect();
    let tables: Vec<&str> = lines.iter().copied().filter(is_table).collect();
    let rest: Vec<&str> = lines[1..]
        .iter()
        .copied()
        .filter(|line| !is_table(line))
        .collect();
    let mut orders = Vec::new();
    for turn in 0..tables.len() {
        for back in [false, true] {
            let mut tables = tables.clone();
            tables.rotate_left(turn);
            if back {
                tables.reverse();
            }
            // Tables may stand below the sessions too.
            let all = match back {
                true => [&lines[..1], &rest, &tables].concat(),
                false => [&lines[..1], &tables, &rest].concat(),
            };
            orders.push(all.join("\n") + "\n");
        }
    }
    orders
}

/// Whatever the order of the second's kinds and roles, the result is what the engine makes of
/// both in the first's order, and a text with all names.
#[test]
fn in_any_order() {
    let folder = Folder::new("merge in any order");
    for (one, other) in [
        ("house/north.txt", "house/south.txt"),
        ("transfer.txt", "transfer.txt"),
        ("spring/bare.txt", "spring/bare.txt"),
        ("spring/cut.txt", "spring/cut.txt"),
        ("seats/asked.txt", "seats/asked.txt"),
    ] {
        let texts = [one, other].map(|name| {
            let text = std::fs::read_to_string(example(name)).expect("a text");
            // The first line is that of the version.
            let clinic = text.find("clinic").expect("a version");
            text[clinic..].to_string()
        });
        let [one, other] = texts;
        let first = folder.file("one.txt", &one);
        let second = folder.file("other.txt", &other);
        let [first_bytes, second_bytes] =
            [(&first, "one"), (&second, "other")].map(|(text, to)| {
                let bytes = folder.at(&format!("{to}.clinic"));
                assert_eq!(pilzdamo(&["pack", text, "-o", &bytes]).status, 0);
                bytes
            });
        let due = pilzdamo(&["merge", &first_bytes, &second_bytes]);
        assert_eq!(due.status, 0, "{}", due.err);
        let plain = pilzdamo(&["merge", &first, &second]);
        assert!(plain.text().starts_with(&one), "{}", plain.text());
        assert!(
            !plain.err.contains("are put into the order"),
            "{}",
            plain.err
        );
        let mut moved = 0;
        for order in orders(&other) {
            let second = folder.file("ordered.txt", order);
            let bytes = pilzdamo(&["merge", &first, &second, "--bytes"]);
            assert_eq!((bytes.status, &bytes.out), (0, &due.out), "{}", bytes.err);
            let text = pilzdamo(&["merge", &first, &second]);
            assert_eq!(text.status, 0, "{}", text.err);
            let packed = pilzdamo_fed(&["pack", "-"], &text.out);
            assert_eq!(packed.out, due.out);
            let [own, other] =
                [&plain, &text].map(|text| pilzdamo_fed(&["unpack", "-"], &text.out));
            assert_eq!(own.text(), other.text());
            moved += usize::from(text.err.contains("are put into the order"));
        }
        assert!(moved > 0);
    }
}

/// Names that clash: of users and channels with each other and with variables, of sessions,
/// and with names that look like new ones.
#[test]
fn names_are_told_apart() {
    let folder = Folder::new("names told apart");
    let one = "\
clinic 1
kind k
role r: send k; receive k
user desk: r
user bed
user desk-2
channel line: k, owner desk

session serve by desk
  receive taken on line
";
    let other = "\
# The other house.\r
clinic 1
role r: receive k; send k  # the same
user bed: r # by the window
user taken
user r
channel desk: k, owner bed
kind k

session serve by bed as r
  receive line on desk
  compare line with taken
  send r on desk
session serve-2 by taken
  new bed-2: k";
    let out = "\
# The other house.\r
user bed-3: r # by the window
user taken-2
user r
channel desk-3: k, owner bed-3

session serve-3 by bed-3 as r
  receive line-2 on desk-3
  compare line-2 with taken-2
  send r on desk-3
session serve-2 by taken-2
  new bed-2: k";
    let (first, second) = (folder.file("one.txt", one), folder.file("other.txt", other));
    let house = folder.at("house.txt");
    let answer = pilzdamo(&["merge", &first, &second, "-o", &house]);
    let here = format!("{}/", folder.path().display());
    let due = "\
one.txt, other.txt: merged, 6 users, 2 channels, 3 sessions, 8 nodes, 122 bytes when packed; \
the text is in house.txt
  of other.txt: user bed is now bed-3, user taken is now taken-2, channel desk is now desk-3, \
variable line is now line-2, session serve is now serve-3
";
    assert_eq!(
        (answer.status, answer.err.replace(&here, "")),
        (0, due.to_string())
    );
    let text = std::fs::read_to_string(&house).expect("a text");
    assert_eq!(text, format!("{one}\n{out}"));
    // A first text without a last line end, with its mark and its line ends.
    let marked = format!("\u{feff}{}", one.trim_end().replace('\n', "\r\n"));
    let first = folder.file("one.txt", &marked);
    let answer = pilzdamo(&["merge", &first, &second]);
    assert_eq!(
        (answer.status, answer.text()),
        (0, &*format!("{marked}\r\n\r\n{out}"))
    );
    let bytes = pilzdamo_fed(&["pack", "-"], &answer.out);
    assert_eq!(
        bytes.out,
        pilzdamo(&["merge", &first, &second, "--bytes"]).out
    );
    // No name is said to change where the result has none.
    let answer = pilzdamo(&["merge", &first, &second, "--bytes"]);
    assert!(!answer.err.contains("is now"), "{}", answer.err);
}

/// Where nothing is planned, or a text has tables alone.
#[test]
fn hardly_anything() {
    let folder = Folder::new("merge of hardly anything");
    let nothing = folder.file("nothing.txt", "# none yet\nclinic nothing planned\n");
    let users = folder.file("users.txt", "clinic 1\nuser u\n");
    for (one, other, due) in [
        (&nothing, &nothing, "# none yet\nclinic 1\n\n# none yet\n"),
        (&nothing, &users, "# none yet\nclinic 1\n\nuser u\n"),
        (&users, &nothing, "clinic 1\nuser u\n\n# none yet\n"),
        (&users, &users, "clinic 1\nuser u\n\nuser u-2\n"),
    ] {
        let answer = pilzdamo(&["merge", one, other]);
        assert_eq!((answer.status, answer.text()), (0, due), "{}", answer.err);
    }
    // A name can be too long for a number behind it.
    let long = |letters: usize| "u".repeat(letters);
    let user = format!("clinic 1\nuser {}\n", long(100));
    let users = folder.file("users.txt", &user);
    let answer = pilzdamo(&["merge", &users, &users]);
    let due = format!("{user}\nuser {}-2\n", long(98));
    assert_eq!((answer.status, answer.text()), (0, &*due), "{}", answer.err);
    let kinds = folder.file("kinds.txt", "clinic 1\nkind k\n");
    let answer = pilzdamo(&["merge", &kinds, &kinds]);
    assert_eq!((answer.status, answer.text()), (0, "clinic 1\nkind k\n"));
}

/// Sums that are too large are the engine's, after the tables.
#[test]
fn sums_of_texts() {
    let folder = Folder::new("merge of large texts");
    let users: String = (1..=17).map(|number| format!("user u{number}\n")).collect();
    let text = folder.file("users.txt", format!("clinic 1\n{users}"));
    let err = refused(&folder, &text, &text);
    let due = "  users: 17 in users.txt, 17 in users.txt, 34 together (at most 32)\n";
    assert!(err.contains(due), "{err}");
    assert!(err.contains(": Refused 3: "), "{err}");
}
