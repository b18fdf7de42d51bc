//! Texts whose lines end or begin otherwise than usual.

use text::{pack, placed, stripped, undecoded, Lent, Packed};

fn read(text: &str) -> Packed {
    pack(text).unwrap_or_else(|flaws| panic!("{flaws:#?}"))
}

/// What is said of a wrong text, as `line:column: what`.
fn flaws(text: &str) -> Vec<String> {
    lines(pack(text).expect_err("it is wrong"))
}

fn lines(flaws: Vec<text::Flaw>) -> Vec<String> {
    let one = |flaw: text::Flaw| format!("{}:{}: {}", flaw.at.line, flaw.at.column, flaw.what);
    flaws.into_iter().map(one).collect()
}

const HEAD: &str = "clinic 1\nkind k\nrole r: send k\nuser u: r\nchannel c: k, owner u\n";

/// Lines put in end as those around them do, also where the text ends without an end.
#[test]
fn line_ends_of_a_placed_text() {
    let bare = format!("{HEAD}session s by u\n  send u on c");
    let with_roles = format!("{HEAD}session s by u\n  on r\n  send u on c\n  off r");
    for behind in ["", "\n", "\n  # behind", "\n\n"] {
        for end in ["\n", "\r\n"] {
            let [bare, due] = [&bare, &with_roles].map(|text| {
                let text = text.clone() + behind;
                text.replace('\n', end)
            });
            let file = read(&due);
            let put_in = placed(&bare, &read(&bare), &file.records);
            assert_eq!(put_in.as_ref(), Some(&due));
            assert_eq!(stripped(&due, &file), bare);
        }
    }
}

/// A tab is reported once for its line; what doesn't fit because of it isn't.
#[test]
fn tabs() {
    let tab = |line: usize| format!("{line}:1: a tab; lines are indented by spaces");
    let text = format!("{HEAD}session s by u\n\tsend u on c\n  fork\n    branch\n  send x on y\n");
    assert_eq!(flaws(&text), [tab(7)]);
    let text = format!("{HEAD}session s by u\n\tsend u on c\n\tsend x on c\nsession t by v\n");
    assert_eq!(
        flaws(&text),
        [
            tab(7),
            tab(8),
            "8:7: there is no user, channel or variable 'x' here (no variable is bound here)"
                .to_string(),
            "9:14: there is no user 'v' (users: u)".to_string(),
        ]
    );
}

#[test]
fn the_first_line_is_at_the_margin() {
    let due = "2:3: indented; the first line stands at the margin, without spaces before it";
    assert_eq!(flaws("# a clinic\n  clinic 1\n"), [due]);
}

#[test]
fn a_name_is_listed_once() {
    let text = "clinic 1\nuser u\nuser u\nuser v\nsession s by w\n";
    assert_eq!(
        flaws(text),
        [
            "3:6: 'u' is the name of a user already (line 2)",
            "5:14: there is no user 'w' (users: u, v)",
        ]
    );
}

/// If a line could go on, the message says with what.
#[test]
fn a_sign_that_is_missing() {
    let below = |line: &str| flaws(&format!("{HEAD}{line}\n"));
    let due = |place: &str, words: &str| [format!("6:{place}: expected {words}")];
    assert_eq!(
        below("user v: r q"),
        due("11", "',' or the end of the line, not 'q'")
    );
    assert_eq!(
        below("session s by u as r r"),
        due("21", "',' or the end of the line, not 'r'")
    );
    assert_eq!(
        below("user v r"),
        due("8", "':' or the end of the line, not 'r'")
    );
    assert_eq!(
        below("role q send k"),
        due("8", "':' or the end of the line, not 'send'")
    );
    assert_eq!(
        below("kind q carries k k"),
        due("18", "the end of the line, not 'k'")
    );
    assert_eq!(
        below("kind q k"),
        due("8", "'carries' or the end of the line, not 'k'")
    );
    assert_eq!(
        below("session s by u r"),
        due("16", "'as' or the end of the line, not 'r'")
    );
}

#[test]
fn a_sign_that_is_missing_in_names() {
    let names = |line: &str| {
        let flaws = Lent::read(&format!("names\n{line}\n")).expect_err("they are wrong");
        let [flaw] = &flaws[..] else {
            panic!("{flaws:#?}");
        };
        format!("{}:{}: {}", flaw.at.line, flaw.at.column, flaw.what)
    };
    assert_eq!(
        names("kinds answer request"),
        "2:14: expected ',' or the end of the line, not 'request'"
    );
    assert_eq!(
        names("session s: a b"),
        "2:14: expected ',' or the end of the line, not 'b'"
    );
    assert_eq!(
        names("session s a"),
        "2:11: expected ':' or the end of the line, not 'a'"
    );
}

/// A byte that is no character is reported for its line, along with flaws of other lines.
/// A name that has one is a name all the same.
#[test]
fn bytes_that_are_no_characters() {
    let told = "a byte that is no character: a text is written in UTF-8";
    let text = b"# \xe9t\xe9\nclinic 1\nkind k\nuser M\xfcller: x\nuser M\nusr y\n\
        channel c: k, owner M\nsession s by M\xfcller\n  send M on d\n  send M on \xe2\x82\n";
    assert_eq!(
        lines(undecoded(text)),
        [
            format!("1:3: {told}"),
            format!("4:7: {told}"),
            "6:1: expected 'kind', 'role', 'user', 'channel' or 'session', not 'usr'".to_string(),
            format!("8:15: {told}"),
            "9:13: there is no user, channel or variable 'd' here (no variable is bound here)"
                .to_string(),
            format!("10:13: {told}"),
        ]
    );
}

/// A name may be long, but not so long that an answer which has it everywhere never ends.
#[test]
fn long_names() {
    let name = |length: usize| "n".repeat(length);
    read(&format!("clinic 1\nuser {}\n", name(100)));
    let user = name(101);
    let text = format!("clinic 1\nuser {user}\nsession s by {user}\n  send {user} on {user}\n");
    let what = "a name of 101 characters: a name has at most 100";
    let due = ["2:6", "3:14", "4:8"].map(|at| format!("{at}: {what}"));
    assert_eq!(flaws(&text), due);
    let kept = format!("names\nusers {user}\n");
    let flaws = Lent::read(&kept).expect_err("it is too long");
    assert_eq!(lines(flaws), [format!("2:7: {what}")]);
}

/// Names that are too many are known all the same, and a message lists eight.
#[test]
fn names_past_the_limit() {
    let kinds: String = (1..=40).map(|n| format!("kind k{n}\n")).collect();
    let text = format!("clinic 1\n{kinds}role r: send k40, z\n");
    let found = flaws(&text);
    assert_eq!(found.len(), 9);
    assert_eq!(found[0], "34:6: one kind too many: a clinic has at most 32");
    let listed = (1..=8).map(|n| format!("k{n}, ")).collect::<String>();
    assert_eq!(
        found[8],
        format!("42:19: there is no kind 'z' (kinds: {listed}...)")
    );
    let bound: String = (1..=9).map(|n| format!("  new v{n}: k\n")).collect();
    let found = flaws(&format!("{HEAD}session s by u\n{bound}  send v9 on z\n"));
    assert_eq!(found.len(), 2);
    let listed = (1..=8).map(|n| format!("v{n}, ")).collect::<String>();
    let due = "there is no user, channel or variable 'z' here (variables bound here: ";
    assert_eq!(found[1], format!("16:14: {due}{listed}...)"));
}
