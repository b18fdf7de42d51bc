//! Names that fit a file, and refusals in numbers.

use text::{misfit, pack, unpack_named, why_in_numbers, Names};

const TEXT: &str = "\
clinic 1
kind answer
kind request carries answer
role caller: send request
user nurse: caller
user desk
channel inbox: request, owner desk

session ask by nurse
  new reply: answer
  send reply on inbox

session serve by desk
  receive back on inbox
";

#[test]
fn names_fit_their_own_file_and_no_other() {
    let packed = pack(TEXT).expect("a text");
    let (file, names) = (packed.bytes(), packed.names);
    assert_eq!(misfit(&file, &names), None);
    let wrong = |change: fn(&mut Names)| {
        let mut names = names.clone();
        change(&mut names);
        assert_eq!(unpack_named(&file, &names), None);
        misfit(&file, &names).expect("a misfit")
    };
    assert_eq!(
        wrong(|names| names.kinds.push("third".to_string())),
        "they have 3 kinds, and the file has 2"
    );
    assert_eq!(
        wrong(|names| names.sessions.clear()),
        "they have 0 sessions, and the file has 2"
    );
    assert_eq!(
        wrong(|names| names.sessions[0].variables.clear()),
        "session ask has 0 variables in them, and 1 in the file"
    );
    assert_eq!(
        wrong(|names| names.users[1] = "inbox".to_string()),
        "'inbox' is the name of a user already"
    );
    assert_eq!(
        wrong(|names| names.users[1] = "fork".to_string()),
        "expected a name for the user: 'fork' is a reserved word"
    );
    assert_eq!(
        wrong(|names| names.roles[0] = "a, b".to_string()),
        "expected ':' or the end of the line, not ','"
    );
}

/// Where 1 to 5 refuse a file there is nothing to compare, and where 6 to 9 do, only the
/// counts are.
#[test]
fn damaged_files() {
    let packed = pack(TEXT).expect("a text");
    let (mut file, names) = (packed.bytes(), packed.names);
    assert_eq!(misfit(&file[1..], &names), None);
    assert_eq!(misfit(&[], &Names::default()), None);
    // The first node has a tag that there isn't.
    let nodes = usize::from(file[24]) * 2;
    file[nodes] = 9;
    assert_eq!(misfit(&file, &names), None);
    let fewer = Names {
        users: Vec::new(),
        ..names
    };
    let due = "they have 0 users, and the file has 2";
    assert_eq!(misfit(&file, &fewer).as_deref(), Some(due));
    assert_eq!(why_in_numbers(&file, 10, 1), None);
}

#[test]
fn refusals_in_numbers() {
    let file = pack(TEXT).expect("a text").bytes();
    let told = |number, place| why_in_numbers(&file, number, place).expect("a culprit");
    assert_eq!(
        told(13, 2),
        "user 1 has no role on that may send on kind 2 (roles on: none; roles that may: role 1)"
    );
    assert_eq!(
        told(15, 4),
        "user 2 has no role that may receive on kind 2 (roles that may: none)"
    );
    let other = TEXT.replace("send reply on inbox", "compare reply with inbox");
    let file = pack(&other).expect("a text").bytes();
    assert_eq!(
        why_in_numbers(&file, 10, 2).expect("a culprit"),
        "variable 1 is a channel of kind 1, and channel 1 is a channel of kind 2"
    );
}
