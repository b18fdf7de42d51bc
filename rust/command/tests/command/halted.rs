//! Why a run halts at a choice, in the words of `run` and of `why not`.

use crate::common::{pilzdamo_fed, sentence, Folder};
use crate::format;

/// What is said of the last choice of a list after `refused` and its number: by `run`, and
/// by `why not` after the others.
fn why(text: &str, list: &[&str]) -> String {
    let thread = std::thread::current();
    let folder = Folder::new(thread.name().expect("a test has a name"));
    let file = folder.file("why.txt", text);
    let run = pilzdamo_fed(&["run", &file, "-"], list.join("\n").as_bytes());
    assert_eq!(run.status, 1, "{}", run.err);
    let place = format!("standard input:{}:1: refused ", list.len());
    let first = run.err.lines().next().expect("a line");
    let why = first.strip_prefix(&place).expect(first);
    let [before @ .., last] = list else {
        panic!("no choice");
    };
    let before = folder.file("before", before.join("\n"));
    let typed = format!("why not {last}\n");
    let driven = pilzdamo_fed(&["run", "-i", &file, &before], typed.as_bytes());
    let said = format!("\nrefused {why}\n  Refused ");
    assert!(driven.err.contains(&said), "{}", driven.err);
    why.to_string()
}

/// `s` sends on `c` and `t` receives on `d`, both of kind `k`.
fn meeting(s: &str, t: &str) -> String {
    format!(
        "\
clinic 2
kind k
role r: send k
role q: receive k
role head: juniors r
user u: r, q, head
channel c: k, owner u
channel d: k, owner u

session s by u{s}
  send u on c

session t by u{t}
  receive x on d
"
    )
}

const AT: [&str; 2] = [
    "s stands at line 11 (send u on c)",
    "t stands at line 14 (receive x on d)",
];

#[test]
fn a_role_that_is_not_the_users() {
    let text = |roles| format!("clinic 1\nrole r\nrole q\nuser u{roles}\nsession s by u\n  on q\n");
    let at = "11: s stands at line 6 (on q); q isn't a role of u (roles of u: ";
    assert_eq!(why(&text(": r"), &["s"]), format!("{at}r)"));
    assert_eq!(why(&text(""), &["s"]), format!("{at}none)"));
}

#[test]
fn whose_role_is_missing() {
    let [s, t] = AT;
    let no_s = "s holds no role that may send on k (roles that may: r, head)";
    let no_t = "t holds no role that may receive on k (roles that may: q)";
    let cases = [
        (
            " as r",
            "",
            format!("{s}, holds r, and {t}, holds no role; {no_t}"),
        ),
        (
            " as head",
            " as r",
            format!("{s}, holds head, and {t}, holds r; {no_t}"),
        ),
        (
            "",
            " as q",
            format!("{s}, holds no role, and {t}, holds q; {no_s}"),
        ),
        (
            " as q",
            "",
            format!("{s}, holds q, and {t}, holds no role; {no_s}, and {no_t}"),
        ),
    ];
    for (one, other, due) in cases {
        assert_eq!(why(&meeting(one, other), &["s -> t"]), format!("13: {due}"));
    }
}

/// The kind of a channel that was made or received is known too, and that no role may.
#[test]
fn whose_role_is_missing_on_a_variable() {
    let text = format::placed().replace("role keeper: send answer; ", "role keeper: ");
    let list = ["ask", "ask", "ask", "serve", "serve.2", "ask -> serve.2"];
    let list = [&list[..], &["serve.2 -> ask.2"]].concat();
    let due = "13: serve.2 stands at line 27 (send bed on back), holds keeper, and ask.2 stands \
               at line 20 (receive found on reply), holds caller; serve.2 holds no role that may \
               send on answer (roles that may: none)";
    assert_eq!(why(&text, &list), due);
}

#[test]
fn threads_that_cannot_do_it() {
    let text = meeting(" as r", " as q");
    let [s, t] = AT;
    let sends = "a send takes a partner that stands at a receive";
    let cases = [
        ("s", format!("{s}; {sends}: s -> T")),
        ("1 0", format!("{s}; {sends}: s -> T")),
        ("s -> s", format!("{s}, and {s}; {sends}")),
        (
            "t",
            format!("{t}; a receive is not named first, its sender is: T -> t"),
        ),
        (
            "t -> t",
            format!("{t}, and {t}; a receive is not named first, its sender is: T -> t"),
        ),
        (
            "t -> s",
            format!("{t}, and {s}; the sender is named first: s -> t"),
        ),
        (
            "3 0",
            "there is no thread 3: the list has 2 threads".to_string(),
        ),
        (
            "s -> 9",
            format!("{s}, and there is no thread 9: the list has 2 threads"),
        ),
    ];
    for (choice, due) in cases {
        assert_eq!(why(&text, &[choice]), format!("18: {due}"), "{choice}");
    }
}

#[test]
fn a_step_that_takes_no_partner() {
    let text = "clinic 1\nuser u\nsession s by u\n  repeat\n";
    let s = "s stands at line 4 (repeat)";
    let alone = "a step that is no send takes no partner: s";
    assert_eq!(why(text, &["s -> s"]), format!("18: {s}, and {s}; {alone}"));
    let due = format!("18: {s}, and there is no thread 7: the list has 1 thread; {alone}");
    assert_eq!(why(text, &["s -> 7"]), due);
}

/// Of bytes the same is said in numbers, a line each.
#[test]
fn in_numbers() {
    let packed = pilzdamo_fed(&["pack", "-"], meeting(" as r", "").as_bytes());
    let folder = Folder::new("halted in numbers");
    let file = folder.file("why.clinic", packed.out);
    let answer = pilzdamo_fed(&["run", &file, "-"], b"1 2");
    let due = format!(
        "\
pilzdamo: {file}, standard input: {}
  choice 1: thread 1, partner 2
  thread 1 stands at node 1 (send user 1 on channel 1), holds role 1
  thread 2 stands at node 3 (receive variable 1 on channel 2), holds no role
  thread 2 holds no role that may receive on kind 1 (roles that may: role 2)
  the routine's author can mend it; more: pilzdamo explain 13
",
        sentence(13, "choice 1")
    );
    assert_eq!((answer.status, answer.err), (1, due));
    let answer = pilzdamo_fed(&["run", &file, "-"], b"2 1");
    let due = "\n  the sender is named first: 1 -> 2\n";
    assert!(answer.err.contains(due), "{}", answer.err);
}

/// A choice for which there is no room says how much there is.
#[test]
fn no_room() {
    let text = "clinic 1\nuser u\nsession s by u\n  repeat\n";
    let due = "20: s stands at line 4 (repeat); there are 64 threads and 0 made channels: at \
               most 64 of each";
    assert_eq!(why(text, &["s"; 64]), due);
}
