//! The sum in a file of names: the same for the placed file, another for another order.

use text::{pack, stripped, sum, Lent};

const TEXT: &str = "\
clinic 1
kind answer
kind request carries answer
role caller: send request; receive answer
role keeper: send answer; receive request
user nurse: caller
user desk: keeper
user bed4
user bed5
channel inbox: request, owner desk
channel outbox: request, owner desk

session ask by nurse
  new reply: answer
  fork
    branch
      send reply on inbox
    branch
      receive found on reply

session cancel by nurse
  new first: answer
  new second: answer
  send first on outbox
  compare bed4 with bed5
";

fn of(text: &str) -> u64 {
    sum(&pack(text).expect("a text").records)
}

fn swapped(one: &str, other: &str) -> String {
    assert!(TEXT.contains(one) && TEXT.contains(other), "{one}{other}");
    let held = TEXT.replace(one, "\0");
    held.replace(other, one).replace('\0', other)
}

/// FNV-1a over the words of the records, written out.
#[test]
fn as_the_page_says() {
    let text = "clinic 2\nkind k\nrole r: send k\nrole s: receive k; juniors r\nuser u: s\n\
        channel c: k, owner u\nsession t by u as s\n  fork\n    branch\n      on s\n      receive v on c\n    branch\n";
    let words: [u16; 33] = [
        1, 2, 1, 1, 1, // users, roles, kinds, channels, sessions
        2, // u
        1, 0, 0, 0, 0, // r
        0, 0, 1, 0, 1, // s
        0, // k
        1, 1, // c
        1, 2, // t
        1, 0, 0, // fork
        5, 257, 0, // receive
        0, 0, 0, // end
        0, 0, 0, // end
    ];
    let bytes = words.iter().flat_map(|word| word.to_le_bytes());
    let due = bytes.fold(0xcbf2_9ce4_8422_2325_u64, |sum, byte| {
        (sum ^ u64::from(byte)).wrapping_mul(0x100_0000_01b3)
    });
    assert_eq!(of(text), due);
}

#[test]
fn another_order_has_another_sum() {
    let own = of(TEXT);
    for (one, other) in [
        ("kind answer\n", "kind request carries answer\n"),
        (
            "role caller: send request; receive answer\n",
            "role keeper: send answer; receive request\n",
        ),
        ("user nurse: caller\n", "user desk: keeper\n"),
        ("user bed4\n", "user bed5\n"),
        (
            "channel inbox: request, owner desk\n",
            "channel outbox: request, owner desk\n",
        ),
        ("  new first: answer\n", "  new second: answer\n"),
    ] {
        let other = swapped(one, other);
        assert_ne!(of(&other), own, "{other}");
    }
    let (tables, sessions) = TEXT.split_once("\n\n").expect("a blank line");
    let (first, second) = sessions.split_once("\n\n").expect("two sessions");
    let other = format!("{tables}\n\n{second}\n{first}\n");
    assert_ne!(of(&other), own, "{other}");
}

/// Names alone, comments, the version and on and off don't change it.
#[test]
fn what_it_leaves_out() {
    let own = of(TEXT);
    assert_eq!(of(&TEXT.replace("nurse", "ward")), own);
    assert_eq!(of(&TEXT.replace("clinic 1", "# one\n\nclinic 3")), own);
    let placed = TEXT
        .replace("  fork\n", "  on caller\n  fork\n")
        .replace("on inbox\n", "on inbox\n      off caller\n")
        .replace("on reply\n", "on reply\n      off caller\n")
        .replace("  send first", "  on caller\n  send first");
    assert_eq!(of(&placed), own);
    let packed = pack(&placed).expect("a text");
    assert_eq!(stripped(&placed, &packed), TEXT);
    let nothing = of("clinic nothing planned\n");
    assert_eq!(of("clinic 1\n"), nothing);
}

#[test]
fn lines_that_are_no_sum() {
    let read = |line: &str| Lent::read(&format!("names\n{line}\n"));
    let sum = read("sum 0123456789ABCDEF").expect("a sum").sum;
    assert_eq!(sum, Some(0x0123_4567_89ab_cdef));
    assert_eq!(read("kinds sum").expect("names").sum, None);
    let due = "a sum: 16 digits from 0 to 9 and a to f";
    for (line, what) in [
        ("sum", format!("expected {due}, but the line ends")),
        ("sum 0", format!("expected {due}, not '0'")),
        (
            "sum 0123456789abcdeg",
            format!("expected {due}, not '0123456789abcdeg'"),
        ),
        (
            "sum 0123456789abcdef 0",
            "expected the end of the line, not '0'".to_string(),
        ),
        (
            "sum 0123456789abcdef\nsum 0123456789abcdef",
            "a second sum".to_string(),
        ),
    ] {
        let flaws = read(line).expect_err("no sum");
        assert_eq!(flaws.len(), 1, "{line}");
        assert_eq!(flaws[0].what, what, "{line}");
    }
}
