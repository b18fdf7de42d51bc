//! Texts with seats, and texts that are handed on as bytes.

use crate::common::{example, pilzdamo, pilzdamo_fed, sentence, Folder};

/// Two sessions that want one role; each forks once it has it.
const TWO: &str = "\
clinic 1
role holder
user one: holder
user two: holder

session first by one
  on holder
  off holder

session second by two
  on holder
  fork
    branch
      off holder
    branch
      off holder
";

fn files(folder: &Folder) -> [String; 2] {
    [
        folder.file("two.txt", TWO),
        folder.file("one.seats", "# one\nholder 1\n"),
    ]
}

#[test]
fn lists_in_names_and_in_numbers() {
    let folder = Folder::new("asked in names");
    let (text, bytes) = (folder.at("asked.txt"), folder.at("asked.clinic"));
    let place = ["place", &example("seats/asked.txt"), "-o"];
    assert_eq!(pilzdamo(&[&place[..], &[&text]].concat()).status, 0);
    let place = [&place[..], &[&bytes, "--bytes"]].concat();
    assert_eq!(pilzdamo(&place).status, 0);
    let seats = example("seats/one-holder.seats");
    let lists = ["one-by-one.choices", "one-by-one-named.choices"];
    let lists = lists.map(|name| example(&format!("seats/{name}")));
    let [numbers, names] = lists.each_ref().map(|list| pilzdamo(&["run", &text, list]));
    assert_eq!((numbers.status, names.status), (0, 0), "{}", names.err);
    assert_eq!(names.text(), numbers.text());
    for due in [
        "\n  2 book2: scheduler2, line 35 (send bed on bookings), as holder; reply = made channel 2, bed = bed5\n",
        "\n  7 serve1.2: desk, line 65 (off desk), as desk; ",
        "\nrole holder: 1 seat, taken by 1 session\n",
    ] {
        assert!(names.text().contains(due), "{}", names.text());
    }
    // Of bytes the sessions are s1, s2 and so on, and the rest is in numbers.
    let invented = b"s3 s4 s5 s6 s1 s2 s1 s2";
    let answer = pilzdamo_fed(&["seats", &bytes, "-", &seats], invented);
    let due = "role 2: 1 seat, taken by 1 session, in line: session 2\n";
    assert!(answer.text().contains(due), "{}", answer.text());
}

/// A choice that gets no seat leaves its thread where it is.
#[test]
fn who_waits_has_no_more_threads() {
    let folder = Folder::new("text that waits");
    let [file, seats] = files(&folder);
    let seated = |verb: &str, list: &str| {
        let words = [verb, &file, "-", "--seats", &seats];
        pilzdamo_fed(&words, list.as_bytes())
    };
    let answer = seated("run", "first second second");
    let due = "\
choices done: 3
threads: 2
  1 first: one, line 8 (off holder), as holder
  2 second: two, line 11 (on holder), no role
made channels: 0
role holder: 1 seat, taken by 1 session, in line: session second
choices that got no seat: 2
";
    assert!(answer.text().starts_with(due), "{}", answer.text());
    let answer = seated("run", "first second second second.2");
    assert_eq!(answer.status, 1);
    let due =
        "standard input:1:21: refused 18: there is no thread second.2 here (threads: first, second)\n";
    assert!(answer.err.starts_with(due), "{}", answer.err);
    let freed = "first second first second second second.2";
    let answer = seated("run", freed);
    assert_eq!(answer.status, 0, "{}", answer.err);
    let due = "\n  3 second.2: two, the end after line 16, no role\n";
    assert!(answer.text().contains(due), "{}", answer.text());
    // Where the list halts, its threads stand as the seats left them.
    let answer = seated("run", "first second second -> first");
    let due = "standard input:1:14: refused 18: second stands at line 11 (on holder), and first stands at line 8 (off holder); a step that is no send takes no partner: second\n";
    assert!(answer.err.starts_with(due), "{}", answer.err);
    let answer = seated("round", "");
    let due = "round: first  second\n";
    assert!(answer.text().starts_with(due), "{}", answer.text());
    let due = "\n  2 second: two, line 11 (on holder), no role\n";
    assert!(answer.text().contains(due), "{}", answer.text());
}

#[test]
fn refusals_at_their_places() {
    let folder = Folder::new("text without seats");
    let [_, seats] = files(&folder);
    let file = folder.file("start.txt", TWO.replace(" by two", " by two as holder"));
    let both = folder.file(
        "both.txt",
        TWO.replace(" by one", " by one as holder")
            .replace(" by two", " by two as holder"),
    );
    let answer = pilzdamo_fed(&["seats", &file, "-", &seats], b"");
    assert_eq!(answer.status, 0, "{}", answer.err);
    let answer = pilzdamo_fed(&["seats", &both, "-", &seats], b"first");
    assert_eq!((answer.status, answer.text()), (1, ""));
    let due = format!(
        "{both}:10:26: refused 26: two starts as holder, and the sessions above leave no seat\n"
    );
    assert!(answer.err.starts_with(&due), "{}", answer.err);
    let due = sentence(26, "session 2");
    assert!(answer.err.contains(&due), "{}", answer.err);
}

/// What is written of a text is what is written of its bytes.
#[test]
fn handed_on_as_bytes() {
    let [text, bytes] = ["txt", "clinic"].map(|end| example(&format!("head-nurse/juniors.{end}")));
    for words in [&["columns"][..], &["notice", "2026-12-01"], &["sheet"]] {
        let [one, other] = [&text, &bytes].map(|file| pilzdamo(&[words, &[file]].concat()));
        assert_eq!((one.status, one.out), (0, other.out), "{words:?}");
    }
    let rows = pilzdamo(&["rows", &example("head-nurse/columns.txt")]);
    assert_eq!(rows.out, std::fs::read(&bytes).expect("the file"));
    let booking = example("booking.txt");
    let answer = pilzdamo(&["columns", &booking]);
    assert_eq!((answer.status, answer.text()), (1, ""));
    let due = format!("{booking}:2:1: refused 2: version 1 can't be used here\n");
    assert!(answer.err.starts_with(&due), "{}", answer.err);
    let due = "only files of version 2 are turned to columns\n";
    assert!(answer.err.ends_with(due), "{}", answer.err);
}
