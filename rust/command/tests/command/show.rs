//! `show FILE`.

use crate::common::{example, pilzdamo, pilzdamo_fed, sentence};
use crate::draft::*;
use crate::files;

const BOOKING: &str = "\
check: refused 13, marked !!; it has no on or off yet: place it
length: 82 bytes
version: 1
counts: 2 users, 2 roles, 2 kinds, 2 channels, 1 session, 3 nodes
offsets: users 13, roles 15, kinds 23, channels 25, sessions 29, nodes 32
on steps: 0

user 1: roles 1, 2
user 2: no role

role 1: sends on kind 1; receives on no kind
role 2: sends on kinds 1, 2; receives on no kind

kind 1 carries a plain value
kind 2 carries a plain value

channel 1: owner user 2, kind 1
channel 2: owner user 2, kind 2

session 1: user 1, no role at the start, root 1
        node  held  step
           1  -     send user 2 on channel 1
!! Refused 13: no active role permits the step at node 1, a send. (the routine's author)
           2  -     send user 2 on channel 2
           3  -     end
";

const HEAD_NURSE: &str = "\
check: refused 13, marked !!; it has no on or off yet: place it
length: 168 bytes
version: 2
counts: 4 users, 3 roles, 3 kinds, 3 channels, 3 sessions, 11 nodes
offsets: users 14, roles 18, juniors 30, kinds 33, channels 36, sessions 42, nodes 51
on steps: 0

user 1: role 2
user 2: role 1
user 3: role 3
user 4: no role

role 1: sends on kinds 1, 2; receives on no kind
role 2: sends on kind 3; receives on no kind; junior: role 1
role 3: sends on no kind; receives on kinds 1, 2, 3

kind 1 carries a plain value
";

const PLACED_SESSION: &str = "
session 1: user 1, no role at the start, root 1
        node  held  step
  +2       1  -     on role 2
           2  2     send user 2 on channel 1
           3  2     send user 2 on channel 2
  -2       4  2     off role 2
           5  -     end
";

const TRANSFER: &str = "
session 2: user 2, no role at the start, root 11
        node  held  step
          11  -     new channel of kind 2 as variable 1
  +1      12  -     on role 1
          13  1     fork, second child 17
          14  1     |- send variable 1 on channel 1
  -1      15  1     |  off role 1
          16  -     |  end
          17  1     '- receive variable 2 on variable 1
  -1      18  1        off role 1
          19  -        compare variable 2 with user 4
          20  -        end

session 3: user 3, no role at the start, root 21
        node  held  step
          21  -     repeat
  +2      22  -     '- on role 2
          23  2        receive variable 1 on channel 1
          24  2        send user 4 on variable 1
  -2      25  2        off role 2
          26  -        end
";

/// Asserts that the refusal is marked after these lines, with its place.
fn assert_marked(text: &str, lines: &str, number: u16, place: &str) {
    let due = format!("{lines}!! {} (", sentence(number, place));
    assert!(text.contains(&due), "{text}");
}

#[test]
fn a_bare_file() {
    let answer = pilzdamo(&["show", &example("booking.clinic")]);
    assert_eq!((answer.status, answer.err.as_str()), (0, ""));
    assert_eq!(answer.text(), BOOKING);
}

#[test]
fn a_file_with_juniors() {
    let answer = pilzdamo(&["show", &example("head-nurse/juniors.clinic")]);
    assert_eq!((answer.status, answer.err.as_str()), (0, ""));
    assert!(answer.text().starts_with(HEAD_NURSE), "{}", answer.text());
}

/// The text for the booking's tables with these masks of juniors.
fn shown_with(juniors: &[&[u16]]) -> String {
    command::show::text(&files::booking().juniors(juniors).bytes())
}

#[test]
fn juniors() {
    let text = shown_with(&[&[], &[]]);
    assert!(!text.contains("; junior"), "{text}");
    let text = shown_with(&[&[], &[1, 2, 3, 16]]);
    let due = "; receives on no kind; \
               juniors: roles 1, 2 (not lower), 3 (out of count), 16 (out of count)\n\
               !! Refused 21: a junior role's number is not lower than its senior's at word 25. \
               (the schema's keeper)\n";
    assert!(text.contains(due), "{text}");
    // A 6 further after comes first.
    let mut draft = files::booking().juniors(&[&[1], &[]]);
    draft.channels[1] = [2, 3];
    let text = command::show::text(&draft.bytes());
    assert_marked(&text, "kind 3 (out of count)\n", 6, "word 30");
}

#[test]
fn files_of_version_2_cut_short() {
    let whole = files::booking().juniors(&[&[], &[1]]).bytes();
    let text = command::show::text(&whole[..26]);
    assert!(text.contains("length: 26 bytes\n!! Refused 1: "), "{text}");
    assert!(
        text.contains("\nversion: 2\nhead: 2 2 2 2 2 1 3 14 16 24 26 28 32\n"),
        "{text}"
    );
    let text = command::show::text(&whole[..28]);
    assert!(
        text.contains("length: 28 bytes (88 by the counts)\n!! Refused 5: "),
        "{text}"
    );
    let text = command::show::text(&whole[..50]);
    assert!(
        text.contains("\n(the file ends here; 1 junior mask missing)\n\n"),
        "{text}"
    );
    let mut wrong = whole.clone();
    wrong[18] += 1;
    let text = command::show::text(&wrong);
    let due = "roles 16, juniors 25 (24 is due), kinds 26, channels 28, sessions 32, nodes 35\n\
               !! Refused 4: ";
    assert!(text.contains(due), "{text}");
}

#[test]
fn placed_files() {
    let placed = pilzdamo(&["place", &example("booking.clinic")]).out;
    let shown = pilzdamo_fed(&["show", "-"], &placed);
    assert_eq!(shown.status, 0);
    assert!(shown
        .text()
        .starts_with("check: passes\nlength: 94 bytes\n"));
    assert!(shown.text().contains("\non steps: 1\n"));
    assert!(shown.text().ends_with(PLACED_SESSION));
    let placed = pilzdamo(&["place", &example("transfer.clinic")]).out;
    assert!(command::show::text(&placed).ends_with(TRANSFER));
}

/// The text for the booking's tables with these nodes in one session.
fn shown(nodes: &[[u16; 3]]) -> String {
    let mut draft = files::booking();
    draft.nodes = nodes.to_vec();
    command::show::text(&draft.bytes())
}

#[test]
fn operands_and_fields() {
    let text = shown(&[
        [2, 5, 0],
        new(0),
        new(3),
        receive(channel(9)),
        compare(9, variable(4)),
        send(385, 0),
        on(17),
        [8, 1, 7],
        [0, 1, 2],
    ]);
    let rows = [
        "repeat (f1 is 5, due is 0)",
        "'- new channel of kind 0 (there is none) as variable 1",
        "   new channel of kind 3 (out of count) as variable 2",
        "   receive variable 3 on channel 9 (out of count)",
        "   compare user 9 (out of count) with variable 4 (not bound here)",
        "   send 0 (names nothing) on 385 (names nothing)",
        "   on role 17 (out of count)",
        "   off role 1 (f2 is 7, due is 0)",
        "   end (f1 is 1 and f2 is 2, due is 0)",
    ];
    for (node, row) in (1..).zip(rows) {
        assert!(
            text.contains(&format!("{node}  -     {row}\n")),
            "{row}\n{text}"
        );
    }
    assert!(text.contains("\n  +?       7  -  "), "{text}");
}

#[test]
fn a_ninth_variable() {
    let mut nodes = vec![new(1); 9];
    nodes.push(END);
    let text = shown(&nodes);
    let due = "9  -     new channel of kind 1 as variable 9 (at most 8)\n";
    assert_marked(&text, due, 8, "node 9");
}

#[test]
fn a_tree_past_the_last_node() {
    let text = shown(&[fork(3), END]);
    let due = "2  -     |- end\n  (the tree runs past the last node)\n";
    assert_marked(&text, due, 8, "node 3");
}

#[test]
fn a_session_with_no_node() {
    let mut draft = files::booking();
    draft.sessions.push([1, 0, 4]);
    let text = command::show::text(&draft.bytes());
    let due = "session 2: user 1, no role at the start, root 4\n  \
               (no node is left for it)\n";
    assert_marked(&text, due, 8, "node 4");
}

#[test]
fn a_wrong_root() {
    let mut draft = files::booking();
    draft.sessions[0][2] = 2;
    let text = command::show::text(&draft.bytes());
    assert!(text.contains("root 2 (1 is due)\n"), "{text}");
    let due = "1  -     send user 2 on channel 1\n";
    assert_marked(&text, due, 8, "node 1");
}

#[test]
fn nodes_in_no_tree() {
    let text = shown(&[END, on(2), send(channel(1), 2)]);
    let due = "
nodes in no tree that can be followed
        node  held  step
  +2       2  ?     on role 2
";
    assert_marked(&text, due, 8, "node 2");
}

#[test]
fn a_tag_that_says_nothing() {
    let mut draft = files::booking();
    draft.nodes = vec![[9, 1, 2], receive(channel(1)), END];
    draft.sessions.push([1, 0, 2]);
    let text = command::show::text(&draft.bytes());
    let due = "           1  -     tag 9, f1 1, f2 2 (no such tag)\n";
    assert_marked(&text, due, 8, "node 1");
    assert!(
        text.contains("  (the tree can't be followed from here)\n"),
        "{text}"
    );
    assert!(text.contains("root 2 (not followed)\n"), "{text}");
    assert!(
        text.contains("           2  ?     receive a variable on channel 1\n"),
        "{text}"
    );
}

#[test]
fn files_cut_short() {
    let whole = files::booking().bytes();
    let text = command::show::text(&whole[..70]);
    assert!(
        text.contains("length: 70 bytes (82 by the counts)\n!! Refused 5: "),
        "{text}"
    );
    assert!(
        text.ends_with("(the file ends here; 2 nodes missing)\n"),
        "{text}"
    );
    let text = command::show::text(&whole[..40]);
    assert!(
        text.contains("\n(the file ends here; 1 role missing)\n"),
        "{text}"
    );
    assert!(
        text.contains("\n(the file ends here; 1 session missing)\n"),
        "{text}"
    );
    let text = command::show::text(&whole[..7]);
    assert!(text.contains("length: 7 bytes\n!! Refused 1: "), "{text}");
    assert!(text.contains("\nhead: 1 2 2\n"), "{text}");
    let text = command::show::text(&whole[..1]);
    assert!(text.contains("length: 1 byte\n!! Refused 1: "), "{text}");
}

/// A role held through a fork is held in each branch on its own.
#[test]
fn roles_held() {
    let text = shown(&[on(1), on(2), fork(6), off(1), END, off(2), END]);
    for row in [
        "  +2       2  1     on role 2",
        "           3  1,2   fork, second child 6",
        "  -1       4  1,2   |- off role 1",
        "           5  2     |  end",
        "  -2       6  1,2   '- off role 2",
        "           7  1        end",
    ] {
        assert!(text.contains(&format!("{row}\n")), "{row}\n{text}");
    }
}
