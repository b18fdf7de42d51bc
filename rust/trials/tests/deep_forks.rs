//! Forks below forks, up to 1,024 of them.

use second::draft::Draft;
use trials::agreed;

/// A tree of `forks` forks, each the first child of the one above it, and then
/// `ends` ends. All second children are as they should be.
fn forks_then_ends(forks: u16, ends: u16) -> Draft {
    let fork = |number: u16| [1, 2 * forks + 2 - number, 0];
    Draft {
        users: vec![[0]],
        sessions: vec![[1, 0, 1]],
        nodes: (1..=forks)
            .map(fork)
            .chain((0..ends).map(|_| [0, 0, 0]))
            .collect(),
        ..Draft::default()
    }
}

fn place(draft: &Draft, what: &str) -> u16 {
    let nodes = draft.nodes.len();
    agreed(&draft.bytes(), format_args!("{what} in {nodes} nodes")).1
}

#[test]
fn all_second_children_right() {
    for forks in [1, 2, 3, 99, 255, 256, 257, 510, 511, 512, 513, 1023, 1024] {
        for ends in [0, 1, 2, forks - 1, forks, forks + 1, forks + 2] {
            let nodes = forks + ends;
            if nodes > 1024 {
                continue;
            }
            let due = match ends {
                _ if ends <= forks => nodes + 1,
                _ if ends == forks + 1 => 0,
                _ => nodes,
            };
            let draft = forks_then_ends(forks, ends);
            assert_eq!(place(&draft, "right"), due, "{forks} forks, {ends} ends");
        }
    }
}

#[test]
fn one_second_child_wrong() {
    for (forks, ends) in [
        (3, 4),
        (511, 512),
        (511, 513),
        (512, 512),
        (600, 424),
        (1023, 1),
    ] {
        for wrong in [1, 2, forks / 2, forks - 1, forks] {
            let mut draft = forks_then_ends(forks, ends);
            draft.nodes[usize::from(wrong) - 1][1] += 1;
            // Only the forks whose first tree ends are judged.
            let judged = wrong + ends > forks;
            let whole = forks_then_ends(forks, ends);
            let due = if judged {
                wrong
            } else {
                place(&whole, "right")
            };
            assert_eq!(place(&draft, "wrong"), due, "fork {wrong} of {forks}");
        }
    }
}
