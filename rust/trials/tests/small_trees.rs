//! All small lists of nodes, over what matters to their shape.

use second::draft::Draft;
use trials::agreed;

/// What each of `count` nodes can be.
fn choices(count: u16) -> Vec<[u16; 3]> {
    let forks = (2..=count + 1).map(|second| [1, second, 0]);
    let others = [[0, 0, 0], [0, 1, 0], [2, 0, 0], [3, 1, 0], [9, 0, 0]];
    others.into_iter().chain(forks).collect()
}

/// A clinic with this many sessions, each of whose roots is `root` but for
/// the first, which is 1.
fn clinic(sessions: usize, root: u16) -> Draft {
    let mut draft = Draft {
        users: vec![[0]],
        kinds: vec![[0]],
        sessions: vec![[1, 0, root]; sessions],
        ..Draft::default()
    };
    if let Some(first) = draft.sessions.first_mut() {
        first[2] = 1;
    }
    draft
}

/// Tries all lists of `count` nodes after `binders` binders; gives the number
/// of lists and how many of them pass.
fn try_all(draft: &mut Draft, binders: u16, count: u16) -> (u64, u64) {
    let choices = choices(binders + count);
    let (mut tried, mut clean) = (0, 0);
    for list in 0..choices.len().pow(count.into()) {
        draft.nodes.truncate(binders.into());
        let mut rest = list;
        for _ in 0..count {
            draft.nodes.push(choices[rest % choices.len()]);
            rest /= choices.len();
        }
        let answer = agreed(&draft.bytes(), format_args!("{draft:?}"));
        tried += 1;
        clean += u64::from(answer == (0, 0));
    }
    (tried, clean)
}

/// Goes over 0 to 2 sessions with any second root, and 0 to `most` nodes.
fn try_up_to(binders: u16, most: u16) {
    let (mut tried, mut clean) = (0, 0);
    for count in 0..=most {
        for sessions in 0..=2 {
            let last = if sessions < 2 { 1 } else { binders + count + 2 };
            for root in 1..=last {
                let mut draft = clinic(sessions, root);
                draft.nodes = vec![[3, 1, 0]; binders.into()];
                let (more, well) = try_all(&mut draft, binders, count);
                tried += more;
                clean += well;
            }
        }
    }
    println!("{tried} lists of nodes behind {binders} binders, {clean} pass");
    assert!(clean > 10);
}

#[test]
fn small_trees() {
    try_up_to(0, 5);
}

#[test]
fn small_trees_below_seven_binders() {
    try_up_to(7, 3);
}
