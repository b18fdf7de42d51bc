//! What another ward can change in a session that is placed: the two files of
//! `examples/wards`.

use crate::common::{pilzdamo_fed, placed};

/// The lines of a session in a placed file, with node numbers counted from its root.
fn session(name: &str, number: u16) -> Vec<String> {
    let shown = pilzdamo_fed(&["show", "-"], &placed(name));
    let start = format!("session {number}: user 1, no role at the start, root ");
    let mut lines = shown
        .text()
        .lines()
        .skip_while(|line| !line.starts_with(&start));
    let root = lines.next().expect("the session").rsplit(' ').next();
    let root: u16 = root.expect("its root").parse().expect("a number");
    let counted = |word: &str| match word.parse::<u16>() {
        Ok(node) if node >= root && !word.starts_with('+') => format!("#{}", node - root),
        _ => word.to_string(),
    };
    let lines = lines.skip(1).take_while(|line| !line.is_empty());
    lines
        .map(|line| {
            let (step, second) = match line.split_once("second child ") {
                Some((step, second)) => (step, counted(second)),
                None => (line, String::new()),
            };
            let (margin, rest) = step.split_at(12);
            let words: Vec<_> = margin.split_whitespace().map(counted).collect();
            format!("{} {rest}{second}", words.join(" "))
        })
        .collect()
}

#[test]
fn the_surgeons_session_is_placed_alike() {
    let before = session("wards/before.clinic", 1);
    let after = session("wards/after.clinic", 3);
    assert_eq!(before, after);
    assert_eq!(before.len(), 10);
}
