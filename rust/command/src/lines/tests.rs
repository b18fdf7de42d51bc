use super::*;

/// Two users put one role on.
const TWO: &str = "\
clinic 1
role holder
user one: holder
user two: holder
session first by one
  on holder
session second by two
  on holder
";

fn two() -> Input {
    match Input::of_text("two".to_string(), TWO.as_bytes()) {
        Ok(input) => input,
        Err(_) => panic!("it can't be read"),
    }
}

/// Who stands first in the line has the next seat, whoever else asks meanwhile.
#[test]
fn the_first_in_line_is_next() {
    let table = Table::of("seats", &[1]);
    let mut lines = Lines::of(&table);
    assert!(!lines.waits(1, 0, &[]));
    assert!(lines.waits(1, 1, &[0]));
    assert!(lines.waits(1, 2, &[0]));
    // The seat is free.
    assert!(lines.waits(1, 0, &[]));
    assert!(lines.waits(1, 2, &[]));
    assert!(!lines.waits(1, 1, &[]));
    assert_eq!((&lines.lines[&1][..], lines.waited), (&[2, 0][..], 4));
    // Who has the role already needs no seat.
    assert!(!lines.waits(1, 1, &[1]));
}

/// Lines, threads and what waited are each compared with the engine's.
#[test]
fn nothing_else_agrees() {
    let (input, table) = (two(), Table::of("seats", &[1]));
    let (Ok(start), Ok(after)) = (Desk::start(&input), Desk::after(&input, &[1, 0])) else {
        panic!("it can't be run");
    };
    let lines = |line: &[usize], waited| Lines {
        table: &table,
        lines: BTreeMap::from([(1, line.to_vec())]),
        waited,
    };
    let agree = |lines: Lines, desk| lines.agree(&input, &[1, 0, 2, 0], desk);
    assert!(agree(lines(&[1], 1), &after));
    assert!(!agree(lines(&[], 1), &after));
    assert!(!agree(lines(&[0], 1), &after));
    assert!(!agree(lines(&[1], 0), &after));
    assert!(!agree(lines(&[1], 1), &start));
}
