//! A desk that goes on choice by choice is in the states of the run.

use pilzdamo::{Channel, Desk, State, Thread, Verdict, BESIDE, RECORDS, RUN_ROOM, TOTALS};
use std::fs;

fn example(name: &str) -> Vec<u8> {
    let path = format!("{}/../../examples/{name}", env!("CARGO_MANIFEST_DIR"));
    fs::read(path).expect("an example")
}

/// The numbers of a list of choices in text.
fn choices(name: &str) -> Vec<u16> {
    let text = String::from_utf8(example(name)).expect("text");
    let lines = text.lines().flat_map(|line| line.split('#').next());
    let words = lines.flat_map(str::split_whitespace);
    words.map(|word| word.parse().expect("a number")).collect()
}

fn placed(name: &str) -> Vec<u8> {
    let (file, _) = pilzdamo::placed(&example(name)).expect("it can be placed");
    file
}

fn state(file: &[u8], choices: &[u16]) -> State {
    let mut out = [0; RUN_ROOM];
    let _ = pilzdamo::run(file, choices, &mut out);
    State::of(&out).expect("a state")
}

/// What is compared of a desk and a state.
fn held(desk: &Desk) -> (Vec<Thread>, Vec<Channel>) {
    (desk.threads().to_vec(), desk.made().collect())
}

/// The totals that a desk has, by kind.
fn waiting(desk: &Desk) -> [u16; TOTALS] {
    std::array::from_fn(|at| desk.total(at as u16 + 1))
}

/// Goes through the list up to the choice that is refused, if there is one, and
/// gives its refusal and place.
fn go_through(file: &[u8], choices: &[u16]) -> Option<(u16, usize)> {
    let mut desk = Desk::start(file).expect("a file to run");
    for (done, &[thread, partner]) in choices.as_chunks().0.iter().enumerate() {
        let before = state(file, &choices[..2 * done]);
        assert_eq!(held(&desk), (before.threads, before.made));
        let totals = pilzdamo::totals(file, &choices[..2 * done]);
        assert_eq!((totals.number, totals.totals), (0, waiting(&desk)));
        if let Err(refusal) = desk.choose(thread, partner) {
            let halted = state(file, choices);
            assert_eq!(
                (usize::from(halted.done), halted.refusal),
                (done, refusal.number)
            );
            assert_eq!(held(&desk), (halted.threads, halted.made));
            let totals = pilzdamo::totals(file, choices);
            assert_eq!(
                (totals.number, totals.totals),
                (refusal.number, waiting(&desk))
            );
            let whole = Desk::after(file, choices).expect_err("it halts");
            assert_eq!(usize::from(whole.place), done + 1);
            return Some((refusal.number, done + 1));
        }
    }
    let whole = Desk::after(file, choices).expect("all are done");
    assert_eq!(held(&desk), held(&whole));
    assert_eq!(waiting(&desk), waiting(&whole));
    None
}

#[test]
fn the_examples_choice_by_choice() {
    let cut = example("spring/cut.clinic");
    let bare = placed("spring/bare.clinic");
    for (file, list) in [
        (&placed("transfer.clinic"), "transfer.choices"),
        (&placed("desks.clinic"), "desks.choices"),
        (&cut, "spring/cut-both-read.choices"),
        (&cut, "spring/cut-both-write.choices"),
        (&cut, "spring/cut-one-by-one.choices"),
        (&bare, "spring/placed-both-read.choices"),
        (&bare, "spring/placed-one-by-one.choices"),
    ] {
        assert_eq!(go_through(file, &choices(list)), None, "{list}");
    }
}

#[test]
fn the_refused_examples_choice_by_choice() {
    let file = example("refused/choices.clinic");
    for (list, halt) in [
        ("refused/18-thread.choices", (18, 1)),
        ("refused/19-unequal.choices", (19, 2)),
        ("refused/20-thread.choices", (20, 63)),
    ] {
        assert_eq!(go_through(&file, &choices(list)), Some(halt), "{list}");
    }
}

#[test]
fn made_channels() {
    let file = placed("transfer.clinic");
    let desk = Desk::after(&file, &choices("transfer.choices")).expect("all are done");
    let made: Vec<_> = desk.made().map(|made| (made.owner, made.kind)).collect();
    assert_eq!(made, [(1, 2), (2, 2)]);
    assert_eq!(desk.made().len(), 2);
}

/// Nobody waits on a kind outside 1 to 32, and a desk that starts again has the
/// totals of its start.
#[test]
fn who_waits() {
    let file = placed("transfer.clinic");
    let list = choices("transfer.choices");
    let desk = Desk::after(&file, &list).expect("all are done");
    let totals = pilzdamo::totals(&file, &list);
    assert_eq!(totals.to_string(), "waiting: 1 on kind 2");
    for kind in 0..=u16::MAX {
        assert_eq!(desk.total(kind), totals.of(kind), "kind {kind}");
        assert_eq!(desk.total(kind), u16::from(kind == 2), "kind {kind}");
    }
    let start = Desk::start(&file).expect("a file to run");
    assert_eq!(waiting(&start), [0; TOTALS]);
}

/// What stood in a list before it starts.
const OLD: Thread = Thread {
    user: 7,
    node: 65_535,
    mask: 3,
    vars: [385; 8],
};

/// The answer to a start in lists of these lengths, and what it leaves.
fn start(file: &[u8], records: usize, words: usize) -> (Verdict, Vec<Thread>, Vec<u16>) {
    let (mut threads, mut beside) = (vec![OLD; records], vec![9; words]);
    let verdict = pilzdamo::start(file, &mut threads, &mut beside);
    (verdict, threads, beside)
}

#[test]
fn a_list_of_ones_own_starts_as_a_run_does() {
    for name in [
        "booking.clinic",
        "nothing.clinic",
        "transfer.clinic",
        "spring/cut.clinic",
        "refused/11-on.clinic",
    ] {
        let file = example(name);
        let (verdict, threads, beside) = start(&file, RECORDS, BESIDE);
        assert!(verdict.is_clean(), "{name}");
        let due = state(&file, &[]).threads;
        let (started, past) = threads.split_at(due.len());
        assert_eq!(started, due, "{name}");
        assert!(past.iter().all(|thread| *thread == OLD), "{name}");
        assert_eq!(beside[..2], [due.len() as u16, 0], "{name}");
        let (made, totals) = beside[2..].split_at(BESIDE - TOTALS - 2);
        assert!(made.iter().all(|word| *word == 9), "{name}");
        assert_eq!(totals, pilzdamo::totals(&file, &[]).totals, "{name}");
    }
}

#[test]
fn a_refused_start_writes_nothing() {
    let file = example("transfer.clinic");
    let kinds = example("refused/10-kinds.clinic");
    for (file, records, words, due) in [
        (&file, RECORDS - 1, BESIDE, "refused 18 0"),
        (&file, RECORDS + 1, BESIDE, "refused 18 0"),
        (&file, RECORDS, BESIDE - 1, "refused 18 0"),
        (&file, RECORDS, BESIDE + 1, "refused 18 0"),
        (&file, 0, 0, "refused 18 0"),
        (&kinds, RECORDS, BESIDE, "refused 10 2"),
        (&kinds, 0, 0, "refused 10 2"),
    ] {
        let (verdict, threads, beside) = start(file, records, words);
        assert_eq!(verdict.to_string(), due, "{records} records, {words} words");
        assert_eq!((threads, beside), (vec![OLD; records], vec![9; words]));
    }
}

/// 17 and 1 to 10 come before there is a desk.
#[test]
fn no_desk() {
    let refused = |file: &[u8], choices: &[u16]| {
        let refusal = Desk::after(file, choices).expect_err("no desk");
        (refusal.number, refusal.place)
    };
    let file = example("refused/choices.clinic");
    assert_eq!(refused(&file, &choices("refused/17-odd.choices")), (17, 0));
    assert_eq!(refused(&example("refused/08-tree.clinic"), &[]), (8, 1));
    assert_eq!(refused(&[1], &[]), (1, 0));
    for name in ["refused/08-tree.clinic", "refused/10-kinds.clinic"] {
        let file = example(name);
        let refusal = Desk::start(&file).expect_err("no desk");
        assert_eq!(refusal, pilzdamo::read(&file), "{name}");
    }
}

#[test]
fn no_state() {
    let file = placed("transfer.clinic");
    let mut out = [0; RUN_ROOM];
    assert!(pilzdamo::run(&file, &choices("transfer.choices"), &mut out).is_clean());
    // Six threads and two made channels.
    let length = 2 * (4 + 2 * 2 + 12 * 6);
    assert_eq!(State::of(&out[..length]), State::of(&out));
    for short in 0..length {
        assert_eq!(State::of(&out[..short]), None, "{short} bytes");
    }
    assert!(State::of(&[0; 8]).is_some_and(|state| state.threads.is_empty()));
}
