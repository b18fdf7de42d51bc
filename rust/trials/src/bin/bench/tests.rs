//! The inputs are what the tables say of them, and both answer them alike.

use crate::case::{Case, Input};
use crate::growth::{by_nodes, by_roles, NODES, ROLES};
use crate::inputs::{round_of, Inputs, Run};
use second::draft::{word_at, Draft};
use second::{Verdict, Version, RUN_ROOM};
use trials::{seed, sends_in, Lent, Seated, MOST_CHOICES};

fn nodes(file: &[u8]) -> usize {
    Draft::of(file).nodes.len()
}

fn roles(file: &[u8]) -> usize {
    Draft::of(file).roles.len()
}

#[test]
fn both_agree() {
    for case in Inputs::new(seed()).cases() {
        case.agree();
    }
}

#[test]
fn the_largest_are_as_large_as_can_be() {
    let inputs = Inputs::new(seed());
    let (run, choices) = &inputs.largest_run;
    for file in [
        &inputs.largest,
        &inputs.overfull_bare,
        run,
        &inputs.largest_lent.file,
        &inputs.largest_2,
        &inputs.largest_3,
    ] {
        assert_eq!(file.len(), Version::claimed(file).largest());
        assert_eq!((nodes(file), roles(file)), (1_024, 16));
    }
    assert_eq!(Version::claimed(&inputs.largest_2), Version::Two);
    assert_eq!(Version::claimed(&inputs.largest_3), Version::Three);
    assert_eq!(choices.len(), 2 * MOST_CHOICES);
    assert!(sends_in(run, choices) > 16_000);
    let Lent { lists, .. } = &inputs.largest_lent;
    assert_eq!((lists.beside[0], lists.beside[1]), (64, 64));
}

#[test]
fn what_is_placed_fills_the_output() {
    let inputs = Inputs::new(seed());
    for (file, nodes_before) in [
        (&inputs.largest_bare, Some(1_022)),
        (&inputs.largest_bare_2, Some(1_022)),
        (&inputs.largest_bare_3, Some(1_022)),
        (&inputs.full_bare, None),
    ] {
        assert!(nodes_before.is_none_or(|due| due == nodes(file)));
        assert_eq!(roles(file), 16);
        let (file, number) = (file.clone(), 0);
        let out = Case::new("place", Input::Place { file, number }, 1).agree();
        assert_eq!(nodes(&out), 1_024);
    }
    assert_eq!(Draft::of(&inputs.full_bare).sessions.len(), 32);
}

#[test]
fn the_typical_have_40_nodes() {
    let inputs = Inputs::new(seed());
    let (run, choices) = &inputs.typical_run;
    for file in [
        &inputs.typical,
        &inputs.typical_bare,
        run,
        &inputs.typical_lent.file,
        &inputs.typical_2,
        &inputs.typical_bare_2,
        &inputs.typical_3,
        &inputs.typical_bare_3,
    ] {
        assert_eq!((nodes(file), roles(file)), (40, 4));
    }
    assert_eq!(choices.len(), 2 * 40);
    assert!(sends_in(run, choices) >= 4);
}

/// Threads in the state that a list leads to.
fn threads(file: &[u8], choices: &[u16]) -> u16 {
    let mut out = [0; RUN_ROOM];
    assert_eq!(second::run(file, choices, &mut out), Verdict::CLEAN);
    word_at(&out, 2)
}

#[test]
fn rounds_have_their_threads_and_choices() {
    let inputs = Inputs::new(seed());
    for (run, count, sends) in [
        (&inputs.meeting_round, 64, 32),
        (&inputs.lone_round, 64, 0),
        (&inputs.crowded, 0, 0),
    ] {
        let (file, choices) = run;
        assert_eq!((threads(file, choices), choices.len()), (64, 2 * 32));
        let round = round_of(run);
        let met = round.iter().filter(|[_, partner]| *partner != 0);
        assert_eq!((round.len(), met.count()), (count, sends));
    }
    let (file, _) = &inputs.typical_round;
    assert_eq!((nodes(file), roles(file)), (40, 4));
    let round = round_of(&inputs.typical_round);
    assert!(round.len() >= 4 && round.iter().any(|[_, partner]| *partner != 0));
}

/// Threads wait where their totals are timed: half of the crowd, and some after the
/// typical run.
#[test]
fn totals_are_of_threads_that_wait() {
    let inputs = Inputs::new(seed());
    let waiting = |(file, choices): &Run| {
        let totals = second::totals(file, choices).totals;
        totals.iter().sum::<u16>()
    };
    assert_eq!(waiting(&inputs.crowded), 32);
    assert!(waiting(&inputs.typical_run) > 0);
}

/// Where runs with seats are timed some choices wait, but for the one with seats for all;
/// the long ones are as long as can be, and most of their choices are steps.
#[test]
fn seated_runs_wait() {
    let inputs = Inputs::new(seed());
    let told = |seated: &Seated| {
        let Seated { dealt, seats } = seated;
        let told = second::seats(&dealt.file, &dealt.choices, seats);
        (dealt.choices.len() / 2, usize::from(told.waited))
    };
    assert_eq!(told(&inputs.free_seated), (MOST_CHOICES, 0));
    let (choices, waited) = told(&inputs.largest_seated);
    assert_eq!(choices, MOST_CHOICES);
    assert!((1_000..MOST_CHOICES / 2).contains(&waited), "{waited}");
    let largest = &inputs.largest_seated.dealt;
    assert_eq!((nodes(&largest.file), roles(&largest.file)), (1_024, 16));
    let (choices, waited) = told(&inputs.typical_seated);
    assert!(choices == 40 && (2..20).contains(&waited), "{waited}");
    assert_eq!(nodes(&inputs.typical_seated.dealt.file), 40);
}

/// As many states as a model checker finds for the same routine.
#[test]
fn spring_has_4_033_states() {
    let certificate = Inputs::new(seed()).spring.certificate;
    assert_eq!(certificate.places.len(), 4_033);
}

#[test]
fn what_is_merged_is_as_large_as_can_be() {
    let inputs = Inputs::new(seed());
    let merged = |pair: &[Vec<u8>; 2]| Case::new("merge", Input::Merge(pair.clone()), 1).agree();
    let house = merged(&inputs.largest_pair);
    assert_eq!(house.len(), Version::One.largest());
    assert_eq!((nodes(&house), roles(&house)), (1_024, 16));
    assert_eq!(
        inputs.largest_pair.each_ref().map(|file| nodes(file)),
        [512; 2]
    );
    assert_eq!(nodes(&merged(&inputs.typical_pair)), 80);
}

#[test]
fn the_sheet_has_1_000_typical_files() {
    let (files, input) = Inputs::new(seed()).typical_sheet;
    assert_eq!(files.len(), 1_000);
    assert_eq!(input.len(), files.iter().map(|file| 2 + file.len()).sum());
    assert!(files
        .iter()
        .all(|file| (nodes(file), roles(file)) == (40, 4)));
    let sheet = second::sheet(&input);
    assert!(
        sheet.on_steps >= 1_000 && sheet.sessions == 4_000,
        "{sheet:?}"
    );
}

#[test]
fn the_full_sheet_has_1_000_full_files() {
    let (files, input) = Inputs::new(seed()).full_sheet;
    assert_eq!(files.len(), 1_000);
    assert_eq!(input.len(), files.iter().map(|file| 2 + file.len()).sum());
    for file in &files[..10] {
        assert_eq!(Draft::of(file).sessions.len(), 32);
        let (file, number) = (file.clone(), 0);
        let out = Case::new("place", Input::Place { file, number }, 1).agree();
        assert_eq!(nodes(&out), 1_024);
    }
    assert_eq!(second::sheet(&input).sessions, 32_000);
}

/// Each sender of the crowded round goes past all that receive before its own.
#[test]
fn the_crowded_round_meets_the_last_first() {
    let round = round_of(&Inputs::new(seed()).meeting_round);
    let meetings: Vec<_> = (1..=32).map(|sender| [sender, 65 - sender]).collect();
    assert_eq!(round[..32], meetings);
}

#[test]
fn growth_has_its_counts() {
    let (by_nodes, by_roles) = (by_nodes(seed()), by_roles(seed()));
    for (at, row) in by_nodes.iter().enumerate() {
        assert_eq!((row.nodes, row.roles), (NODES[at % NODES.len()], 16));
    }
    for (at, row) in by_roles.iter().enumerate() {
        assert_eq!((row.nodes, row.roles), (1_024, ROLES[at % ROLES.len()]));
    }
    for row in by_nodes.iter().chain(&by_roles) {
        let file = row.case.bytes();
        let out = row.case.agree();
        assert_eq!(roles(file), row.roles.into());
        let due = usize::from(row.nodes);
        match row.case.input {
            Input::Place { .. } => assert_eq!((nodes(file), nodes(&out)), (due - 2, due)),
            _ => assert_eq!(nodes(file), due),
        }
    }
}

/// The rows of version 2 are those of version 1 but for the juniors.
#[test]
fn version_2_has_the_same_records() {
    let inputs = Inputs::new(seed());
    for (file, second) in [
        (&inputs.largest, &inputs.largest_2),
        (&inputs.typical, &inputs.typical_2),
        (&inputs.largest_bare, &inputs.largest_bare_2),
        (&inputs.typical_bare, &inputs.typical_bare_2),
    ] {
        let mut draft = Draft::of(second);
        let juniors = draft.juniors.take().expect("version 2");
        assert_eq!(draft.bytes(), *file);
        for (role, [mask]) in juniors.into_iter().enumerate() {
            assert_eq!(mask.count_ones() as usize, role);
        }
    }
}

/// The rows of version 3 are those of version 2 by column.
#[test]
fn version_3_has_the_same_records() {
    let inputs = Inputs::new(seed());
    for (rows, columns) in [
        (&inputs.largest_2, &inputs.largest_3),
        (&inputs.typical_2, &inputs.typical_3),
        (&inputs.largest_bare_2, &inputs.largest_bare_3),
        (&inputs.typical_bare_2, &inputs.typical_bare_3),
    ] {
        assert_eq!(trials::row_file(columns).as_ref(), Some(rows));
    }
}

/// The last row of each question has the input of the main table.
#[test]
fn growth_ends_with_the_largest() {
    let inputs = Inputs::new(seed());
    let rows = [by_nodes(seed()), by_roles(seed())].into_iter().flatten();
    let last: Vec<_> = rows
        .filter(|row| (row.nodes, row.roles) == (1_024, 16))
        .collect();
    assert_eq!(last.len(), 2 * 3);
    for row in last {
        let due = match row.case.input {
            Input::Place { .. } => &inputs.largest_bare,
            _ => &inputs.largest,
        };
        assert_eq!(row.case.bytes(), due);
    }
}
