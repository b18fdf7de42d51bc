//! Placing against searches through everything, on small files.

use second::draft::Draft;
use second::{Placed, Version, ROOM};
use std::collections::BTreeMap;
use std::fmt::Debug;
use trials::{active_sets, agreed_placing, agreed_placing_at, closed, without_roles, At};
use trials::{former, grant_more, rivals, seed, small_bare, states, tied_bare, Cost, Rng, Trees};

const FILES: u64 = 40_000;

/// The least number of files in which something comes up.
const LEAST: u64 = 300;

/// The two take turns.
fn version(index: u64) -> Version {
    Version::BY_ROW[(index % 2) as usize]
}

/// A small file; every third has many placements with the fewest on steps.
fn small(rng: &mut Rng, index: u64, nodes: u16) -> Draft {
    if index.is_multiple_of(3) {
        let nodes = rng.from(4, nodes);
        return tied_bare(rng, version(index), nodes);
    }
    small_bare(rng, version(index), nodes)
}

/// The on steps of a placed file, and its nodes of tags 0 to 4 that are reached
/// with a role.
fn cost(placed: Placed, out: &[u8]) -> Cost {
    let draft = Draft::of(&out[..placed.length.into()]);
    let idle = active_sets(&draft).zip(&draft.nodes);
    let idle = idle.filter(|(active, node)| node[0] <= 4 && *active != 0);
    Cost {
        on_steps: placed.on_steps.into(),
        idle: idle.count() as u32,
    }
}

/// Fails unless a file is refused by 15 where it has no rival, and else placed at
/// the cost of the cheapest.
fn demand(least: Option<Cost>, (placed, out): (Placed, Vec<u8>), origin: &impl Debug) {
    match least {
        None => assert_eq!(placed.number, 15, "{origin:?}"),
        Some(least) => {
            assert_eq!(placed.number, 0, "{origin:?}");
            assert_eq!(cost(placed, &out), least, "{origin:?}");
        }
    }
}

#[test]
fn no_rival_costs_less() {
    let (mut by_steps, mut by_idle) = (BTreeMap::new(), BTreeMap::new());
    for index in 0..FILES {
        let draft = small(&mut Rng::new(seed(), index), index, 16);
        let least = rivals::least(&Trees::of(&draft));
        demand(
            least,
            agreed_placing(&draft.bytes(), &[1; ROOM], index),
            &draft,
        );
        *by_steps
            .entry(least.map(|least| least.on_steps))
            .or_insert(0) += 1;
        *by_idle.entry(least.map(|least| least.idle)).or_insert(0) += 1;
    }
    println!("files by their fewest on steps: {by_steps:?}");
    println!("files by their fewest idle nodes in a role: {by_idle:?}");
    for count in [None, Some(0), Some(1), Some(2), Some(3), Some(4)] {
        assert!(by_steps[&count] >= LEAST, "{count:?} on steps");
        assert!(by_idle[&count] >= LEAST, "{count:?} idle nodes");
    }
}

/// A role that is closed is as good as none.
#[test]
fn no_rival_of_open_roles_costs_less() {
    let (mut none, mut more) = (0, 0);
    for index in 0..FILES {
        let rng = &mut Rng::new(seed().rotate_left(8), index);
        let mut draft = small(rng, index, 16);
        grant_more(rng, &mut draft);
        grant_more(rng, &mut draft);
        let roles = draft.roles.len() as u16;
        let mut hours = Vec::new();
        for role in 1..=roles {
            if rng.once_in(2) {
                hours.extend([role, rng.from(0, 9), rng.from(10, 20)]);
            }
        }
        let minute = rng.from(0, 30);
        let less = without_roles(&draft, closed(&hours, minute));
        let least = rivals::least(&Trees::of(&less));
        let at = At {
            file: draft.bytes(),
            hours,
            minute,
        };
        demand(least, agreed_placing_at(&at, &[1; ROOM], index), &at);
        let on_steps = |least: Option<Cost>| least.map(|least| least.on_steps);
        let open = rivals::least(&Trees::of(&draft));
        none += u64::from(open.is_some() && least.is_none());
        more += u64::from(open.is_some() && on_steps(least) > on_steps(open));
    }
    println!("{none} files without a rival by hours, {more} with more on steps");
    assert!(none >= LEAST && more >= LEAST);
}

#[test]
fn the_states_are_the_smallest_list() {
    let (mut placed_files, mut better, mut settled) = (0, 0, 0);
    for index in 0..FILES {
        let draft = small(&mut Rng::new(!seed(), index), index, 8);
        let trees = Trees::of(&draft);
        let (placed, out) = agreed_placing(&draft.bytes(), &[1; ROOM], index);
        let cheapest = states::cheapest(&trees, |states| states::cost(&trees, states));
        let Some(states) = cheapest.first() else {
            assert_eq!(placed.number, 15, "{draft:?}");
            continue;
        };
        let due = states::placed(&draft, &trees, states).bytes();
        assert_eq!(usize::from(placed.length), due.len(), "{draft:?}");
        assert_eq!(out[..due.len()], due, "{draft:?}");
        let greedy = states::greedy(&trees, true);
        let steps = states::on_steps(&trees, &greedy);
        placed_files += 1;
        better += u64::from(steps > placed.on_steps.into());
        settled += u64::from(cheapest.len() > 1);
    }
    println!("{placed_files} placed, {better} better than greedy, {settled} settled by the list");
    assert!(placed_files > FILES / 2);
    assert!(better >= LEAST && settled >= LEAST);
}

/// What the tallies of placing compare with.
#[test]
fn the_former_states_are_the_smallest_list_by_on_steps() {
    let mut other = 0;
    for index in 0..FILES / 8 {
        let rng = &mut Rng::new(!seed(), index);
        let nodes = rng.from(6, 9);
        let trees = Trees::of(&tied_bare(rng, version(index), nodes));
        let cheapest = states::cheapest(&trees, |states| states::on_steps(&trees, states));
        assert_eq!(former::states(&trees), cheapest[0], "{index}");
        let now = states::cheapest(&trees, |states| states::cost(&trees, states));
        other += u64::from(now[0] != cheapest[0]);
    }
    println!("{other} files with other states than by the former rule");
    assert!(other >= 30);
}
