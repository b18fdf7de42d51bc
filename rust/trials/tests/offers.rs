//! What is offered in a lent state: the named cases, a crowd, the examples searched by offers
//! alone, and the engine against the second implementation.

use second::cases::offers_cases;
use second::draft::Draft;
use second::{Version, ROOM};
use trials::{agreed_offers, compare_offers, engine_offers, files, seed, Lending};

#[test]
fn named_cases() {
    for case in offers_cases() {
        case.demand("engine", engine_offers);
        case.demand("second", second::offers);
    }
}

/// The least number of answers that are compared.
const LEAST: u64 = 15_000;

fn compare(version: Version, inputs: u64) {
    let tally = compare_offers(version, seed(), inputs);
    tally.demand();
    assert!(tally.comparisons() >= LEAST);
}

#[test]
fn random_states() {
    compare(Version::One, files() / 1_600);
}

#[test]
fn random_states_of_version_2() {
    compare(Version::Two, files() / 1_600);
}

#[test]
fn random_states_of_version_3() {
    compare(Version::Three, files() / 1_600);
}

/// 32 threads can send to 32 others each, and 64 channels are made: as many offers as there
/// can be, which have room in the words that are said to be enough, and need just their own.
#[test]
fn as_many_offers_as_there_can_be() {
    let file = Draft {
        users: vec![[1]],
        roles: vec![[1, 0, 1, 0]],
        kinds: vec![[0]],
        channels: vec![[1, 1]],
        sessions: vec![[1, 1, 1], [1, 1, 3]],
        nodes: vec![[6, 257, 1], [0, 0, 0], [5, 257, 0], [0, 0, 0]],
        ..Draft::default()
    };
    let thread = |node| [1, node, 1, 1, 0, 0, 0, 0, 0, 0, 0, 0];
    let mut state = vec![64, 64];
    state.extend([1; 2 * 64]);
    for node in [1, 3] {
        (0..32).for_each(|_| state.extend(thread(node)));
    }
    state.extend([1; 32].into_iter().chain([2; 32]));
    state.push(0);
    let offer = 4 + state.len();
    let mut lending = Lending {
        file: file.bytes(),
        seats: vec![0],
        state,
        before: vec![9; pilzdamo::OFFERS_ROOM],
    };
    let (answer, out) = agreed_offers(&lending, "a crowd");
    assert_eq!((answer.number, answer.count), (0, 32 * 32));
    assert_eq!(answer.length as usize, 32 * 32 * offer);
    assert_eq!(
        out[32 * 32 * offer - offer..][..4],
        [32, 64, 0, offer as u16 - 4]
    );
    lending.before.truncate(32 * 32 * offer);
    assert_eq!(agreed_offers(&lending, "just enough").0, answer);
    lending.before.pop();
    let (less, _) = agreed_offers(&lending, "a word less");
    assert_eq!((less.number, less.place), (17, 0));
    assert_eq!((less.count, less.length as usize), (1_023, 1_023 * offer));
}

/// A search by the engine's offers finds the second implementation's table.
#[test]
fn the_examples() {
    let folder = concat!(env!("CARGO_MANIFEST_DIR"), "/../../examples");
    let example = |name: &str| std::fs::read(format!("{folder}/{name}")).expect("an example");
    let mut out = [0; ROOM];
    let placed = second::place(&example("spring/bare.clinic"), &mut out);
    let spring = out[..placed.length.into()].to_vec();
    for (file, seats, states) in [
        (&spring, [0, 0, 0], 4_033),
        (&spring, [0, 1, 0], 3_548),
        (&example("spring/cut.clinic"), [0, 0, 0], 5_749),
    ] {
        let found = trials::search_by_offers(file, &seats, states).expect("it has an end");
        assert_eq!(found.places.len(), states);
        assert!(second::search(file, &seats, states) == Some(found));
        assert_eq!(trials::search_by_offers(file, &seats, states - 1), None);
        if seats == [0; 3] {
            assert_eq!(trials::search_by_choose(file, states), Some(states));
        }
    }
}
