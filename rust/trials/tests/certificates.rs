//! Certificates for all lists of choices: the named cases, the examples, and the engine
//! against the second implementation.

use second::cases::closing_cases;
use second::{Closing, Version, ROOM};
use trials::{agreed_closing, compare_certificates, engine_closing, files, seed, Certified};

#[test]
fn named_cases() {
    for case in closing_cases() {
        case.demand("engine", engine_closing);
        case.demand("second", second::closing);
    }
}

/// The least number of answers that are compared.
const LEAST: u64 = 15_000;

fn compare(version: Version, inputs: u64) {
    let tally = compare_certificates(version, seed(), inputs);
    tally.demand();
    assert!(tally.comparisons() >= LEAST);
}

#[test]
fn random_certificates() {
    compare(Version::One, files() / 400);
}

#[test]
fn random_certificates_of_version_2() {
    compare(Version::Two, files() / 800);
}

#[test]
fn random_certificates_of_version_3() {
    compare(Version::Three, files() / 800);
}

/// The bytes of an example.
fn example(name: &str) -> Vec<u8> {
    let folder = concat!(env!("CARGO_MANIFEST_DIR"), "/../../examples");
    std::fs::read(format!("{folder}/{name}")).expect("an example")
}

/// An example's file, placed.
fn placed(name: &str) -> Vec<u8> {
    let mut out = [0; ROOM];
    let placed = second::place(&example(name), &mut out);
    assert_eq!(placed.number, 0, "{name}");
    out[..placed.length.into()].to_vec()
}

/// The seats of an example.
fn table(name: &str) -> Vec<u16> {
    let text = String::from_utf8(example(name)).expect("text");
    let words = text.lines().flat_map(|line| line.split('#').next());
    let words = words.flat_map(str::split_whitespace);
    words.map(|word| word.parse().expect("a number")).collect()
}

/// Searches a file, and both accept what is found; how many states there are. With a row
/// more or less it is refused.
fn states(file: Vec<u8>, seats: &[u16]) -> usize {
    let certificate = second::search(&file, seats, 100_000).expect("it has an end");
    let mut certified = Certified {
        file,
        seats: seats.to_vec(),
        certificate,
    };
    assert_eq!(agreed_closing(&certified, "an example"), Closing::CLEAN);
    let states = certified.certificate.places.len();
    certified.certificate.places.push(0);
    let due = Closing::at(states as u32 + 1);
    assert_eq!(agreed_closing(&certified, "a row more"), due);
    certified.certificate.places.truncate(states - 1);
    assert_eq!(agreed_closing(&certified, "a row less").number, 18);
    states
}

#[test]
fn the_examples() {
    let one_holder = table("seats/one-holder.seats");
    let free = vec![0; one_holder.len()];
    let spring = placed("spring/bare.clinic");
    let cut = example("spring/cut.clinic");
    let asked = placed("seats/asked.clinic");
    for (name, file, without, with_one) in [
        ("spring", spring, 4_033, 3_548),
        ("cut", cut, 5_749, 5_614),
        ("asked", asked, 82_176, 22_528),
    ] {
        let found = [&free, &one_holder].map(|seats| states(file.clone(), seats));
        println!("{name}: {found:?} states");
        assert_eq!(found, [without, with_one], "{name}");
    }
}
