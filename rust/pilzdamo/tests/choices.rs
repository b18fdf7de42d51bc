//! The choices that a desk lists are those that a run can go on with.

use pilzdamo::{Desk, RUN_ROOM};
use std::collections::HashSet;
use std::fs;
use std::path::{Path, PathBuf};

/// The examples with this ending, of all folders.
fn examples(ending: &str) -> Vec<PathBuf> {
    let folder = Path::new(env!("CARGO_MANIFEST_DIR")).join("../../examples");
    let (mut folders, mut found) = (vec![folder], Vec::new());
    while let Some(folder) = folders.pop() {
        for entry in fs::read_dir(&folder).expect("a folder") {
            let path = entry.expect("an entry").path();
            if path.is_dir() {
                folders.push(path);
            } else if path.extension().is_some_and(|found| found == ending) {
                found.push(path);
            }
        }
    }
    found.sort();
    found
}

/// Every example that can be run, as it stands and placed.
fn files() -> Vec<Vec<u8>> {
    let files = examples("clinic").into_iter();
    let files: Vec<Vec<u8>> = files.map(|path| fs::read(path).expect("a file")).collect();
    let placed = files.iter().filter_map(|file| pilzdamo::placed(file).ok());
    let all: HashSet<Vec<u8>> = placed.map(|(file, _)| file).collect();
    let all = all.into_iter().chain(files);
    all.filter(|file| pilzdamo::read(file).is_clean()).collect()
}

/// Every list of numbers, each with an even length.
fn lists() -> Vec<Vec<u16>> {
    let numbers = |path: PathBuf| {
        let text = fs::read_to_string(path).expect("text");
        let lines = text.lines().flat_map(|line| line.split('#').next());
        let words = lines.flat_map(str::split_whitespace);
        words.map(|word| word.parse().ok()).collect()
    };
    let lists = examples("choices").into_iter().filter_map(numbers);
    lists
        .filter(|list: &Vec<u16>| list.len().is_multiple_of(2))
        .collect()
}

/// A dispatcher's list, from the start of a file's run until nothing can be done.
fn dispatched(file: &[u8]) -> Vec<u16> {
    let mut choices = Vec::new();
    // A run that could go on for ever is followed so far.
    for _ in 0..12 {
        let round = pilzdamo::round(file, &choices, &mut [0; RUN_ROOM]);
        choices.extend(round.choices());
    }
    choices
}

/// The choices that a run through the list and one more isn't refused for.
fn by_runs(file: &[u8], list: &[u16]) -> Vec<(u16, u16)> {
    let mut out = [0; RUN_ROOM];
    let pairs = (0..=65).flat_map(|thread| (0..=65).map(move |partner| (thread, partner)));
    pairs
        .filter(|&(thread, partner)| {
            let choices = [list, &[thread, partner]].concat();
            pilzdamo::run(file, &choices, &mut out).is_clean()
        })
        .collect()
}

/// Compares both in each new state along a list, up to a choice that is refused; how
/// many states they were.
fn along(file: &[u8], list: &[u16], seen: &mut HashSet<String>) -> usize {
    let mut desk = Desk::start(file).expect("a file to run");
    let mut states = 0;
    for done in 0..=list.len() / 2 {
        let before = &list[..2 * done];
        if seen.insert(format!("{desk:?}")) {
            let choices = desk.choices();
            assert_eq!(choices, by_runs(file, before), "{before:?}");
            let meeting = choices.into_iter().find(|&(_, partner)| partner != 0);
            assert_eq!(pilzdamo::ready(file, before).pair(), meeting, "{before:?}");
            states += 1;
        }
        let Some(&[thread, partner]) = list[2 * done..].first_chunk() else {
            break;
        };
        let why_not = desk.why_not(thread, partner);
        assert_eq!(desk.choose(thread, partner).err(), why_not);
        if why_not.is_some() {
            break;
        }
    }
    states
}

#[test]
fn in_every_state_of_the_examples() {
    let (lists, mut states) = (lists(), 0);
    for file in files() {
        let mut seen = HashSet::new();
        for list in lists.iter().chain([&dispatched(&file)]) {
            states += along(&file, list, &mut seen);
        }
    }
    assert!(states > 500, "{states} states");
}

/// A desk keeps the file that it started with, and a clone stays where it is.
#[test]
fn a_desk_has_a_file_of_its_own() {
    let mut paths = examples("clinic").into_iter();
    let path = paths.find(|path| path.ends_with("transfer.clinic"));
    let mut file = fs::read(path.expect("the transfer")).expect("a file");
    let desk = Desk::start(&file).expect("a file to run");
    let kept = file.clone();
    file.fill(0);
    assert_eq!(desk.file(), kept);
    let choices = desk.choices();
    assert_eq!(choices, [(1, 0), (2, 0), (3, 0)]);
    let mut other = desk.clone();
    for (thread, partner) in choices.clone() {
        assert_eq!(other.choose(thread, partner), Ok(()));
        assert_eq!(desk.choices(), choices);
    }
    assert_eq!((other.file(), other.threads().len()), (&kept[..], 4));
    assert!(Desk::after(&kept, &[]).is_ok_and(|desk| desk.file() == kept));
}

/// Nothing is planned, and nothing can be done.
#[test]
fn no_threads_no_choices() {
    let desk = Desk::start(&[]).expect("nothing planned");
    assert_eq!(desk.choices(), []);
    assert_eq!(desk.why_not(1, 0).map(|refusal| refusal.number), Some(18));
}
