//! Who is waiting on what: the named cases, and the engine against the second
//! implementation.

use second::cases::{round_cases, run_cases, totals_cases};
use second::draft::Draft;
use second::{Version, BESIDE, TOTALS};
use trials::{agreed_totals, compare_totals, engine_totals, lengthened, Rng, MOST_CHOICES};
use trials::{busy, crowded, files, meeting_round, seed, typical};

#[test]
fn named_cases() {
    for case in totals_cases() {
        case.demand("engine", engine_totals);
        case.demand("second", second::totals);
    }
}

/// The named cases of runs and rounds have totals too, at every choice.
#[test]
fn named_cases_of_runs_and_rounds() {
    let runs = run_cases().into_iter();
    let runs = runs.map(|case| (case.name, case.file, case.choices));
    let rounds = round_cases().into_iter();
    let rounds = rounds.map(|case| (case.name, case.file, [case.choices, case.round].concat()));
    for (name, file, choices) in runs.chain(rounds) {
        let shortest = choices.len().saturating_sub(400);
        for words in shortest..=choices.len() {
            agreed_totals(&file, &choices[..words], name);
        }
    }
}

#[test]
fn random_lists() {
    compare_totals(Version::One, seed(), files() / 4).demand();
}

#[test]
fn random_lists_of_version_2() {
    compare_totals(Version::Two, seed(), files() / 4).demand();
}

/// What both answer, and how many threads wait.
fn agreed(file: &[u8], choices: &[u16]) -> ((u16, u16), u16) {
    let told = agreed_totals(file, choices, format!("{} words", choices.len()));
    ((told.number, told.place), told.totals.iter().sum())
}

#[test]
fn lists_as_long_as_can_be() {
    for seed in seed()..seed() + 5 {
        let (file, choices) = busy(seed);
        let words = choices.len();
        assert_eq!(words, 2 * MOST_CHOICES);
        let (answer, _) = agreed(&file, &choices);
        assert_eq!(answer, (0, 0));
        // The last choice refused, and one more than there can be.
        let mut last = choices.clone();
        last[words - 2] = 0;
        let (answer, waiting) = agreed(&file, &last);
        assert_eq!(answer, (18, 65_535));
        assert_eq!(waiting, agreed(&file, &choices[..words - 2]).1);
        let more = [&choices[..], &[1, 0]].concat();
        assert_eq!(agreed(&file, &more), ((17, 0), 0));
    }
}

#[test]
fn lists_of_any_length() {
    let (file, choices) = busy(seed());
    let twice = choices.repeat(3);
    let lengths = (0..400).chain(131_060..131_080);
    for words in lengths.chain([196_606, 196_607, 196_608, 262_142, 262_144, 393_210]) {
        let due = if words % 2 == 1 || words > 131_070 {
            17
        } else {
            0
        };
        let (answer, _) = agreed(&file, &twice[..words]);
        assert_eq!(answer, (due, 0), "{words} words");
    }
}

/// 32 of 64 threads wait.
#[test]
fn as_many_as_can_wait() {
    for (file, choices) in [crowded(), meeting_round()] {
        assert_eq!(agreed(&file, &choices), ((0, 0), 32));
    }
}

#[test]
fn a_file_at_the_start_of_a_longer_input() {
    let sounds = Version::ALL.map(|version| typical(version, seed()));
    for sound in sounds.into_iter().chain([Draft::default().bytes()]) {
        assert_eq!(agreed(&sound, &[]).0, (0, 0));
        for (file, due) in lengthened(&sound) {
            assert_eq!(agreed(&file, &[]), ((due, 0), 0));
        }
    }
}

/// One word of any 162 is read, by the kind alone, and none of other lengths.
#[test]
fn a_total_of_any_words() {
    let rng = &mut Rng::new(seed(), 0);
    for _ in 0..200 {
        let beside: Vec<u16> = (0..2 * BESIDE).map(|_| rng.word()).collect();
        let (right, _) = beside.split_at(BESIDE);
        for kind in (0..300).chain([511, 512, 513, 32_768, 32_769, 65_534, 65_535]) {
            let due = match kind {
                1..=32 => beside[BESIDE - TOTALS + usize::from(kind) - 1],
                _ => 0,
            };
            assert_eq!(pilzdamo::total(right, kind), due, "kind {kind}");
            assert_eq!(second::total(right, kind), due, "kind {kind}");
        }
        for words in (0..=2 * BESIDE).filter(|words| *words != BESIDE) {
            let kind = rng.from(0, 33);
            assert_eq!(pilzdamo::total(&beside[..words], kind), 0, "{words} words");
            assert_eq!(second::total(&beside[..words], kind), 0, "{words} words");
        }
    }
}
