//! Juniors by another way: a file of version 2 is answered as the file of version
//! 1 is whose records grant what its juniors do, but for the layout.

use second::draft::Draft;
use second::{Placed, Version, ROOM, RUN_ROOM};
use trials::{deal, deal_bare, deal_run, engine_check, engine_place, engine_read};
use trials::{engine_ready, engine_run, juniors, seed};

const FILES: u64 = 40_000;

/// The least number of files in which something comes up.
const LEAST: u64 = 500;

/// The file in version 1, with what juniors grant in the records.
fn in_version_1(draft: &Draft) -> Draft {
    Draft {
        juniors: None,
        ..juniors::spelled_out(draft)
    }
}

/// The file as a draft, if it has version 2 and 1 to 8 leave it clean.
fn second_version(file: &[u8]) -> Option<Draft> {
    let sound = Version::claimed(file) == Version::Two && second::read(file).number == 0;
    sound.then(|| Draft::of(file))
}

fn seniors(draft: &Draft) -> bool {
    juniors::granted(draft) != draft.roles
}

#[test]
fn checks_are_alike() {
    let (mut with_seniors, mut refused) = (0, 0);
    for index in 0..FILES {
        let file = deal(Version::Two, seed(), index);
        let Some(draft) = second_version(&file) else {
            continue;
        };
        let first = in_version_1(&draft).bytes();
        assert_eq!(engine_read(&file), engine_read(&first), "{draft:?}");
        let answer = engine_check(&file);
        assert_eq!(answer, engine_check(&first), "{draft:?}");
        with_seniors += u64::from(seniors(&draft));
        refused += u64::from(matches!(answer.0, 11..=13));
    }
    println!("{with_seniors} files with seniors, {refused} refused with 11 to 13");
    assert!(with_seniors >= LEAST && refused >= LEAST);
}

/// What placing answers, and the placed file.
fn placed(draft: &Draft) -> (Placed, Option<Draft>) {
    let mut out = [0; ROOM];
    let placed = engine_place(&draft.bytes(), &mut out);
    let written = (placed.number == 0).then(|| Draft::of(&out[..placed.length.into()]));
    (placed, written)
}

#[test]
fn placed_files_are_alike() {
    let (mut with_seniors, mut refused) = (0, 0);
    for index in 0..FILES {
        let (file, _) = deal_bare(Version::Two, seed(), index);
        let Some(draft) = second_version(&file) else {
            continue;
        };
        let (answer, written) = placed(&draft);
        let (due, of_first) = placed(&in_version_1(&draft));
        let told = |placed: Placed| (placed.number, placed.place, placed.on_steps);
        assert_eq!(told(answer), told(due), "{draft:?}");
        let Some((written, of_first)) = written.zip(of_first) else {
            refused += u64::from(answer.number == 15);
            continue;
        };
        assert_eq!(written.nodes, of_first.nodes, "{draft:?}");
        assert_eq!(written.sessions, of_first.sessions, "{draft:?}");
        assert_eq!(written.juniors, draft.juniors);
        assert_eq!(written.roles, draft.roles);
        with_seniors += u64::from(seniors(&draft));
    }
    println!("{with_seniors} placed with seniors, {refused} refused with 15");
    assert!(with_seniors >= LEAST && refused >= LEAST);
}

#[test]
fn runs_are_alike() {
    let mut with_seniors = 0;
    for index in 0..FILES / 2 {
        let dealt = deal_run(Version::Two, seed(), index);
        let Some(draft) = second_version(&dealt.file) else {
            continue;
        };
        let first = in_version_1(&draft).bytes();
        let state = |file: &[u8]| {
            let mut out = [0; RUN_ROOM];
            let verdict = engine_run(file, &dealt.choices, &mut out);
            (verdict, out, engine_ready(file, &dealt.choices))
        };
        assert!(state(&dealt.file) == state(&first), "{draft:?}");
        with_seniors += u64::from(seniors(&draft));
    }
    println!("{with_seniors} runs with seniors");
    assert!(with_seniors >= LEAST);
}
