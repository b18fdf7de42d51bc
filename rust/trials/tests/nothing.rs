//! A clinic with nothing planned: zero bytes, and files that hold next to nothing, in
//! every call of the engine and of the second implementation.

use second::cases::NOTHING;
use second::draft::to_bytes;
use second::{Placed, Verdict, Written, BEFORE_TOTALS, BESIDE, ROOM, TOTALS};
use trials::{agreed_answers, compare_nothing, deal_asked, files, seed, Answers};

#[test]
fn random_files() {
    compare_nothing(seed(), files() / 3).demand();
}

/// A question with nothing wrong beside its file: no hours, no choices, empty lists,
/// and outputs that are long enough. The choice names thread 1.
fn plainly(file: &[u8]) -> Answers {
    let mut asked = deal_asked(seed(), 0).with_file(file);
    asked.at.hours.clear();
    asked.at.minute = 10_079;
    asked.before = vec![0xa5; ROOM];
    asked.dealt.choices.clear();
    asked.dealt.before = vec![0xa5; ROOM];
    asked.lists.threads.resize(64, Default::default());
    asked.lists.beside = vec![0; BESIDE];
    asked.lists.beside[2..BEFORE_TOTALS].fill(0xa5a5);
    asked.choice = [1, 0];
    agreed_answers(&asked, format_args!("{} bytes", file.len()))
}

/// Zero bytes and the 26 that they are read as, answer by answer.
#[test]
fn nothing_planned() {
    let nothing = to_bytes(&NOTHING);
    for file in [&[][..], &nothing] {
        let told = plainly(file);
        assert_eq!(told.check, (0, 0));
        assert_eq!(told.check_at, Verdict::CLEAN);
        let placed = Placed::written(26, 0);
        for (answer, out) in [&told.place, &told.place_at] {
            assert_eq!(*answer, placed);
            assert_eq!(out[..26], nothing);
            assert!(out[26..].iter().all(|&byte| byte == 0xa5));
        }
        assert_eq!([told.measure, told.measure_at], [placed; 2]);
        // No choice done, no refusal, no thread, no channel.
        let (verdict, out) = &told.run;
        assert_eq!(
            (*verdict, &out[..9]),
            (Verdict::CLEAN, &[0, 0, 0, 0, 0, 0, 0, 0, 0xa5][..])
        );
        assert_eq!((told.ready.sender, told.ready.receiver), (0, 0));
        let (round, out) = &told.round;
        assert_eq!((round.number, round.length, round.words), (0, 8, [0; 128]));
        assert_eq!(*out, told.run.1);
        assert_eq!(told.totals.totals, [0; TOTALS]);
        let (verdict, lists) = &told.start;
        assert_eq!(
            (*verdict, &lists.beside[..2]),
            (Verdict::CLEAN, &[0, 0][..])
        );
        for kind in 0..=33 {
            assert_eq!(pilzdamo::total(&lists.beside, kind), 0);
        }
        let (verdict, _) = &told.choose;
        assert_eq!((verdict.number, verdict.place), (18, 1));
        let (written, out) = &told.merge;
        assert_eq!(*written, Written::bytes(26));
        assert_eq!(*out, told.place.1);
    }
}

/// One byte to 25, and the numbers of every answer.
#[test]
fn one_to_25_bytes() {
    let nothing = to_bytes(&NOTHING);
    for length in 1..=25 {
        for file in [&nothing[..length], &[0; 25][..length], &[2; 25][..length]] {
            let told = plainly(file);
            assert_eq!(told.check, (1, 0));
            let placed = [told.place.0, told.place_at.0, told.measure, told.measure_at];
            assert_eq!(placed, [Placed::refused(1, 0); 4]);
            let verdicts = [told.check_at, told.run.0, told.start.0, told.choose.0];
            let one = Verdict {
                number: 1,
                place: 0,
            };
            assert_eq!(verdicts, [one; 4]);
            let numbers = [told.ready.number, told.round.0.number, told.totals.number];
            assert_eq!(numbers, [1; 3]);
            assert_eq!(told.merge.0, Written::refused(1, 0));
        }
    }
}
